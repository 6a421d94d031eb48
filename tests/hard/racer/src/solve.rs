//! Values for the variables of a problem: closed forms, one interface after another, or grids where these show nothing.

use crate::grid::Grids;
use crate::hashing::{Map, Set};
use crate::infer::{Constraint, Problem};
use crate::least::refutations;
use crate::lexer::Span;
use crate::linear::{Bag, Forms};
use crate::pattern::{Form, Pattern, Replacing, Table, ONE, ZERO};
use crate::points::{grid_fits, Points, Space};
use crate::program::Program;
use crate::refusal::{Refusal, Result};
use crate::tree::Polarity;
use std::rc::Rc;

/// The value of a variable.
#[derive(Clone)]
pub enum Value {
    Pattern(Pattern),
    /// The words that are cut at the bound to one of the points.
    Grid {
        bound: u32,
        points: Rc<Points>,
    },
}

pub struct Solution {
    /// The value of each variable; they are numbered from 1.
    pub values: Vec<Value>,
    /// For each interface the bound of the grids that are its values, where these aren't patterns.
    pub bounds: Vec<Option<u32>>,
}

/// What an interface's constraints come to.
enum Outcome {
    Solved(Option<u32>, Vec<(u32, Value)>),
    Refuted(usize, Bag),
    Undecided(usize),
    TooLarge,
}

pub fn solve(program: &Program, table: &Table, problem: &Problem, forms: &mut Forms) -> Result<Solution> {
    check_usable(table, problem)?;
    let mut values = vec![Value::Pattern(ZERO); problem.variables.len()];
    let mut bounds = Vec::new();
    let mut first: Option<(usize, Option<Bag>)> = None;
    for system in systems(program, table, problem) {
        let (number, word) = match system.solved(program, forms) {
            Outcome::TooLarge => {
                return Err(Refusal::new(format!("too large: {}", program.interfaces[system.interface as usize].name)))
            }
            Outcome::Solved(bound, own) => {
                bounds.push(bound);
                own.into_iter().for_each(|(variable, value)| values[variable as usize - 1] = value);
                continue;
            }
            Outcome::Undecided(number) => (number, None),
            Outcome::Refuted(number, word) => (number, Some(word)),
        };
        if first.as_ref().is_none_or(|it| number < it.0) {
            first = Some((number, word));
        }
    }
    match first {
        None => Ok(Solution { values, bounds }),
        Some((number, word)) => Err(refused(program, table, &problem.constraints[number], word)),
    }
}

fn refused(program: &Program, table: &Table, constraint: &Constraint, word: Option<Bag>) -> Refusal {
    let Span { start, end } = constraint.at;
    let Some(word) = word else {
        return Refusal::at("undecided", constraint.at);
    };
    let names = program.tag_names(constraint.interface);
    let each = names.iter().zip(word.counts).flat_map(|(name, count)| std::iter::repeat_n(name.as_str(), count as usize));
    let mut shown = each.collect::<Vec<_>>().join(" ");
    if shown.is_empty() {
        shown.push('1');
    }
    let mut line = format!("refuted at {start}-{end}: word {shown} not in ");
    table.write(constraint.right, &names, &mut line);
    Refusal::new(line)
}

/// Each sending variable of a signature has a word that can be derived.
fn check_usable(table: &Table, problem: &Problem) -> Result<()> {
    let usable = usable_variables(table, problem);
    for (variable, usable) in problem.variables[..problem.signature_variables].iter().zip(usable) {
        if variable.polarity == Polarity::Sending && !usable {
            return Err(Refusal::at("unusable", variable.at));
        }
    }
    Ok(())
}

/// Which variables have a word. A constraint is looked at again only where a variable on its left was found to have one.
fn usable_variables(table: &Table, problem: &Problem) -> Vec<bool> {
    let mut users: Vec<Vec<usize>> = vec![Vec::new(); problem.variables.len()];
    for (number, constraint) in problem.constraints.iter().enumerate() {
        for variable in table.variables(constraint.left) {
            users[variable as usize - 1].push(number);
        }
    }
    let mut usable = vec![false; problem.variables.len()];
    let mut waiting: Vec<usize> = (0..problem.constraints.len()).collect();
    while let Some(number) = waiting.pop() {
        let constraint = &problem.constraints[number];
        let Form::Var(variable) = table.form(constraint.right) else { continue };
        let place = variable as usize - 1;
        if !usable[place] && table.is_inhabited(constraint.left, &|number| usable[number as usize - 1]) {
            usable[place] = true;
            waiting.extend(&users[place]);
        }
    }
    usable
}

/// What of a problem belongs to one interface.
struct System<'p> {
    table: &'p Table,
    interface: u32,
    /// In ascending order.
    variables: Vec<u32>,
    constraints: Vec<(usize, &'p Constraint)>,
}

fn systems<'p>(program: &Program, table: &'p Table, problem: &'p Problem) -> Vec<System<'p>> {
    let mut systems: Vec<System> = (0..program.interfaces.len() as u32)
        .map(|interface| System { table, interface, variables: Vec::new(), constraints: Vec::new() })
        .collect();
    for (place, variable) in problem.variables.iter().enumerate() {
        systems[variable.interface as usize].variables.push(place as u32 + 1);
    }
    for (number, constraint) in problem.constraints.iter().enumerate() {
        systems[constraint.interface as usize].constraints.push((number, constraint));
    }
    systems
}

impl System<'_> {
    fn solved(&self, program: &Program, forms: &mut Forms) -> Outcome {
        let lowers = self.lowers();
        let values = Elimination { table: self.table, lowers: &lowers, values: Map::default() }.assigned(&self.variables);
        let uncovered = match &values {
            Some(values) => self.first_uncovered(values, forms),
            None => Uncovered::TooLarge,
        };
        if let (Some(values), Uncovered::None) = (values, &uncovered) {
            let value = |variable: &u32| (*variable, Value::Pattern(values[variable]));
            return Outcome::Solved(None, self.variables.iter().map(value).collect());
        }
        if let Some(bound) = self.grid_bound(program.tag_count(self.interface)) {
            return self.grids(Space::new(bound, program.tag_count(self.interface)), &lowers);
        }
        match uncovered {
            Uncovered::First(number) => Outcome::Undecided(number),
            _ => Outcome::TooLarge,
        }
    }

    /// What lies in each variable, by the constraints, taken together.
    fn lowers(&self) -> Map<u32, Pattern> {
        let mut lowers: Map<u32, Pattern> = self.variables.iter().map(|variable| (*variable, ZERO)).collect();
        for (_, constraint) in &self.constraints {
            if let Form::Var(variable) = self.table.form(constraint.right) {
                let lower = lowers.entry(variable).or_insert(ZERO);
                *lower = self.table.sum(*lower, constraint.left);
            }
        }
        lowers
    }

    fn first_uncovered(&self, values: &Map<u32, Pattern>, forms: &mut Forms) -> Uncovered {
        let mut replacing = Replacing::new(self.table, 0, u32::MAX, |variable| values[&variable]);
        let mut first = Uncovered::None;
        for (number, constraint) in &self.constraints {
            let (left, right) = (replacing.of(constraint.left), replacing.of(constraint.right));
            if !forms.fits(left) || !forms.fits(right) {
                return Uncovered::TooLarge;
            }
            if matches!(first, Uncovered::None) && !self.table.is_arm(left, right) && forms.cover(left, right).is_none() {
                first = Uncovered::First(*number);
            }
        }
        first
    }

    /// The bound of the interface's grids, where its written patterns are flat and the grid isn't too large.
    fn grid_bound(&self, tags: usize) -> Option<u32> {
        let closed = || self.constraints.iter().map(|it| it.1.right).filter(|right| self.table.is_closed(*right));
        let bound = closed().map(|right| self.table.degree(right)).max().unwrap_or(0).saturating_add(1);
        (closed().all(|right| self.table.is_flat(right)) && grid_fits(bound, tags)).then_some(bound)
    }

    /// The least grids, if they show each constraint.
    fn grids(&self, space: Space, lowers: &Map<u32, Pattern>) -> Outcome {
        let bound = space.bound as u32;
        let mut grids = Grids::new(self.table, space);
        grids.solve(&self.variables, lowers);
        let mut failing = Vec::new();
        let mut seen = Set::default();
        for (number, constraint) in &self.constraints {
            if !self.table.is_closed(constraint.right) || !seen.insert((constraint.left, constraint.right)) {
                continue;
            }
            let (left, right) = (grids.of(constraint.left), grids.of(constraint.right));
            if !grids.space.is_within(&left, &right) {
                failing.push((*number, constraint.left, right));
            }
        }
        if failing.is_empty() {
            let value = |variable: &u32| (*variable, Value::Grid { bound, points: grids.variables[variable].clone() });
            return Outcome::Solved(Some(bound), self.variables.iter().map(value).collect());
        }
        let sides: Vec<(Pattern, &Points)> = failing.iter().map(|(_, left, right)| (*left, &**right)).collect();
        let mut words = refutations(&grids, lowers, &sides);
        if words.iter().any(|it| it.is_none()) {
            return Outcome::TooLarge;
        }
        match words.swap_remove(0) {
            Some(word) => Outcome::Refuted(failing[0].0, word),
            None => Outcome::TooLarge,
        }
    }
}

/// The first constraint that isn't covered.
enum Uncovered {
    None,
    First(usize),
    TooLarge,
}

/// Least values: variables are eliminated in ascending order, and put in again from the last one on.
struct Elimination<'a> {
    table: &'a Table,
    lowers: &'a Map<u32, Pattern>,
    values: Map<u32, Pattern>,
}

impl Elimination<'_> {
    /// The values, unless one gets too large.
    fn assigned(mut self, variables: &[u32]) -> Option<Map<u32, Pattern>> {
        for &variable in variables {
            let value = self.eliminated(variable)?;
            self.values.insert(variable, value);
        }
        for &variable in variables.iter().rev() {
            let values = &self.values;
            let value = Replacing::new(self.table, variable + 1, u32::MAX, |later| values[&later]).of(self.values[&variable]);
            self.values.insert(variable, self.small(value)?);
        }
        Some(self.values)
    }

    fn small(&self, pattern: Pattern) -> Option<Pattern> {
        self.table.is_small(pattern).then_some(pattern)
    }

    fn eliminated(&self, variable: u32) -> Option<Pattern> {
        let table = self.table;
        let lower = self.small(self.without_earlier(self.small(self.lowers[&variable])?, variable)?)?;
        let base = Replacing::new(table, variable, variable, |_| ZERO).of(lower);
        let slope = self.small(table.derivative(lower, variable))?;
        let slope = self.small(Replacing::new(table, variable, variable, |_| base).of(slope))?;
        self.small(table.product(table.star(slope), base))
    }

    /// The pattern with the earlier variables replaced. Values have later variables alone; so those that are needed are taken from the
    /// last one on, and each is built once.
    fn without_earlier(&self, pattern: Pattern, variable: u32) -> Option<Pattern> {
        let mut needed = Set::default();
        let mut open = self.earlier(pattern, variable);
        while let Some(next) = open.pop() {
            if needed.insert(next) {
                open.extend(self.earlier(self.values[&next], variable));
            }
        }
        if needed.is_empty() {
            return Some(Replacing::new(self.table, 0, 0, |_| ONE).of(pattern));
        }
        let mut needed: Vec<u32> = needed.into_iter().collect();
        needed.sort_unstable();
        let mut resolved: Map<u32, Pattern> = Map::default();
        for earlier in needed.into_iter().rev() {
            let value = Replacing::new(self.table, 0, variable - 1, |it| resolved[&it]).of(self.values[&earlier]);
            resolved.insert(earlier, self.small(value)?);
        }
        Some(Replacing::new(self.table, 0, variable - 1, |it| resolved[&it]).of(pattern))
    }

    fn earlier(&self, pattern: Pattern, variable: u32) -> Vec<u32> {
        let mut found = self.table.variables(pattern);
        found.truncate(found.partition_point(|it| *it < variable));
        found
    }
}
