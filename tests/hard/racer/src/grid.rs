//! Least grids: for each variable of an interface the words that lie in it, cut at a bound.

use crate::hashing::Map;
use crate::pattern::{Form, Pattern, Table};
use crate::points::{Points, Space};
use std::rc::Rc;

/// Patterns whose words are known, each worked out once.
pub struct Grids<'t> {
    pub table: &'t Table,
    pub space: Space,
    pub variables: Map<u32, Rc<Points>>,
    done: Map<Pattern, Rc<Points>>,
}

impl<'t> Grids<'t> {
    pub fn new(table: &'t Table, space: Space) -> Grids<'t> {
        Grids { table, space, variables: Map::default(), done: Map::default() }
    }

    /// The words of the pattern, each cut at the bound, where its variables are known.
    pub fn of(&mut self, pattern: Pattern) -> Rc<Points> {
        if let Some(known) = self.done.get(&pattern) {
            return known.clone();
        }
        let made = match self.table.form(pattern) {
            Form::Zero => Rc::new(Points::none()),
            Form::One => Rc::new(Points::one(0)),
            Form::Tag(tag) => Rc::new(Points::one(self.space.of_tag(tag))),
            Form::Var(number) => self.variables.get(&number).cloned().unwrap_or_else(|| Rc::new(Points::none())),
            Form::Sum(left, right) => {
                let (left, right) = (self.of(left), self.of(right));
                Rc::new(self.space.union(&left, &right))
            }
            Form::Product(left, right) => {
                let (left, right) = (self.of(left), self.of(right));
                Rc::new(self.space.with_sums(&Points::none(), &left, &right))
            }
            Form::Star(part) => {
                let part = self.of(part);
                Rc::new(self.space.closed(&Points::one(0), &part))
            }
        };
        self.done.insert(pattern, made.clone());
        made
    }

    /// The least sets for variables that have these patterns as lower bounds: group by group of those that depend on one another.
    pub fn solve(&mut self, variables: &[u32], lowers: &Map<u32, Pattern>) {
        for group in groups_of(self.table, variables, lowers) {
            self.solve_group(&group, lowers);
        }
    }

    fn solve_group(&mut self, group: &[u32], lowers: &Map<u32, Pattern>) {
        let mut rounds = Rounds { parts: Map::default(), fresh: Map::default(), all: Map::default(), round: 0 };
        for variable in group {
            rounds.all.insert(*variable, Points::none());
            rounds.fresh.insert(*variable, Points::none());
        }
        loop {
            rounds.round += 1;
            let mut next = Vec::new();
            for variable in group {
                rounds.pass(self, lowers[variable]);
                next.push((*variable, self.space.less(&rounds.parts[&lowers[variable]].fresh, &rounds.all[variable])));
            }
            let mut is_done = true;
            for (variable, fresh) in next {
                is_done &= fresh.is_empty();
                let all = self.space.union(&rounds.all[&variable], &fresh);
                rounds.all.insert(variable, all);
                rounds.fresh.insert(variable, fresh);
            }
            if is_done {
                break;
            }
        }
        for variable in group {
            let all = rounds.all.remove(variable).unwrap_or_else(Points::none);
            self.variables.insert(*variable, Rc::new(all));
        }
    }
}

/// What is known of a pattern in which variables of the group stand, after some rounds: all its points, and those of the last one.
struct Part {
    all: Points,
    fresh: Points,
    round: u32,
    is_open: bool,
}

/// Rounds in which only what is new in the one before is put together with what is known.
struct Rounds {
    parts: Map<Pattern, Part>,
    all: Map<u32, Points>,
    fresh: Map<u32, Points>,
    round: u32,
}

impl Rounds {
    /// Brings the pattern to this round.
    fn pass(&mut self, grids: &mut Grids, pattern: Pattern) {
        let before = match self.parts.remove(&pattern) {
            None if grids.table.variables(pattern).iter().any(|it| self.all.contains_key(it)) => Points::none(),
            None => {
                let all = (*grids.of(pattern)).clone();
                self.parts.insert(pattern, Part { fresh: all.clone(), all, round: self.round, is_open: false });
                return;
            }
            Some(part) if part.round == self.round => {
                self.parts.insert(pattern, part);
                return;
            }
            Some(part) if !part.is_open => {
                self.parts.insert(pattern, Part { fresh: Points::none(), round: self.round, ..part });
                return;
            }
            Some(part) => part.all,
        };
        let form = grids.table.form(pattern);
        match form {
            Form::Sum(left, right) | Form::Product(left, right) => {
                self.pass(grids, left);
                self.pass(grids, right);
            }
            Form::Star(part) => self.pass(grids, part),
            _ => {}
        }
        let all = self.grown(grids, form, &before);
        let fresh = if let Form::Var(number) = form { self.fresh[&number].clone() } else { grids.space.less(&all, &before) };
        self.parts.insert(pattern, Part { all, fresh, round: self.round, is_open: true });
    }

    /// What the pattern has by now, where it had this before.
    fn grown(&self, grids: &Grids, form: Form, before: &Points) -> Points {
        let space = &grids.space;
        match form {
            Form::Var(number) => self.all[&number].clone(),
            Form::Sum(left, right) => {
                let all = space.union(before, &self.parts[&left].fresh);
                space.union(&all, &self.parts[&right].fresh)
            }
            Form::Product(left, right) if left == right => {
                let part = &self.parts[&left];
                space.with_sums(before, &part.fresh, &part.all)
            }
            Form::Product(left, right) => {
                let (left, right) = (&self.parts[&left], &self.parts[&right]);
                let all = space.with_sums(before, &left.fresh, &right.all);
                space.with_sums(&all, &left.all, &right.fresh)
            }
            Form::Star(part) => space.closed(&space.union(before, &Points::one(0)), &self.parts[&part].fresh),
            Form::Zero | Form::One | Form::Tag(_) => before.clone(),
        }
    }
}

/// The variables in groups of those whose lower bounds need one another, each group behind those that it needs.
fn groups_of(table: &Table, variables: &[u32], lowers: &Map<u32, Pattern>) -> Vec<Vec<u32>> {
    let places: Map<u32, usize> = variables.iter().enumerate().map(|(place, variable)| (*variable, place)).collect();
    let needs: Vec<Vec<usize>> = variables
        .iter()
        .map(|it| table.variables(lowers[it]).iter().filter_map(|it| places.get(it).copied()).collect())
        .collect();
    let mut walk = Grouping {
        needs: &needs,
        order: vec![0; needs.len()],
        low: vec![0; needs.len()],
        open: Vec::new(),
        groups: Vec::new(),
        count: 0,
    };
    for place in 0..needs.len() {
        if walk.order[place] == 0 {
            walk.visit(place);
        }
    }
    walk.groups.into_iter().map(|group| group.into_iter().map(|place| variables[place]).collect()).collect()
}

/// Tarjan's walk, with a stack of its own.
struct Grouping<'a> {
    needs: &'a [Vec<usize>],
    order: Vec<usize>,
    low: Vec<usize>,
    open: Vec<usize>,
    groups: Vec<Vec<usize>>,
    count: usize,
}

const CLOSED: usize = usize::MAX;

impl Grouping<'_> {
    fn enter(&mut self, place: usize) {
        self.count += 1;
        self.order[place] = self.count;
        self.low[place] = self.count;
        self.open.push(place);
    }

    fn visit(&mut self, from: usize) {
        self.enter(from);
        let mut path = vec![(from, 0)];
        while let Some((place, next)) = path.pop() {
            if let Some(&need) = self.needs[place].get(next) {
                path.push((place, next + 1));
                if self.order[need] == 0 {
                    self.enter(need);
                    path.push((need, 0));
                } else if self.low[need] != CLOSED {
                    self.low[place] = self.low[place].min(self.order[need]);
                }
                continue;
            }
            if let Some((above, _)) = path.last() {
                self.low[*above] = self.low[*above].min(self.low[place]);
            }
            if self.low[place] == self.order[place] {
                self.close(place);
            }
        }
    }

    fn close(&mut self, place: usize) {
        let mut group = Vec::new();
        while let Some(last) = self.open.pop() {
            self.low[last] = CLOSED;
            group.push(last);
            if last == place {
                break;
            }
        }
        group.sort_unstable();
        self.groups.push(group);
    }
}
