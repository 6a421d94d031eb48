//! Inclusions between patterns, where pattern variables have the values of a derivation.

use crate::demands::{Cert, Inclusion};
use crate::grid::Grids;
use crate::hashing::{Map, Set};
use crate::linear::{check_cover, Cover, Forms};
use crate::pattern::{Form, Pattern, Replacing, Table, ONE, ZERO};
use crate::points::{grid_fits, Points, Space};
use crate::program::Program;
use crate::solve::Value;
use crate::tree::Polarity;
use crate::types::MailboxType;
use std::rc::Rc;

type Puts<'a> = Box<dyn Fn(u32) -> Pattern + 'a>;

pub struct Scope<'s, 't> {
    program: &'s Program,
    table: &'t Table,
    forms: &'s mut Forms<'t>,
    values: &'s [(u32, Value)],
    is_nullable: Vec<bool>,
    is_inhabited: Vec<bool>,
    plain: Replacing<'t, Puts<'s>>,
    formed: Map<(u32, Pattern), bool>,
    inhabited: Map<Pattern, bool>,
    grids: Map<(u32, u32), Grids<'t>>,
    shown: Set<(Pattern, Pattern, u32)>,
}

impl<'s, 't: 's> Scope<'s, 't> {
    pub fn new(program: &'s Program, table: &'t Table, forms: &'s mut Forms<'t>, values: &'s [(u32, Value)]) -> Scope<'s, 't> {
        let asked = |pattern: &dyn Fn(Pattern) -> bool, points: &dyn Fn(bool, bool) -> bool| {
            let of = |value: &Value| match value {
                Value::Pattern(own) => pattern(*own),
                Value::Grid { points: own, .. } => points(own.is_empty(), own.has_first()),
            };
            values.iter().map(|(_, value)| of(value)).collect::<Vec<bool>>()
        };
        let is_nullable = asked(&|own| table.is_nullable(own, &|_| false), &|_, has_empty| has_empty);
        let is_inhabited = asked(&|own| table.is_inhabited(own, &|_| false), &|is_empty, _| !is_empty);
        let put: Puts<'s> = Box::new(move |variable| match value_at(values, variable) {
            Some((_, Value::Pattern(value))) => *value,
            _ => table.variable(variable),
        });
        let plain = Replacing::new(table, 1, u32::MAX, put);
        let (formed, inhabited, grids, shown) = (Map::default(), Map::default(), Map::default(), Set::default());
        Scope { program, table, forms, values, is_nullable, is_inhabited, plain, formed, inhabited, grids, shown }
    }

    pub fn has_value(&self, variable: u32) -> bool {
        value_at(self.values, variable).is_some()
    }

    /// Whether the value is one that its variable may have.
    pub fn value_fits(&self, (interface, value): &(u32, Value)) -> bool {
        let tags = self.program.tag_count(*interface);
        match value {
            Value::Pattern(pattern) => self.table.is_closed(*pattern) && has_tags(self.table, *pattern, tags),
            Value::Grid { bound, .. } => grid_fits(*bound, tags),
        }
    }

    /// Whether the pattern is one of the interface.
    pub fn is_formed(&mut self, interface: u32, pattern: Pattern) -> bool {
        has_tags(self.table, pattern, self.program.tag_count(interface)) && self.has_variables_of(interface, pattern)
    }

    fn has_variables_of(&mut self, interface: u32, pattern: Pattern) -> bool {
        if self.table.is_closed(pattern) {
            return true;
        }
        if let Some(known) = self.formed.get(&(interface, pattern)) {
            return *known;
        }
        let is_formed = match self.table.form(pattern) {
            Form::Var(number) => value_at(self.values, number).is_some_and(|it| it.0 == interface),
            Form::Sum(left, right) | Form::Product(left, right) => {
                self.has_variables_of(interface, left) && self.has_variables_of(interface, right)
            }
            Form::Star(part) => self.has_variables_of(interface, part),
            Form::Zero | Form::One | Form::Tag(_) => true,
        };
        self.formed.insert((interface, pattern), is_formed);
        is_formed
    }

    /// Whether the pattern has a word. Parts have been asked for before where patterns grow by a part at each node.
    pub fn is_inhabited(&mut self, pattern: Pattern) -> bool {
        if let Some(known) = self.table.decided(pattern) {
            return known;
        }
        if let Some(known) = self.inhabited.get(&pattern) {
            return *known;
        }
        let is_inhabited = match self.table.form(pattern) {
            Form::Var(variable) => at(&self.is_inhabited, variable),
            Form::Sum(left, right) => self.is_inhabited(left) || self.is_inhabited(right),
            Form::Product(left, right) => self.is_inhabited(left) && self.is_inhabited(right),
            Form::Zero | Form::One | Form::Tag(_) | Form::Star(_) => false,
        };
        self.inhabited.insert(pattern, is_inhabited);
        is_inhabited
    }

    pub fn may_drop(&mut self, own: &MailboxType) -> bool {
        own.polarity == Polarity::Sending
            && self.is_formed(own.interface, own.pattern)
            && self.table.is_nullable(own.pattern, &|variable| at(&self.is_nullable, variable))
    }

    fn is_trivial(&mut self, inclusion: &Inclusion) -> bool {
        inclusion.left == inclusion.right || {
            let (left, right) = (self.plain.of(inclusion.left), self.plain.of(inclusion.right));
            self.table.is_arm(left, right)
        }
    }

    /// The certificate that the inclusion needs, if it needs one; none, if there is none.
    pub fn cert_for(&mut self, inclusion: &Inclusion, bounds: &[Option<u32>]) -> Option<Option<Cert>> {
        if self.is_trivial(inclusion) {
            return Some(None);
        }
        match bounds[inclusion.interface? as usize] {
            Some(bound) => Some(Some(Cert::Grid(bound))),
            None => {
                let (left, right) = (self.plain.of(inclusion.left), self.plain.of(inclusion.right));
                Some(Some(Cert::Cover(self.forms.cover(left, right)?)))
            }
        }
    }

    /// Whether the inclusion is shown, by the next certificate if it isn't trivial.
    pub fn is_shown<'c>(&mut self, inclusion: &Inclusion, certs: &mut impl Iterator<Item = &'c Cert>) -> bool {
        let Some(interface) = inclusion.interface else {
            return false;
        };
        if !self.is_formed(interface, inclusion.left) || !self.is_formed(interface, inclusion.right) {
            return false;
        }
        if self.is_trivial(inclusion) {
            return true;
        }
        match certs.next() {
            None => false,
            Some(Cert::Cover(cover)) => {
                let (left, right) = (self.plain.of(inclusion.left), self.plain.of(inclusion.right));
                if !self.table.is_closed(left) || !self.table.is_closed(right) {
                    return self.is_covered_with_grids(inclusion, cover);
                }
                match (self.forms.of(left), self.forms.of(right)) {
                    (Some(left), Some(right)) => check_cover(&left, &right, cover),
                    _ => false,
                }
            }
            Some(Cert::Grid(bound)) => self.grid_shows(interface, inclusion, *bound),
        }
    }

    /// A cover speaks of closed forms, and a value that is a grid has that of the pattern of its points.
    fn is_covered_with_grids(&mut self, inclusion: &Inclusion, cover: &Rc<Cover>) -> bool {
        let (table, values, program) = (self.table, self.values, self.program);
        let mut whole = Replacing::new(table, 1, u32::MAX, |variable| match value_at(values, variable) {
            Some((_, Value::Pattern(value))) => *value,
            Some((interface, Value::Grid { bound, points })) => {
                let space = Space::new(*bound, program.tag_count(*interface));
                space
                    .list(points)
                    .iter()
                    .fold(ZERO, |sum, point| table.sum(sum, pattern_of(table, *bound, &space.counts(*point))))
            }
            None => table.variable(variable),
        });
        let (left, right) = (whole.of(inclusion.left), whole.of(inclusion.right));
        match (self.forms.of(left), self.forms.of(right)) {
            (Some(left), Some(right)) => check_cover(&left, &right, cover),
            _ => false,
        }
    }

    fn grid_shows(&mut self, interface: u32, inclusion: &Inclusion, bound: u32) -> bool {
        let (left, right) = (inclusion.left, inclusion.right);
        let tags = self.program.tag_count(interface);
        let is_large_enough = match self.table.form(right) {
            Form::Var(variable) => self.has_grid(variable, bound),
            _ => self.table.is_flat(right) && self.table.degree(right) < bound,
        };
        if !grid_fits(bound, tags) || !is_large_enough {
            return false;
        }
        if self.shown.contains(&(left, right, bound)) {
            return true;
        }
        let mut grids = self.grids.remove(&(interface, bound)).unwrap_or_else(|| Grids::new(self.table, Space::new(bound, tags)));
        for variable in self.table.variables(left).into_iter().chain(self.table.variables(right)) {
            self.put_value(&mut grids, variable);
        }
        let (one, other) = (grids.of(left), grids.of(right));
        let is_shown = grids.space.is_within(&one, &other);
        self.grids.insert((interface, bound), grids);
        if is_shown {
            self.shown.insert((left, right, bound));
        }
        is_shown
    }

    /// Cuts the value of the variable, if that hasn't been done.
    fn put_value(&self, grids: &mut Grids, variable: u32) {
        if grids.variables.contains_key(&variable) {
            return;
        }
        let points = match value_at(self.values, variable) {
            Some((_, Value::Pattern(pattern))) => grids.of(*pattern),
            Some((_, Value::Grid { bound, points })) if *bound as usize == grids.space.bound => points.clone(),
            Some((interface, Value::Grid { bound, points })) => {
                let space = Space::new(*bound, self.program.tag_count(*interface));
                let mut all = Points::none();
                space.each(points, &mut |point| {
                    let words = grids.of(pattern_of(self.table, *bound, &space.counts(point)));
                    all = grids.space.union(&all, &words);
                });
                Rc::new(all)
            }
            None => return,
        };
        grids.variables.insert(variable, points);
    }

    fn has_grid(&self, variable: u32, wanted: u32) -> bool {
        matches!(value_at(self.values, variable), Some((_, Value::Grid { bound, .. })) if *bound == wanted)
    }
}

fn value_at(values: &[(u32, Value)], variable: u32) -> Option<&(u32, Value)> {
    values.get((variable as usize).checked_sub(1)?)
}

fn at(all: &[bool], variable: u32) -> bool {
    (variable as usize).checked_sub(1).and_then(|place| all.get(place)).is_some_and(|it| *it)
}

fn has_tags(table: &Table, pattern: Pattern, tags: usize) -> bool {
    table.tags(pattern) as u64 >> tags == 0
}

/// The words that are cut to the point, as a pattern.
fn pattern_of(table: &Table, bound: u32, counts: &[u32]) -> Pattern {
    let mut made = ONE;
    for (tag, count) in counts.iter().enumerate() {
        let one = table.tag(tag as u8);
        made = (0..*count).fold(made, |made, _| table.product(made, one));
        if *count == bound {
            made = table.product(made, table.star(one));
        }
    }
    made
}
