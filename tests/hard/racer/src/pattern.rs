//! Patterns: commutative regular expressions over tags, in which variables may stand. Each pattern stands once in a table, under a
//! number, with what is asked of it again and again; so two patterns are the same where their numbers are.

use crate::hashing::{Map, Set};
use std::cell::RefCell;
use std::fmt::Write;
use std::rc::Rc;

/// The most nodes and levels of a pattern that is solved with.
const MOST_NODES: u32 = 65_536;
const MOST_LEVELS: u32 = 16_384;

/// The number of a pattern in its table.
#[derive(Clone, Copy, Debug, PartialEq, Eq, Hash, PartialOrd, Ord)]
pub struct Pattern(u32);

#[derive(Clone, Copy, Debug, PartialEq, Eq, Hash)]
pub enum Form {
    Zero,
    One,
    Tag(u8),
    Var(u32),
    Sum(Pattern, Pattern),
    Product(Pattern, Pattern),
    Star(Pattern),
}

pub const ZERO: Pattern = Pattern(0);
pub const ONE: Pattern = Pattern(1);

/// What is known of a pattern once its parts are.
#[derive(Clone, Copy)]
struct Facts {
    form: Form,
    nodes: u32,
    levels: u32,
    /// The least and the greatest variable in it; the least is the greater one where there is none.
    first: u32,
    last: u32,
    /// The tags in it, each a bit.
    tags: u32,
    degree: u32,
    /// Whether the simplifying forms leave it as it is.
    is_simple: bool,
    /// Whether it is built of 0, 1, single tags and sums alone.
    is_choice: bool,
    /// Whether each star in it is of such a choice, and there is no variable.
    is_flat: bool,
    /// Whether the empty word is one of its words, and whether it has a word, where variables have none and where they have all.
    is_nullable: [bool; 2],
    is_inhabited: [bool; 2],
}

impl Facts {
    fn has_variables(&self) -> bool {
        self.first <= self.last
    }
}

#[derive(Default)]
pub struct Table {
    facts: RefCell<Vec<Facts>>,
    numbers: RefCell<Map<Form, Pattern>>,
    residuals: RefCell<Map<(Pattern, u8), Pattern>>,
    arms: RefCell<Map<Pattern, Rc<Set<Pattern>>>>,
}

impl Pattern {
    pub fn place(self) -> usize {
        self.0 as usize
    }
}

impl Table {
    pub fn new() -> Table {
        let table = Table::default();
        table.number(Form::Zero);
        table.number(Form::One);
        table
    }

    // ---- making patterns

    fn number(&self, form: Form) -> Pattern {
        if let Some(number) = self.numbers.borrow().get(&form) {
            return *number;
        }
        let mut facts = self.facts.borrow_mut();
        let number = Pattern(facts.len() as u32);
        let own = facts_of(form, &facts);
        facts.push(own);
        self.numbers.borrow_mut().insert(form, number);
        number
    }

    pub fn form(&self, pattern: Pattern) -> Form {
        self.facts.borrow()[pattern.place()].form
    }

    fn facts(&self, pattern: Pattern) -> Facts {
        self.facts.borrow()[pattern.place()]
    }

    pub fn tag(&self, tag: u8) -> Pattern {
        self.number(Form::Tag(tag))
    }

    pub fn variable(&self, variable: u32) -> Pattern {
        self.number(Form::Var(variable))
    }

    /// The sum as it is written.
    pub fn plain_sum(&self, left: Pattern, right: Pattern) -> Pattern {
        self.number(Form::Sum(left, right))
    }

    /// The product as it is written.
    pub fn plain_product(&self, left: Pattern, right: Pattern) -> Pattern {
        self.number(Form::Product(left, right))
    }

    /// The star as it is written.
    pub fn plain_star(&self, part: Pattern) -> Pattern {
        self.number(Form::Star(part))
    }

    /// The sum by the simplifying form: 0 is left out, and of two same sides one.
    pub fn sum(&self, left: Pattern, right: Pattern) -> Pattern {
        if left == ZERO {
            right
        } else if right == ZERO || left == right {
            left
        } else {
            self.plain_sum(left, right)
        }
    }

    /// The product by the simplifying form: with 0 it is 0, and 1 is left out.
    pub fn product(&self, left: Pattern, right: Pattern) -> Pattern {
        match (left, right) {
            (ZERO, _) | (_, ZERO) => ZERO,
            (ONE, other) | (other, ONE) => other,
            _ => self.plain_product(left, right),
        }
    }

    /// The star by the simplifying form: that of 0 and that of 1 are 1.
    pub fn star(&self, part: Pattern) -> Pattern {
        match part {
            ZERO | ONE => ONE,
            _ => self.plain_star(part),
        }
    }

    /// What is left once a message with the tag is taken.
    pub fn residual(&self, pattern: Pattern, tag: u8) -> Pattern {
        if self.facts(pattern).tags & (1 << tag) == 0 {
            return ZERO;
        }
        if let Some(known) = self.residuals.borrow().get(&(pattern, tag)) {
            return *known;
        }
        let residual = match self.form(pattern) {
            Form::Zero | Form::One | Form::Var(_) => ZERO,
            Form::Tag(_) => ONE,
            Form::Sum(left, right) => self.sum(self.residual(left, tag), self.residual(right, tag)),
            Form::Product(left, right) => {
                let first = self.product(self.residual(left, tag), right);
                self.sum(first, self.product(left, self.residual(right, tag)))
            }
            Form::Star(part) => self.product(self.residual(part, tag), pattern),
        };
        self.residuals.borrow_mut().insert((pattern, tag), residual);
        residual
    }

    /// The derivative by a variable.
    pub fn derivative(&self, pattern: Pattern, variable: u32) -> Pattern {
        self.derivative_with(pattern, variable, &mut Map::default())
    }

    fn derivative_with(&self, pattern: Pattern, variable: u32, done: &mut Map<Pattern, Pattern>) -> Pattern {
        let facts = self.facts(pattern);
        if variable < facts.first || facts.last < variable {
            return ZERO;
        }
        if let Some(known) = done.get(&pattern) {
            return *known;
        }
        let derivative = match facts.form {
            Form::Zero | Form::One | Form::Tag(_) => ZERO,
            Form::Var(_) => ONE,
            Form::Sum(left, right) => {
                let left = self.derivative_with(left, variable, done);
                self.sum(left, self.derivative_with(right, variable, done))
            }
            Form::Product(left, right) => {
                let first = self.product(self.derivative_with(left, variable, done), right);
                self.sum(first, self.product(left, self.derivative_with(right, variable, done)))
            }
            Form::Star(part) => self.product(pattern, self.derivative_with(part, variable, done)),
        };
        done.insert(pattern, derivative);
        derivative
    }

    // ---- asking

    pub fn nodes(&self, pattern: Pattern) -> u32 {
        self.facts(pattern).nodes
    }

    /// Whether it has at most as many nodes and levels as a pattern that is solved with.
    pub fn is_small(&self, pattern: Pattern) -> bool {
        let facts = self.facts(pattern);
        facts.nodes <= MOST_NODES && facts.levels <= MOST_LEVELS
    }

    pub fn has_few_levels(&self, pattern: Pattern) -> bool {
        self.facts(pattern).levels <= MOST_LEVELS
    }

    pub fn is_closed(&self, pattern: Pattern) -> bool {
        !self.facts(pattern).has_variables()
    }

    /// The tags in it, each a bit.
    pub fn tags(&self, pattern: Pattern) -> u32 {
        self.facts(pattern).tags
    }

    /// Whether each star in it is of a choice among messages, and there is no variable.
    pub fn is_flat(&self, pattern: Pattern) -> bool {
        self.facts(pattern).is_flat
    }

    /// The most messages that a word has outside of stars.
    pub fn degree(&self, pattern: Pattern) -> u32 {
        self.facts(pattern).degree
    }

    /// Whether the empty word is one of its words, where this says so of variables.
    pub fn is_nullable(&self, pattern: Pattern, variables: &impl Fn(u32) -> bool) -> bool {
        let facts = self.facts(pattern);
        match (facts.is_nullable, facts.form) {
            ([without, with], _) if without == with => with,
            (_, Form::Var(number)) => variables(number),
            (_, Form::Sum(left, right)) => self.is_nullable(left, variables) || self.is_nullable(right, variables),
            (_, Form::Product(left, right)) => self.is_nullable(left, variables) && self.is_nullable(right, variables),
            _ => false,
        }
    }

    /// Whether it has a word, where this says so of variables.
    pub fn is_inhabited(&self, pattern: Pattern, variables: &impl Fn(u32) -> bool) -> bool {
        let facts = self.facts(pattern);
        match (facts.is_inhabited, facts.form) {
            ([without, with], _) if without == with => with,
            (_, Form::Var(number)) => variables(number),
            (_, Form::Sum(left, right)) => self.is_inhabited(left, variables) || self.is_inhabited(right, variables),
            (_, Form::Product(left, right)) => self.is_inhabited(left, variables) && self.is_inhabited(right, variables),
            _ => false,
        }
    }

    /// Whether it has a word, if that doesn't hang on variables.
    pub fn decided(&self, pattern: Pattern) -> Option<bool> {
        let [without, with] = self.facts(pattern).is_inhabited;
        (without == with).then_some(with)
    }

    /// The variables in it, in ascending order.
    pub fn variables(&self, pattern: Pattern) -> Vec<u32> {
        let mut found = Vec::new();
        let mut seen = Set::default();
        let mut open = vec![pattern];
        while let Some(next) = open.pop() {
            let facts = self.facts(next);
            if !facts.has_variables() || !seen.insert(next) {
                continue;
            }
            match facts.form {
                Form::Var(number) => found.push(number),
                Form::Sum(left, right) | Form::Product(left, right) => open.extend([left, right]),
                Form::Star(part) => open.push(part),
                Form::Zero | Form::One | Form::Tag(_) => {}
            }
        }
        found.sort_unstable();
        found
    }

    /// Whether each word is empty, and may be so, or has a message that is received. It has no variables.
    pub fn is_covered(&self, pattern: Pattern, received: u32, free: bool) -> bool {
        self.bare_is_empty(pattern, received) && (free || !self.facts(pattern).is_nullable[0])
    }

    /// Whether it has a word without a message that is received.
    fn has_bare(&self, pattern: Pattern, received: u32) -> bool {
        match self.form(pattern) {
            Form::Zero | Form::Var(_) => false,
            Form::One | Form::Star(_) => true,
            Form::Tag(tag) => received & (1 << tag) == 0,
            Form::Sum(left, right) => self.has_bare(left, received) || self.has_bare(right, received),
            Form::Product(left, right) => self.has_bare(left, received) && self.has_bare(right, received),
        }
    }

    /// Whether each of these words is empty.
    fn bare_is_empty(&self, pattern: Pattern, received: u32) -> bool {
        match self.form(pattern) {
            Form::Zero | Form::One | Form::Var(_) => true,
            Form::Tag(tag) => received & (1 << tag) != 0,
            Form::Sum(left, right) => self.bare_is_empty(left, received) && self.bare_is_empty(right, received),
            Form::Product(left, right) => {
                !(self.has_bare(left, received) && self.has_bare(right, received))
                    || (self.bare_is_empty(left, received) && self.bare_is_empty(right, received))
            }
            Form::Star(part) => self.bare_is_empty(part, received),
        }
    }

    /// Whether one pattern is the other or one of its arms.
    pub fn is_arm(&self, pattern: Pattern, other: Pattern) -> bool {
        pattern == other || matches!(self.form(other), Form::Sum(..)) && self.arms(other).contains(&pattern)
    }

    /// A sum's parts, their parts where they are sums, and so on.
    fn arms(&self, sum: Pattern) -> Rc<Set<Pattern>> {
        if let Some(known) = self.arms.borrow().get(&sum) {
            return known.clone();
        }
        let mut arms = Set::default();
        let mut open = vec![sum];
        while let Some(next) = open.pop() {
            if arms.insert(next) {
                if let Form::Sum(left, right) = self.form(next) {
                    open.extend([left, right]);
                }
            }
        }
        let arms = Rc::new(arms);
        self.arms.borrow_mut().insert(sum, arms.clone());
        arms
    }

    // ---- text

    /// Writes the pattern with the names of tags, in brackets where it has a weaker operator than stands around it.
    pub fn write(&self, pattern: Pattern, names: &[String], out: &mut String) {
        self.write_in(pattern, names, 0, out);
    }

    /// Around it stands nothing (0), a sum's right side (1), a product (2), or a product's right side or a star (3).
    fn write_in(&self, pattern: Pattern, names: &[String], around: u8, out: &mut String) {
        let (own, left, mark, right) = match self.form(pattern) {
            Form::Zero => return out.push('0'),
            Form::One => return out.push('1'),
            Form::Tag(tag) => return out.push_str(&names[tag as usize]),
            Form::Var(number) => {
                let _ = write!(out, "${number}");
                return;
            }
            Form::Star(part) => {
                out.push('*');
                return self.write_in(part, names, 3, out);
            }
            Form::Sum(left, right) => (0, left, " + ", right),
            Form::Product(left, right) => (2, left, ".", right),
        };
        let needs_brackets = own < around;
        if needs_brackets {
            out.push('(');
        }
        self.write_in(left, names, own, out);
        out.push_str(mark);
        self.write_in(right, names, own + 1, out);
        if needs_brackets {
            out.push(')');
        }
    }
}

/// Variables from one to another, both included, and what stands in their places; other variables stay.
pub struct Replacing<'t, F> {
    table: &'t Table,
    from: u32,
    to: u32,
    value: F,
    done: Map<Pattern, Pattern>,
}

impl<'t, F: Fn(u32) -> Pattern> Replacing<'t, F> {
    pub fn new(table: &'t Table, from: u32, to: u32, value: F) -> Self {
        Replacing { table, from, to, value, done: Map::default() }
    }

    /// The pattern with the variables replaced, by the simplifying forms.
    pub fn of(&mut self, pattern: Pattern) -> Pattern {
        let facts = self.table.facts(pattern);
        let is_touched = facts.has_variables() && facts.first <= self.to && self.from <= facts.last;
        if !is_touched && facts.is_simple {
            return pattern;
        }
        if let Some(known) = self.done.get(&pattern) {
            return *known;
        }
        let made = match facts.form {
            Form::Zero | Form::One | Form::Tag(_) => pattern,
            Form::Var(number) if self.from <= number && number <= self.to => (self.value)(number),
            Form::Var(_) => pattern,
            Form::Sum(left, right) => {
                let left = self.of(left);
                let right = self.of(right);
                self.table.sum(left, right)
            }
            Form::Product(left, right) => {
                let left = self.of(left);
                let right = self.of(right);
                self.table.product(left, right)
            }
            Form::Star(part) => {
                let part = self.of(part);
                self.table.star(part)
            }
        };
        self.done.insert(pattern, made);
        made
    }
}

fn facts_of(form: Form, all: &[Facts]) -> Facts {
    let plain = Facts {
        form,
        nodes: 1,
        levels: 1,
        first: u32::MAX,
        last: 0,
        tags: 0,
        degree: 0,
        is_simple: true,
        is_choice: true,
        is_flat: true,
        is_nullable: [false; 2],
        is_inhabited: [true; 2],
    };
    match form {
        Form::Zero => Facts { is_inhabited: [false; 2], ..plain },
        Form::One => Facts { is_nullable: [true; 2], ..plain },
        Form::Tag(tag) => Facts { tags: 1 << tag, degree: 1, ..plain },
        Form::Var(number) => Facts {
            first: number,
            last: number,
            is_choice: false,
            is_flat: false,
            is_nullable: [false, true],
            is_inhabited: [false, true],
            ..plain
        },
        Form::Star(part) => {
            let part = &all[part.place()];
            Facts {
                form,
                nodes: part.nodes.saturating_add(1),
                levels: part.levels.saturating_add(1),
                degree: 0,
                is_simple: part.is_simple && !matches!(part.form, Form::Zero | Form::One),
                is_choice: false,
                is_flat: part.is_choice,
                is_nullable: [true; 2],
                is_inhabited: [true; 2],
                ..*part
            }
        }
        Form::Sum(left, right) => {
            let (one, other) = (&all[left.place()], &all[right.place()]);
            Facts {
                degree: one.degree.max(other.degree),
                is_simple: one.is_simple && other.is_simple && left != right && left != ZERO && right != ZERO,
                is_choice: one.is_choice && other.is_choice,
                is_nullable: [0, 1].map(|k| one.is_nullable[k] || other.is_nullable[k]),
                is_inhabited: [0, 1].map(|k| one.is_inhabited[k] || other.is_inhabited[k]),
                ..joined(form, one, other)
            }
        }
        Form::Product(left, right) => {
            let (one, other) = (&all[left.place()], &all[right.place()]);
            let is_simple = ![left, right].iter().any(|it| matches!(*it, ZERO | ONE));
            Facts {
                degree: one.degree.saturating_add(other.degree),
                is_simple: one.is_simple && other.is_simple && is_simple,
                is_choice: false,
                is_nullable: [0, 1].map(|k| one.is_nullable[k] && other.is_nullable[k]),
                is_inhabited: [0, 1].map(|k| one.is_inhabited[k] && other.is_inhabited[k]),
                ..joined(form, one, other)
            }
        }
    }
}

/// What is alike for sums and products.
fn joined(form: Form, one: &Facts, other: &Facts) -> Facts {
    Facts {
        form,
        nodes: one.nodes.saturating_add(other.nodes).saturating_add(1),
        levels: one.levels.max(other.levels).saturating_add(1),
        first: one.first.min(other.first),
        last: one.last.max(other.last),
        tags: one.tags | other.tags,
        is_flat: one.is_flat && other.is_flat,
        ..*one
    }
}
