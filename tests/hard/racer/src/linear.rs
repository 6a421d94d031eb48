//! Linear sets of words, the closed form of a pattern, and direct covers.

use crate::hashing::{Map, Set};
use crate::pattern::{Form, Pattern, Table};
use std::rc::Rc;

const MOST_SETS: usize = 4096;
pub const TAGS: usize = 32;

/// A word: how many messages of each tag.
#[derive(Clone, Copy, Debug, PartialEq, Eq, Hash, PartialOrd, Ord)]
pub struct Bag {
    pub counts: [u32; TAGS],
}

impl Bag {
    pub const EMPTY: Bag = Bag { counts: [0; TAGS] };

    pub fn one(tag: u8) -> Bag {
        let mut bag = Bag::EMPTY;
        bag.counts[tag as usize] = 1;
        bag
    }

    pub fn is_empty(&self) -> bool {
        *self == Bag::EMPTY
    }

    /// The tags in it, each a bit.
    fn tags(&self) -> u32 {
        self.counts.iter().rev().fold(0, |tags, count| tags << 1 | (*count > 0) as u32)
    }

    /// What of it has other tags.
    fn outside(&self, tags: u32) -> Bag {
        let mut bag = *self;
        for (tag, count) in bag.counts.iter_mut().enumerate() {
            if tags & (1 << tag) != 0 {
                *count = 0;
            }
        }
        bag
    }

    /// Both together. Patterns have so few nodes that no count gets too large.
    fn plus(&self, other: &Bag) -> Bag {
        let mut bag = *self;
        for (count, more) in bag.counts.iter_mut().zip(&other.counts) {
            *count += more;
        }
        bag
    }

    /// What is left once the other one is taken so often, if so much is there.
    pub fn minus(&self, times: u32, other: &Bag) -> Option<Bag> {
        let mut bag = *self;
        let mut fits = true;
        for (count, less) in bag.counts.iter_mut().zip(&other.counts) {
            let less = times as u64 * *less as u64;
            fits &= less <= *count as u64;
            *count = count.wrapping_sub(less as u32);
        }
        fits.then_some(bag)
    }
}

/// A base, and periods that may each be added any number of times.
#[derive(Clone, Debug)]
pub struct LinearSet {
    pub base: Bag,
    pub periods: Vec<Bag>,
}

/// Sets are shared by the lists in which they stand.
pub type Sets = Vec<Rc<LinearSet>>;

impl LinearSet {
    fn of(base: Bag) -> LinearSet {
        LinearSet { base, periods: Vec::new() }
    }

    fn add_period(&mut self, period: &Bag) {
        if !period.is_empty() && !self.periods.contains(period) {
            self.periods.push(*period);
        }
    }

    fn is_unit(&self) -> bool {
        self.periods.is_empty() && self.base.is_empty()
    }

    fn product(self: &Rc<LinearSet>, other: &Rc<LinearSet>) -> Rc<LinearSet> {
        if self.is_unit() {
            return other.clone();
        }
        if other.is_unit() {
            return self.clone();
        }
        let mut product = LinearSet { base: self.base.plus(&other.base), periods: self.periods.clone() };
        for period in &other.periods {
            product.add_period(period);
        }
        Rc::new(product)
    }

    /// The sets of the finite sums of its words.
    fn star(&self) -> Sets {
        if self.periods.is_empty() {
            let mut star = LinearSet::of(Bag::EMPTY);
            star.add_period(&self.base);
            return vec![Rc::new(star)];
        }
        let mut repeated = self.clone();
        repeated.add_period(&self.base);
        vec![Rc::new(LinearSet::of(Bag::EMPTY)), Rc::new(repeated)]
    }
}

/// How many sets a closed form has: those that are the empty word alone, the others without periods, and those with periods.
#[derive(Clone, Copy)]
struct Counts {
    units: usize,
    words: usize,
    others: usize,
}

impl Counts {
    fn all(&self) -> usize {
        self.units + self.words + self.others
    }

    fn sum(self, other: Counts) -> Counts {
        Counts { units: self.units + other.units, words: self.words + other.words, others: self.others + other.others }
    }

    fn product(self, other: Counts) -> Counts {
        let plain = (self.units + self.words) * (other.units + other.words);
        let units = self.units * other.units;
        Counts { units, words: plain - units, others: self.all() * other.all() - plain }
    }

    /// A set with periods has two in a star: the empty word, and itself repeated. Another one is a period, unless it is the empty word.
    fn star(self) -> Option<Counts> {
        let all = 1usize.checked_shl(self.others as u32).filter(|it| *it <= MOST_SETS)?;
        let units = (self.words == 0) as usize;
        Some(Counts { units, words: 0, others: all - units })
    }
}

/// Up to how many sets a closed form is kept with those of its parts.
const FEW_SETS: usize = 16;

/// Closed forms of patterns without variables.
pub struct Forms<'t> {
    table: &'t Table,
    counts: Map<Pattern, Option<Counts>>,
    done: Map<Pattern, Rc<Sets>>,
    covers: Map<(Pattern, Pattern), Option<Rc<Cover>>>,
}

/// What is still to be multiplied with.
struct Factors<'r> {
    pattern: Pattern,
    more: Option<&'r Factors<'r>>,
}

impl<'t> Forms<'t> {
    pub fn new(table: &'t Table) -> Forms<'t> {
        Forms { table, counts: Map::default(), done: Map::default(), covers: Map::default() }
    }

    /// Whether the pattern and its closed form aren't too large.
    pub fn fits(&mut self, pattern: Pattern) -> bool {
        self.table.is_small(pattern) && self.counts_of(pattern).is_some()
    }

    /// How many sets the closed form has, unless a list on the way to it gets too long. No list is made for this.
    fn counts_of(&mut self, pattern: Pattern) -> Option<Counts> {
        if let Some(known) = self.counts.get(&pattern) {
            return *known;
        }
        let none = Counts { units: 0, words: 0, others: 0 };
        let counts = match self.table.form(pattern) {
            Form::Zero | Form::Var(_) => Some(none),
            Form::One => Some(Counts { units: 1, ..none }),
            Form::Tag(_) => Some(Counts { words: 1, ..none }),
            Form::Sum(left, right) => self.counts_of(left).zip(self.counts_of(right)).map(|(left, right)| left.sum(right)),
            Form::Product(left, right) => {
                self.counts_of(left).zip(self.counts_of(right)).map(|(left, right)| left.product(right))
            }
            Form::Star(part) => self.counts_of(part).and_then(|it| it.star()),
        };
        let counts = counts.filter(|it| it.all() <= MOST_SETS);
        self.counts.insert(pattern, counts);
        counts
    }

    /// Linear sets whose words, taken together, are the pattern's; none, if they get too large.
    pub fn of(&mut self, pattern: Pattern) -> Option<Rc<Sets>> {
        self.fits(pattern).then(|| self.sets_of(pattern))
    }

    fn sets_of(&mut self, pattern: Pattern) -> Rc<Sets> {
        if let Some(known) = self.done.get(&pattern) {
            return known.clone();
        }
        let unit = || Rc::new(LinearSet::of(Bag::EMPTY));
        let mut sets = Sets::new();
        match self.table.form(pattern) {
            Form::Zero | Form::Var(_) => {}
            Form::One => sets.push(unit()),
            Form::Tag(tag) => sets.push(Rc::new(LinearSet::of(Bag::one(tag)))),
            Form::Star(part) => sets = star(&self.sets_of(part)),
            Form::Product(left, right) if self.is_few(pattern) => sets = products(&self.sets_of(left), &self.sets_of(right)),
            Form::Sum(..) | Form::Product(..) => self.expand(pattern, unit(), None, &mut sets),
        }
        let sets = Rc::new(sets);
        self.done.insert(pattern, sets.clone());
        sets
    }

    fn is_few(&mut self, pattern: Pattern) -> bool {
        self.counts_of(pattern).is_some_and(|it| it.all() <= FEW_SETS)
    }

    /// Adds the sets of the pattern and of these factors, multiplied with the one before. So long lists aren't made for each part.
    fn expand(&mut self, pattern: Pattern, before: Rc<LinearSet>, factors: Option<&Factors>, out: &mut Sets) {
        let form = self.table.form(pattern);
        match form {
            Form::Sum(left, right) => {
                self.expand(left, before.clone(), factors, out);
                self.expand(right, before, factors, out);
            }
            Form::Product(left, right) if !self.is_few(pattern) => {
                self.expand(left, before, Some(&Factors { pattern: right, more: factors }), out);
            }
            _ => {
                for set in self.sets_of(pattern).iter() {
                    let made = before.product(set);
                    match factors {
                        None => out.push(made),
                        Some(next) => self.expand(next.pattern, made, next.more, out),
                    }
                }
            }
        }
    }

    /// A direct cover of one pattern's closed form by another's, if neither is too large and there is one.
    pub fn cover(&mut self, left: Pattern, right: Pattern) -> Option<Rc<Cover>> {
        if let Some(known) = self.covers.get(&(left, right)) {
            return known.clone();
        }
        let cover = match (self.of(left), self.of(right)) {
            (Some(left), Some(right)) => find_cover(&left, &right).map(Rc::new),
            _ => None,
        };
        self.covers.insert((left, right), cover.clone());
        cover
    }
}

fn star(sets: &Sets) -> Sets {
    let made = vec![Rc::new(LinearSet::of(Bag::EMPTY))];
    sets.iter().fold(made, |made, set| products(&made, &set.star()))
}

fn products(left: &Sets, right: &Sets) -> Sets {
    left.iter().flat_map(|first| right.iter().map(|second| first.product(second))).collect()
}

// ---- covers

/// What covers a set: the place of another one, how often its periods make up the base, and how often they make up each period.
#[derive(Clone, Debug)]
pub struct CoverEntry {
    pub set: usize,
    pub base: Vec<u32>,
    pub periods: Vec<Vec<u32>>,
}

pub type Cover = Vec<CoverEntry>;

/// A direct cover: for each set of the left an entry for the first of the right in which it lies, if there are such.
fn find_cover(left: &Sets, right: &Sets) -> Option<Cover> {
    let groups = groups_of(right);
    let mut cover = Cover::with_capacity(left.len());
    for set in left {
        cover.push(first_entry(set, &groups, right)?);
    }
    Some(cover)
}

/// Sets with the same periods, by what no period changes in their bases.
struct Group {
    /// The tags of the periods, and those that a single period has, each with how many of them it has.
    tags: u32,
    single: Vec<(usize, u32)>,
    places: Map<Bag, Vec<usize>>,
    search: Search,
}

impl Group {
    fn new(periods: &[Bag]) -> Group {
        let tags = periods.iter().fold(0, |tags, period| tags | period.tags());
        let mut single = Vec::new();
        for tag in 0..TAGS {
            let mut counts = periods.iter().map(|it| it.counts[tag]).filter(|it| *it > 0);
            if let (Some(count), None) = (counts.next(), counts.next()) {
                single.push((tag, count));
            }
        }
        Group { tags, single, places: Map::default(), search: Search::new(periods) }
    }

    /// What periods leave as it is: the counts of other tags, and what is left of a single period's.
    fn fixed(&self, base: &Bag) -> Bag {
        let mut fixed = base.outside(self.tags);
        for (tag, count) in &self.single {
            fixed.counts[*tag] = base.counts[*tag] % count;
        }
        fixed
    }
}

fn groups_of(sets: &Sets) -> Vec<Group> {
    let mut numbers: Map<&[Bag], usize> = Map::default();
    let mut groups: Vec<Group> = Vec::new();
    for (place, set) in sets.iter().enumerate() {
        let number = *numbers.entry(&set.periods).or_insert(groups.len());
        if number == groups.len() {
            groups.push(Group::new(&set.periods));
        }
        let group = &mut groups[number];
        let fixed = group.fixed(&set.base);
        group.places.entry(fixed).or_default().push(place);
    }
    groups
}

fn first_entry(set: &LinearSet, groups: &[Group], right: &Sets) -> Option<CoverEntry> {
    let mut found: Option<CoverEntry> = None;
    for group in groups {
        let Some(places) = group.places.get(&group.fixed(&set.base)) else { continue };
        if set.periods.iter().any(|period| period.tags() & !group.tags != 0) {
            continue;
        }
        let before = found.as_ref().map_or(usize::MAX, |it| it.set);
        let in_order = places.iter().take_while(|place| **place < before);
        let base_of = |place: &usize| set.base.minus(1, &right[*place].base).and_then(|rest| group.search.numbers(&rest));
        let Some((place, base)) = in_order.filter_map(|place| Some((*place, base_of(place)?))).next() else { continue };
        if let Some(periods) = set.periods.iter().map(|it| group.search.numbers(it)).collect() {
            found = Some(CoverEntry { set: place, base, periods });
        }
    }
    found
}

/// The most words that a table of what periods make is made for, and the most steps of a search before it is.
const MOST_CELLS: u64 = 1 << 24;
const FEW_STEPS: u64 = 4096;

/// Looks how often each period is to be taken, so that all together make a word.
struct Search {
    periods: Vec<Bag>,
    /// For each place the tags of the periods from there on.
    tags: Vec<u32>,
    /// For each period a tag that none behind it has, if there is such.
    alone: Vec<Option<usize>>,
}

impl Search {
    fn new(periods: &[Bag]) -> Search {
        let mut tags = vec![0; periods.len() + 1];
        let mut alone = vec![None; periods.len()];
        for place in (0..periods.len()).rev() {
            let own = periods[place].tags();
            let only = own & !tags[place + 1];
            alone[place] = (only != 0).then_some(only.trailing_zeros() as usize);
            tags[place] = tags[place + 1] | own;
        }
        Search { periods: periods.to_vec(), tags, alone }
    }

    /// Of all such lists of numbers the least.
    fn numbers(&self, word: &Bag) -> Option<Vec<u32>> {
        let mut numbers = Vec::with_capacity(self.periods.len());
        let mut left = *word;
        while numbers.len() < self.periods.len() {
            let place = numbers.len();
            if left.tags() & !self.tags[place] != 0 {
                return None;
            }
            match self.alone[place] {
                Some(tag) => {
                    let number = left.counts[tag] / self.periods[place].counts[tag];
                    left = left.minus(number, &self.periods[place])?;
                    if left.counts[tag] != 0 {
                        return None;
                    }
                    numbers.push(number);
                }
                None => return self.searched(numbers, &left),
            }
        }
        left.is_empty().then_some(numbers)
    }

    /// The same for the periods behind those that are settled.
    fn searched(&self, mut numbers: Vec<u32>, word: &Bag) -> Option<Vec<u32>> {
        let cells = word.counts.iter().try_fold(1u64, |cells, count| cells.checked_mul(*count as u64 + 1));
        let cells = cells.filter(|it| *it <= MOST_CELLS);
        let settled = numbers.len();
        let mut steps = if cells.is_some() { FEW_STEPS } else { u64::MAX };
        let is_found = self.makes(word, &mut numbers, &mut Set::default(), &mut steps).unwrap_or_else(|| {
            numbers.truncate(settled);
            cells.is_some_and(|cells| self.by_table(cells as usize, word, &mut numbers))
        });
        is_found.then_some(numbers)
    }

    /// By a bit for each part of the word, that says which periods make it: those from some place on, period by period.
    fn by_table(&self, cells: usize, word: &Bag, numbers: &mut Vec<u32>) -> bool {
        let parts = Parts::of(word);
        let from = numbers.len();
        let mut made = vec![vec![0u64; cells.div_ceil(64)]; self.periods.len() + 1 - from];
        made[self.periods.len() - from][0] = 1;
        for place in (from..self.periods.len()).rev() {
            let (before, behind) = made.split_at_mut(place + 1 - from);
            before[place - from].copy_from_slice(&behind[0]);
            parts.close(&mut before[place - from], &self.periods[place]);
        }
        let has = |place: usize, left: &Bag| {
            let at = parts.place(left);
            made[place - from][at / 64] & (1 << (at % 64)) != 0
        };
        let mut left = *word;
        if !has(from, &left) {
            return false;
        }
        for place in from..self.periods.len() {
            let mut number = 0;
            while !has(place + 1, &left) {
                match left.minus(1, &self.periods[place]) {
                    Some(less) => left = less,
                    None => return false,
                }
                number += 1;
            }
            numbers.push(number);
        }
        true
    }

    /// Whether the further periods make the word: each is taken as seldom as can be first. What came to nothing is noted. None, if
    /// there are no steps left.
    fn makes(&self, word: &Bag, numbers: &mut Vec<u32>, failed: &mut Set<(usize, Bag)>, steps: &mut u64) -> Option<bool> {
        let place = numbers.len();
        if word.is_empty() {
            numbers.resize(self.periods.len(), 0);
            return Some(true);
        }
        if word.tags() & !self.tags[place] != 0 || failed.contains(&(place, *word)) {
            return Some(false);
        }
        let mut left = Some(*word);
        let mut number = 0;
        while let Some(rest) = left {
            *steps = steps.checked_sub(1)?;
            numbers.push(number);
            if self.makes(&rest, numbers, failed, steps)? {
                return Some(true);
            }
            numbers.truncate(place);
            left = rest.minus(1, &self.periods[place]);
            number += 1;
        }
        failed.insert((place, *word));
        Some(false)
    }
}

/// All parts of a word, numbered.
struct Parts {
    /// The tags that the word has, how often, and what one more of them counts.
    rows: Vec<(usize, usize, usize)>,
}

impl Parts {
    fn of(word: &Bag) -> Parts {
        let mut worth = 1;
        let mut rows = Vec::new();
        for (tag, count) in word.counts.iter().enumerate().filter(|it| *it.1 > 0) {
            rows.push((tag, *count as usize, worth));
            worth *= *count as usize + 1;
        }
        Parts { rows }
    }

    fn place(&self, part: &Bag) -> usize {
        self.rows.iter().map(|(tag, _, worth)| part.counts[*tag] as usize * worth).sum()
    }

    /// Adds to these parts what comes of them by taking the period any number of times.
    fn close(&self, made: &mut [u64], period: &Bag) {
        if self.rows.iter().any(|(tag, most, _)| period.counts[*tag] as usize > *most) || self.is_outside(period) {
            return;
        }
        let step = self.place(period);
        let mut counts = vec![0; self.rows.len()];
        let mut at = 0;
        loop {
            let fits = self.rows.iter().zip(&counts).all(|((tag, ..), count)| *count >= period.counts[*tag] as usize);
            if fits && made[(at - step) / 64] & (1 << ((at - step) % 64)) != 0 {
                made[at / 64] |= 1 << (at % 64);
            }
            at += 1;
            if !self.advance(&mut counts) {
                return;
            }
        }
    }

    fn is_outside(&self, period: &Bag) -> bool {
        let tags = self.rows.iter().fold(0, |tags, (tag, ..)| tags | 1 << tag);
        period.tags() & !tags != 0
    }

    fn advance(&self, counts: &mut [usize]) -> bool {
        for ((_, most, _), count) in self.rows.iter().zip(counts) {
            if *count < *most {
                *count += 1;
                return true;
            }
            *count = 0;
        }
        false
    }
}

/// Whether there is an entry for each set of the left, and it shows that the set lies in one of the right.
pub fn check_cover(left: &Sets, right: &Sets, cover: &[CoverEntry]) -> bool {
    left.len() == cover.len() && left.iter().zip(cover).all(|(set, entry)| is_covered(set, right, entry))
}

fn is_covered(set: &LinearSet, right: &Sets, entry: &CoverEntry) -> bool {
    let Some(other) = right.get(entry.set) else {
        return false;
    };
    makes(&other.base, &other.periods, &entry.base, &set.base)
        && entry.periods.len() == set.periods.len()
        && entry.periods.iter().zip(&set.periods).all(|(numbers, period)| makes(&Bag::EMPTY, &other.periods, numbers, period))
}

/// Whether the base and the periods, taken so often, make the word.
fn makes(base: &Bag, periods: &[Bag], numbers: &[u32], word: &Bag) -> bool {
    if numbers.len() != periods.len() {
        return false;
    }
    let rest = numbers.iter().zip(periods).try_fold(*word, |left, (number, period)| left.minus(*number, period));
    rest.is_some_and(|rest| rest == *base)
}
