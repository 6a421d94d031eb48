//! Words that refute: of a pattern's words that another one lacks, one with a least tree.

use crate::grid::Grids;
use crate::hashing::Map;
use crate::linear::Bag;
use crate::pattern::{Form, Pattern};
use crate::points::Points;

/// The most nodes of a tree that shows that a word is derived.
const MOST_NODES: u32 = 4096;

/// How trees of a pattern begin. Parts are numbers of such.
#[derive(Clone, Copy)]
enum Start {
    Nothing,
    Empty,
    Tag(u8),
    Side(usize, usize),
    Both(usize, usize),
    More(usize),
    Lower(usize),
}

/// Trees of a pattern: those that begin with this product are left out, if one is given.
type Key = (Pattern, Option<Pattern>);

struct Trees {
    start: Start,
    /// The points that have been reached, with all that were by trees of some size, in ascending order of size.
    known: Points,
    levels: Vec<(u32, Points)>,
    sizes: Vec<u16>,
}

/// The trees of patterns and of their variables' lower bounds, by size.
pub struct Growing<'g, 't> {
    grids: &'g Grids<'t>,
    lowers: &'g Map<u32, Pattern>,
    numbers: Map<Key, usize>,
    trees: Vec<Trees>,
}

/// For each of these patterns a word that isn't among the points beside it, with a tree as small as any; none where each has a tree that is too large.
pub fn refutations(grids: &Grids, lowers: &Map<u32, Pattern>, sides: &[(Pattern, &Points)]) -> Vec<Option<Bag>> {
    let mut growing = Growing { grids, lowers, numbers: Map::default(), trees: Vec::new() };
    let roots: Vec<usize> = sides.iter().map(|(left, _)| growing.number((*left, None))).collect();
    let mut found: Vec<Option<(usize, u32)>> = vec![None; sides.len()];
    for size in 1..=MOST_NODES {
        growing.grow(size);
        for ((found, root), (_, right)) in found.iter_mut().zip(&roots).zip(sides) {
            if found.is_none() {
                *found = growing.first_missing(*root, size, right).map(|point| (*root, point));
            }
        }
        if found.iter().all(|it| it.is_some()) {
            break;
        }
    }
    found.into_iter().map(|found| found.map(|(root, point)| growing.word(root, point))).collect()
}

impl Growing<'_, '_> {
    /// The number of these trees, and room for them and for their parts.
    fn number(&mut self, key: Key) -> usize {
        let table = self.grids.table;
        let key = match table.form(key.0) {
            Form::Sum(..) | Form::Var(_) => key,
            Form::Product(..) if key.1 == Some(key.0) => key,
            _ => (key.0, None),
        };
        if let Some(number) = self.numbers.get(&key) {
            return *number;
        }
        let number = self.trees.len();
        self.numbers.insert(key, number);
        self.trees.push(Trees { start: Start::Nothing, known: Points::none(), levels: Vec::new(), sizes: Vec::new() });
        let (pattern, left_out) = key;
        let start = match table.form(pattern) {
            Form::Zero => Start::Nothing,
            Form::One => Start::Empty,
            Form::Tag(tag) => Start::Tag(tag),
            Form::Sum(left, right) => Start::Side(self.number((left, left_out)), self.number((right, left_out))),
            Form::Product(..) if left_out == Some(pattern) => Start::Nothing,
            // (x.y).z is also x.(y.z): where both parts are one pattern, no first part needs to be such a product.
            Form::Product(left, right) if left == right => {
                let second = self.number((right, None));
                Start::Both(self.number((left, Some(pattern))), second)
            }
            Form::Product(left, right) => Start::Both(self.number((left, None)), self.number((right, None))),
            Form::Star(part) => Start::More(self.number((part, None))),
            Form::Var(variable) => match self.lowers.get(&variable) {
                Some(lower) => Start::Lower(self.number((*lower, left_out))),
                None => Start::Nothing,
            },
        };
        self.trees[number].start = start;
        number
    }

    /// Finds what trees of this size reach that smaller ones didn't.
    fn grow(&mut self, size: u32) {
        for number in 0..self.trees.len() {
            let reached = self.reached(number, size);
            let trees = &self.trees[number];
            let fresh = self.grids.space.less(&reached, &trees.known);
            if fresh.is_empty() {
                continue;
            }
            let known = self.grids.space.union(&trees.known, &fresh);
            let trees = &mut self.trees[number];
            trees.known = known;
            if trees.sizes.is_empty() {
                trees.sizes = vec![0; self.grids.space.points];
            }
            self.grids.space.each(&fresh, &mut |point| trees.sizes[point as usize] = size as u16);
            trees.levels.push((size, fresh));
        }
    }

    fn level(&self, number: usize, size: u32) -> Option<&Points> {
        let levels = &self.trees[number].levels;
        levels.binary_search_by_key(&size, |it| it.0).ok().map(|at| &levels[at].1)
    }

    fn reached(&self, number: usize, size: u32) -> Points {
        let space = &self.grids.space;
        let one_less = |part: usize| self.level(part, size - 1).cloned().unwrap_or_else(Points::none);
        match self.trees[number].start {
            Start::Nothing => Points::none(),
            Start::Empty if size == 1 => Points::one(0),
            Start::Tag(tag) if size == 1 => Points::one(space.of_tag(tag)),
            Start::More(_) if size == 1 => Points::one(0),
            Start::Empty | Start::Tag(_) => Points::none(),
            Start::Side(left, right) => space.union(&one_less(left), &one_less(right)),
            Start::Lower(root) => one_less(root),
            Start::Both(first, second) => self.sums(number, first, second, size),
            Start::More(part) => self.sums(number, part, number, size),
        }
    }

    /// The sums of points by trees that have so many nodes together with the node that joins them, and what is known already.
    fn sums(&self, number: usize, first: usize, second: usize, size: u32) -> Points {
        let mut reached = None;
        for (own, points) in &self.trees[first].levels {
            if own + 1 >= size {
                break;
            }
            if let Some(others) = self.level(second, size - 1 - own) {
                let before = reached.unwrap_or_else(|| self.trees[number].known.clone());
                reached = Some(self.grids.space.with_sums(&before, points, others));
            }
        }
        reached.unwrap_or_else(Points::none)
    }

    fn first_missing(&self, root: usize, size: u32, right: &Points) -> Option<u32> {
        let space = &self.grids.space;
        let missing = space.less(self.level(root, size)?, right);
        space.list(&missing).first().copied()
    }

    // ---- the word of a tree

    fn size(&self, number: usize, point: u32) -> u32 {
        self.trees[number].sizes.get(point as usize).map_or(0, |size| *size as u32)
    }

    /// The word of a least tree that reaches the point.
    fn word(&self, root: usize, point: u32) -> Bag {
        let mut word = Bag::EMPTY;
        let mut open = vec![(root, point)];
        while let Some((number, point)) = open.pop() {
            let size = self.size(number, point);
            match self.trees[number].start {
                Start::Nothing | Start::Empty => {}
                Start::Tag(tag) => word.counts[tag as usize] += 1,
                Start::Side(left, _) if self.size(left, point) + 1 == size && size > 1 => open.push((left, point)),
                Start::Side(_, right) => open.push((right, point)),
                Start::Lower(lower) => open.push((lower, point)),
                Start::Both(first, second) => {
                    let first = self.whole(first);
                    if let Some((one, other)) = self.pair(first, second, 0, point, size) {
                        open.extend([(first, one), (second, other)]);
                    }
                }
                Start::More(part) => {
                    if let Some((one, other)) = self.pair(part, number, 1, point, size) {
                        open.extend([(part, one), (number, other)]);
                    }
                }
            }
        }
        word
    }

    /// The trees of the same pattern with none left out.
    fn whole(&self, number: usize) -> usize {
        let key = self.numbers.iter().find(|it| *it.1 == number).map(|it| *it.0);
        key.and_then(|key| self.numbers.get(&(key.0, None)).copied()).unwrap_or(number)
    }

    /// The first point, and with it the first second one, whose sum is the point, with trees of so many nodes together.
    fn pair(&self, first: usize, second: usize, from: u32, point: u32, size: u32) -> Option<(u32, u32)> {
        (from..=point).find_map(|one| {
            let own = self.size(first, one);
            if own == 0 || own + 1 >= size {
                return None;
            }
            self.second(second, one, point, size - 1 - own).map(|other| (one, other))
        })
    }

    fn second(&self, second: usize, one: u32, point: u32, size: u32) -> Option<u32> {
        let space = &self.grids.space;
        let (own, sum) = (space.counts(one), space.counts(point));
        let mut least = Vec::with_capacity(own.len());
        for (own, sum) in own.iter().zip(&sum) {
            least.push(sum.checked_sub(*own)?);
        }
        // Where the sum is at the bound, the second count may be greater.
        let mut counts = least.clone();
        loop {
            let other = space.number_of(&counts);
            if self.size(second, other) == size {
                return Some(other);
            }
            let bound = space.bound as u32;
            let raised = (0..counts.len()).rev().find(|tag| sum[*tag] == bound && counts[*tag] < bound)?;
            counts[raised] += 1;
            counts[raised + 1..].copy_from_slice(&least[raised + 1..]);
        }
    }
}
