//! Sets of points: words of which each count is cut at a bound. A point's number has a digit for each tag, the first tag's in front.

use crate::linear::Bag;
use std::cell::RefCell;

const MOST_POINTS: u64 = 65_536;
const WORD: usize = 64;
/// How many points are kept as a list.
const FEW: usize = 48;
const SUMS_KEPT: usize = 1024;

/// Whether a grid of so many tags with this bound is one that is worked with.
pub fn grid_fits(bound: u32, tags: usize) -> bool {
    bound >= 1 && (0..tags).try_fold(1u64, |count, _| Some(count * (bound as u64 + 1)).filter(|it| *it <= MOST_POINTS)).is_some()
}

/// The points of so many tags with a bound. The last tags' points that number at most 64 make a word of bits, or the last tag's make
/// several words; such a row stands for each point of the tags before.
pub struct Space {
    pub bound: usize,
    pub tags: usize,
    pub points: usize,
    base: usize,
    high_tags: usize,
    /// How many points a row has, and how many words they take.
    cells: usize,
    row: usize,
    /// For each tag within a word what one more of it counts there, and the points at which it is at the bound.
    low: Vec<(usize, u64)>,
    sums: RefCell<Vec<(u64, u64, u64)>>,
}

/// A set of points: their numbers in ascending order where they are few, else a bit for each point of the space.
#[derive(Clone, Debug, PartialEq, Eq)]
pub enum Points {
    Few(Vec<u32>),
    Many(Vec<u64>),
}

impl Points {
    pub fn none() -> Points {
        Points::Few(Vec::new())
    }

    pub fn one(point: u32) -> Points {
        Points::Few(vec![point])
    }

    pub fn is_empty(&self) -> bool {
        match self {
            Points::Few(points) => points.is_empty(),
            Points::Many(bits) => bits.iter().all(|word| *word == 0),
        }
    }

    /// Whether the point of the empty word is in it.
    pub fn has_first(&self) -> bool {
        match self {
            Points::Few(points) => points.first() == Some(&0),
            Points::Many(bits) => bits[0] & 1 != 0,
        }
    }

    fn count(&self) -> usize {
        match self {
            Points::Few(points) => points.len(),
            Points::Many(bits) => bits.iter().map(|word| word.count_ones() as usize).sum(),
        }
    }
}

impl Space {
    pub fn new(bound: u32, tags: usize) -> Space {
        let base = bound as usize + 1;
        let points = base.pow(tags as u32);
        let (mut low_tags, mut cells) = (0, 1);
        while low_tags < tags && (cells * base <= WORD || low_tags == 0) {
            low_tags += 1;
            cells *= base;
        }
        let row = cells.div_ceil(WORD);
        let mut low = Vec::new();
        for tag in (0..low_tags).filter(|_| row == 1) {
            let worth = base.pow(tag as u32);
            let tops = (0..cells).filter(|cell| cell / worth % base == base - 1).fold(0, |tops, cell| tops | 1 << cell);
            low.push((worth, tops));
        }
        let sums = RefCell::default();
        Space { bound: bound as usize, tags, points, base, high_tags: tags - low_tags, cells, row, low, sums }
    }

    fn words(&self) -> usize {
        self.points / self.cells * self.row
    }

    /// A row of one word with all its points.
    fn full(&self) -> u64 {
        u64::MAX >> (WORD - self.cells)
    }

    fn place(&self, point: u32) -> (usize, u64) {
        let (row, cell) = (point as usize / self.cells, point as usize % self.cells);
        (row * self.row + cell / WORD, 1 << (cell % WORD))
    }

    pub fn number(&self, bag: &Bag) -> u32 {
        bag.counts[..self.tags].iter().fold(0, |number, count| number * self.base as u32 + (*count).min(self.bound as u32))
    }

    pub fn of_tag(&self, tag: u8) -> u32 {
        self.number(&Bag::one(tag))
    }

    /// The counts of a point, in the order of tags.
    pub fn counts(&self, point: u32) -> Vec<u32> {
        let mut counts = vec![0; self.tags];
        let mut left = point;
        for count in counts.iter_mut().rev() {
            *count = left % self.base as u32;
            left /= self.base as u32;
        }
        counts
    }

    pub fn number_of(&self, counts: &[u32]) -> u32 {
        counts.iter().fold(0, |number, count| number * self.base as u32 + count)
    }

    fn sum_of(&self, one: u32, other: u32) -> u32 {
        let base = self.base as u32;
        let (mut one, mut other, mut worth, mut sum) = (one, other, 1, 0);
        while one > 0 || other > 0 {
            sum += worth * (one % base + other % base).min(base - 1);
            one /= base;
            other /= base;
            worth *= base;
        }
        sum
    }

    // ---- sets

    pub fn has(&self, set: &Points, point: u32) -> bool {
        match set {
            Points::Few(points) => points.binary_search(&point).is_ok(),
            Points::Many(bits) => {
                let (word, bit) = self.place(point);
                bits[word] & bit != 0
            }
        }
    }

    /// Calls the function with each point, in ascending order.
    pub fn each(&self, set: &Points, call: &mut impl FnMut(u32)) {
        match set {
            Points::Few(points) => points.iter().for_each(|point| call(*point)),
            Points::Many(bits) => {
                for (at, word) in bits.iter().enumerate() {
                    let from = (at / self.row * self.cells + at % self.row * WORD) as u32;
                    let mut left = *word;
                    while left != 0 {
                        call(from + left.trailing_zeros());
                        left &= left - 1;
                    }
                }
            }
        }
    }

    pub fn list(&self, set: &Points) -> Vec<u32> {
        let mut points = Vec::with_capacity(set.count());
        self.each(set, &mut |point| points.push(point));
        points
    }

    fn bits(&self, set: &Points) -> Vec<u64> {
        match set {
            Points::Many(bits) => bits.clone(),
            Points::Few(points) => {
                let mut bits = vec![0; self.words()];
                for point in points {
                    let (word, bit) = self.place(*point);
                    bits[word] |= bit;
                }
                bits
            }
        }
    }

    /// The set that the bits are of.
    fn packed(&self, bits: Vec<u64>) -> Points {
        let set = Points::Many(bits);
        if set.count() <= FEW {
            Points::Few(self.list(&set))
        } else {
            set
        }
    }

    pub fn union(&self, one: &Points, other: &Points) -> Points {
        match (one, other) {
            (Points::Few(own), Points::Few(more)) => {
                let mut points: Vec<u32> = own.iter().chain(more).copied().collect();
                points.sort_unstable();
                points.dedup();
                self.from_list(points)
            }
            (Points::Many(bits), other) | (other, Points::Many(bits)) => {
                let mut bits = bits.clone();
                match other {
                    Points::Few(points) => points.iter().for_each(|point| {
                        let (word, bit) = self.place(*point);
                        bits[word] |= bit;
                    }),
                    Points::Many(more) => bits.iter_mut().zip(more).for_each(|(word, more)| *word |= more),
                }
                Points::Many(bits)
            }
        }
    }

    /// The set of points that ascend.
    pub fn from_list(&self, points: Vec<u32>) -> Points {
        if points.len() <= FEW {
            Points::Few(points)
        } else {
            Points::Many(self.bits(&Points::Few(points)))
        }
    }

    /// What of one set isn't in the other.
    pub fn less(&self, one: &Points, other: &Points) -> Points {
        match (one, other) {
            (Points::Many(bits), Points::Many(less)) => {
                self.packed(bits.iter().zip(less).map(|(word, less)| word & !less).collect())
            }
            (Points::Few(points), other) => {
                Points::Few(points.iter().copied().filter(|point| !self.has(other, *point)).collect())
            }
            (Points::Many(bits), Points::Few(points)) => {
                let mut bits = bits.clone();
                for point in points {
                    let (word, bit) = self.place(*point);
                    bits[word] &= !bit;
                }
                self.packed(bits)
            }
        }
    }

    pub fn is_within(&self, one: &Points, other: &Points) -> bool {
        match (one, other) {
            (Points::Many(bits), Points::Many(all)) => bits.iter().zip(all).all(|(word, all)| word & !all == 0),
            (Points::Few(points), other) => points.iter().all(|point| self.has(other, *point)),
            (Points::Many(_), Points::Few(points)) => one.count() <= points.len() && self.less(one, other).is_empty(),
        }
    }

    // ---- sums

    /// A set, with the sums of points of two others.
    pub fn with_sums(&self, set: &Points, left: &Points, right: &Points) -> Points {
        if left.is_empty() || right.is_empty() {
            return set.clone();
        }
        match (left, right) {
            (Points::Few(left), Points::Few(right)) if left.len() * right.len() <= self.words().max(64) => {
                let mut sums: Vec<u32> =
                    left.iter().flat_map(|one| right.iter().map(|other| self.sum_of(*one, *other))).collect();
                sums.sort_unstable();
                sums.dedup();
                self.union(set, &self.from_list(sums))
            }
            _ => {
                let mut bits = self.bits(set);
                let mut room = vec![0; self.words()];
                self.add(self.high_tags, &mut bits, &self.bits(left), &self.bits(right), &mut room);
                self.packed(bits)
            }
        }
    }

    /// Adds the sums of points of two blocks to a third, the first so many tags being left: what is at the bound there is added at once.
    /// There is room for as many words as a block has.
    fn add(&self, tags: usize, sums: &mut [u64], left: &[u64], right: &[u64], room: &mut [u64]) {
        if tags == 0 {
            return self.add_rows(sums, left, right);
        }
        if self.row == 1 && sums.iter().all(|word| *word == self.full()) {
            return;
        }
        let size = left.len() / self.base;
        let at = |block: usize| block * size..(block + 1) * size;
        let (behind, room) = room.split_at_mut(size);
        behind.fill(0);
        // From the first block's count on, ever more of the second set's blocks come to the bound.
        let mut open = self.base;
        for first in 0..self.base {
            let own = &left[at(first)];
            if !has_any(own) {
                continue;
            }
            while open > 0 && first + open > self.bound {
                open -= 1;
                behind.iter_mut().zip(&right[at(open)]).for_each(|(word, more)| *word |= more);
            }
            for second in 0..open {
                let other = &right[at(second)];
                if has_any(other) {
                    self.add(tags - 1, &mut sums[at(first + second)], own, other, room);
                }
            }
            if has_any(behind) {
                self.add(tags - 1, &mut sums[at(self.bound)], own, behind, room);
            }
        }
    }

    fn add_rows(&self, sums: &mut [u64], left: &[u64], right: &[u64]) {
        if self.row == 1 {
            sums[0] |= self.word_sum(left[0], right[0], sums[0]);
            return;
        }
        let ones = |row: &[u64]| row.iter().map(|word| word.count_ones()).sum::<u32>();
        let (points, moved) = if ones(left) <= ones(right) { (left, right) } else { (right, left) };
        for (at, word) in points.iter().enumerate() {
            let mut rest = *word;
            while rest != 0 {
                self.add_moved(sums, moved, at * WORD + rest.trailing_zeros() as usize);
                rest &= rest - 1;
            }
        }
    }

    /// Adds a row of several words, with each of its points so much farther, or at the bound.
    fn add_moved(&self, sums: &mut [u64], row: &[u64], by: usize) {
        let (words, bits) = (by / WORD, by % WORD);
        for (at, word) in row.iter().enumerate() {
            if let Some(sum) = sums.get_mut(at + words) {
                *sum |= word << bits;
            }
            if let Some(sum) = sums.get_mut(at + words + 1).filter(|_| bits > 0) {
                *sum |= word >> (WORD - bits);
            }
        }
        let (last, bit) = (self.bound / WORD, self.bound % WORD);
        // What went beyond the bound, within the last word or out of the row, is at the bound.
        let beyond = sums[last] & !(u64::MAX >> (WORD - 1 - bit));
        let first = self.bound - by.min(self.bound);
        let reaches = row[first / WORD] >> (first % WORD) != 0 || has_any(&row[first / WORD + 1..]);
        sums[last] = sums[last] & !beyond | if reaches { 1 << bit } else { 0 };
    }

    /// The sums of points of two words, unless all points are there already.
    fn word_sum(&self, left: u64, right: u64, there: u64) -> u64 {
        if there == self.full() || left == 0 || right == 0 {
            return there;
        }
        let mixed = (left ^ right.rotate_left(29)).wrapping_mul(0x9e37_79b9_7f4a_7c15);
        let slot = (mixed >> 40) as usize % SUMS_KEPT;
        let kept = self.sums.borrow().get(slot).copied().unwrap_or_default();
        if (kept.0, kept.1) == (left, right) {
            return kept.2;
        }
        let (mut points, moved) = if left.count_ones() <= right.count_ones() { (left, right) } else { (right, left) };
        let mut sum = 0;
        while points != 0 {
            sum |= self.moved(moved, points.trailing_zeros() as usize);
            points &= points - 1;
        }
        let mut sums = self.sums.borrow_mut();
        sums.resize(SUMS_KEPT, (0, 0, 0));
        sums[slot] = (left, right, sum);
        sum
    }

    /// Each point of a word with a point of a word added, tag by tag.
    fn moved(&self, word: u64, by: usize) -> u64 {
        let mut word = word;
        for (worth, tops) in &self.low {
            for _ in 0..by / worth % self.base {
                word = (word & !tops) << worth | word & tops;
            }
        }
        word
    }

    /// A set that has the sums of its points, once these points, each any number of times, may be added.
    pub fn closed(&self, set: &Points, more: &Points) -> Points {
        if more.count() > 512 {
            return self.doubled(self.union(set, more));
        }
        let mut all = set.clone();
        self.each(more, &mut |point| {
            if self.has(&all, point) {
                return;
            }
            // Once it may be added less than so often, it may be added twice as often.
            let mut step = point;
            loop {
                let next = self.with_sums(&all, &all, &Points::one(step));
                if next == all {
                    return;
                }
                all = next;
                step = self.sum_of(step, step);
            }
        });
        all
    }

    fn doubled(&self, set: Points) -> Points {
        let mut all = set;
        loop {
            let next = self.with_sums(&all, &all, &all);
            if next == all {
                return all;
            }
            all = next;
        }
    }
}

fn has_any(bits: &[u64]) -> bool {
    bits.iter().any(|word| *word != 0)
}
