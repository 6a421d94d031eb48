//! Sets of numbers in which the next one from a number on is found quickly.

const WORD: u32 = 64;

/// A bit for each number, and a bit for each word of such bits that has one.
#[derive(Default)]
pub struct Numbers {
    words: Vec<u64>,
    summary: Vec<u64>,
}

impl Numbers {
    pub fn insert(&mut self, number: u32) {
        let (word, bit) = ((number / WORD) as usize, number % WORD);
        if word >= self.words.len() {
            self.words.resize(word + 1, 0);
            self.summary.resize(word / WORD as usize + 1, 0);
        }
        self.words[word] |= 1 << bit;
        self.summary[word / WORD as usize] |= 1 << (word as u32 % WORD);
    }

    pub fn remove(&mut self, number: u32) {
        let (word, bit) = ((number / WORD) as usize, number % WORD);
        if let Some(bits) = self.words.get_mut(word) {
            *bits &= !(1 << bit);
            if *bits == 0 {
                self.summary[word / WORD as usize] &= !(1 << (word as u32 % WORD));
            }
        }
    }

    pub fn is_empty(&self) -> bool {
        self.summary.iter().all(|it| *it == 0)
    }

    /// The least number in it that isn't below this one.
    pub fn next(&self, from: u32) -> Option<u32> {
        let word = (from / WORD) as usize;
        let here = self.words.get(word)? & (u64::MAX << (from % WORD));
        if here != 0 {
            return Some(word as u32 * WORD + here.trailing_zeros());
        }
        let word = next_bit(&self.summary, word as u32 + 1)?;
        Some(word * WORD + self.words[word as usize].trailing_zeros())
    }
}

fn next_bit(words: &[u64], from: u32) -> Option<u32> {
    let mut word = (from / WORD) as usize;
    let mut here = words.get(word)? & (u64::MAX << (from % WORD));
    while here == 0 {
        word += 1;
        here = *words.get(word)?;
    }
    Some(word as u32 * WORD + here.trailing_zeros())
}
