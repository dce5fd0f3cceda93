//! The places of a listing while some of them are removed, and which are due for a check. A place keeps its number.

/// No place.
pub const NONE: usize = usize::MAX;

/// The places that are kept. A kept place also represents those right before it that are removed; the place after the last one is always kept.
pub struct Kept {
    /// A place at or after each; the same if it is kept.
    onward: Vec<u32>,
    pub next: Vec<usize>,
    pub previous: Vec<usize>,
}

impl Kept {
    pub fn all(count: usize) -> Kept {
        Kept {
            onward: (0..=count as u32).collect(),
            next: (1..=count + 1).collect(),
            previous: (0..=count).map(|place| place.wrapping_sub(1)).collect(),
        }
    }

    /// The place after the last one.
    pub fn end(&self) -> usize {
        self.onward.len() - 1
    }

    pub fn is_kept(&self, place: usize) -> bool {
        self.onward[place] as usize == place
    }

    /// The kept place that represents a place.
    pub fn node(&mut self, place: usize) -> usize {
        let mut at = place;
        while self.onward[at] as usize != at {
            let over = self.onward[self.onward[at] as usize];
            self.onward[at] = over;
            at = over as usize;
        }
        at
    }

    /// The first place that a kept place represents.
    pub fn start(&self, place: usize) -> usize {
        self.previous[place].wrapping_add(1)
    }

    /// Removes a kept place.
    pub fn leave(&mut self, place: usize) {
        let (before, behind) = (self.previous[place], self.next[place]);
        self.onward[place] = place as u32 + 1;
        self.previous[behind] = before;
        if before != NONE {
            self.next[before] = behind;
        }
    }
}

/// A set of places whose least element is found at once: a bit for each, a bit for each word of these, and a bit for each word of those.
pub struct Due {
    levels: [Vec<u64>; 3],
}

impl Due {
    pub fn none(count: usize) -> Due {
        let words = |count: usize| vec![0; count / 64 + 1];
        Due { levels: [words(count), words(count / 64), words(count / 4096)] }
    }

    pub fn put(&mut self, place: usize) {
        let mut at = place;
        for level in &mut self.levels {
            let had_some = level[at / 64] != 0;
            level[at / 64] |= 1 << (at % 64);
            if had_some {
                return;
            }
            at /= 64;
        }
    }

    pub fn take(&mut self, place: usize) {
        let mut at = place;
        for level in &mut self.levels {
            level[at / 64] &= !(1 << (at % 64));
            if level[at / 64] != 0 {
                return;
            }
            at /= 64;
        }
    }

    pub fn least(&self) -> Option<usize> {
        let [low, middle, high] = &self.levels;
        let word = high.iter().position(|word| *word != 0)?;
        let word = word * 64 + high[word].trailing_zeros() as usize;
        let word = word * 64 + middle[word].trailing_zeros() as usize;
        Some(word * 64 + low[word].trailing_zeros() as usize)
    }
    /// The least place at or after one.
    // not every program needs this and the rest
    #[allow(dead_code)]
    pub fn at_or_behind(&self, place: usize) -> Option<usize> {
        let mut at = place;
        for (depth, level) in self.levels.iter().enumerate() {
            let word = level.get(at / 64)? & (!0 << (at % 64));
            if word != 0 {
                return Some(self.under(depth, at / 64 * 64 + word.trailing_zeros() as usize, |word| word.trailing_zeros()));
            }
            at = at / 64 + 1;
        }
        let word = at + self.levels[2].get(at..)?.iter().position(|word| *word != 0)?;
        Some(self.under(3, word, |word| word.trailing_zeros()))
    }

    /// The greatest place before one.
    #[allow(dead_code)]
    pub fn before(&self, place: usize) -> Option<usize> {
        let mut end = place;
        for (depth, level) in self.levels.iter().enumerate() {
            let word = if end % 64 == 0 { 0 } else { level[end / 64] & !(!0 << (end % 64)) };
            if word != 0 {
                return Some(self.under(depth, end / 64 * 64 + word.ilog2() as usize, |word| word.ilog2()));
            }
            end /= 64;
        }
        let word = self.levels[2][..end].iter().rposition(|word| *word != 0)?;
        Some(self.under(3, word, |word| word.ilog2()))
    }

    /// The place of one bit of a level; `bit` chooses the bit of each word below.
    fn under(&self, depth: usize, at: usize, bit: impl Fn(u64) -> u32) -> usize {
        self.levels[..depth].iter().rev().fold(at, |at, level| at * 64 + bit(level[at]) as usize)
    }
}
