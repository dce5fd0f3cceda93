//! Changes that a layout refused, found again by any of the blocks that caused it.

/// Blocks between whose ends a distance would be out of reach.
pub struct Refused {
    pub first: usize,
    pub last: usize,
}

/// Places where a change was refused, by the blocks between which the distance lies: for each range of first blocks the greatest last one.
pub struct Refusals {
    width: usize,
    last: Vec<u32>,
    /// Empty as long as nothing was refused.
    by_first: Vec<Vec<(u32, u32)>>,
}

impl Refusals {
    pub fn none(blocks: usize) -> Refusals {
        let width = blocks.next_power_of_two();
        Refusals { width, last: vec![0; 2 * width], by_first: Vec::new() }
    }

    pub fn put(&mut self, refused: &Refused, place: usize) {
        let last = refused.last as u32 + 1;
        if self.by_first.is_empty() {
            self.by_first.resize(self.width, Vec::new());
        }
        self.by_first[refused.first].push((last, place as u32));
        self.note(refused.first, last.max(self.last[self.width + refused.first]));
    }

    fn note(&mut self, first: usize, last: u32) {
        let mut at = self.width + first;
        self.last[at] = last;
        while at > 1 {
            at /= 2;
            self.last[at] = self.last[2 * at].max(self.last[2 * at + 1]);
        }
    }

    /// Removes the places whose distances include a block, and passes them to `put`.
    pub fn take(&mut self, block: usize, mut put: impl FnMut(usize)) {
        while let Some(first) = self.first_around(1, (0, self.width), block) {
            self.by_first[first].retain(|(last, place)| {
                let is_kept = *last as usize <= block;
                if !is_kept {
                    put(*place as usize);
                }
                is_kept
            });
            let last = self.by_first[first].iter().map(|(last, _)| *last).max();
            self.note(first, last.unwrap_or(0));
        }
    }

    fn first_around(&self, at: usize, range: (usize, usize), block: usize) -> Option<usize> {
        let (start, end) = range;
        if start > block || self.last[at] as usize <= block {
            return None;
        }
        if end - start == 1 {
            return Some(start);
        }
        let middle = (start + end) / 2;
        self.first_around(2 * at, (start, middle), block).or_else(|| self.first_around(2 * at + 1, (middle, end), block))
    }
}
