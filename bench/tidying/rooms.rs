//! A tree of numbers in which a range is lowered at once, and the first low number is found. A node has the least number below it, reduced by what its own
//! range was lowered by, but not by what the ranges above it were lowered by.

/// The value where there is no number.
pub const NO_ROOM: i32 = i32::MAX;

pub struct Rooms {
    width: usize,
    /// Both are empty as long as no number was entered.
    least: Vec<i32>,
    lowered: Vec<i32>,
}

fn less(room: i32, by: i32) -> i32 {
    if room == NO_ROOM { NO_ROOM } else { room - by }
}

impl Rooms {
    pub fn none(count: usize) -> Rooms {
        let width = count.next_power_of_two();
        Rooms { width, least: Vec::new(), lowered: Vec::new() }
    }

    fn note(&mut self, at: usize) {
        self.least[at] = less(self.least[2 * at].min(self.least[2 * at + 1]), self.lowered[at]);
    }

    pub fn put(&mut self, number: usize, room: i32) {
        if self.least.is_empty() {
            self.least.resize(2 * self.width, NO_ROOM);
            self.lowered.resize(2 * self.width, 0);
        }
        let leaf = self.width + number;
        let above = |at: &usize| (*at > 1).then_some(at / 2);
        let lowered: i32 = std::iter::successors(above(&leaf), above).map(|at| self.lowered[at]).sum();
        self.least[leaf] = less(room, -lowered);
        let mut at = leaf / 2;
        while at > 0 {
            self.note(at);
            at /= 2;
        }
    }

    pub fn take(&mut self, number: usize) {
        if self.least.get(self.width + number).is_some_and(|room| *room != NO_ROOM) {
            self.put(number, NO_ROOM);
        }
    }

    /// Lowers all numbers from one index up to before another.
    pub fn lower(&mut self, from: usize, to: usize, by: i32) {
        if !self.is_empty() {
            self.lower_in(1, (0, self.width), (from, to), by);
        }
    }

    fn lower_in(&mut self, at: usize, range: (usize, usize), lowered: (usize, usize), by: i32) {
        let ((start, end), (from, to)) = (range, lowered);
        if self.least[at] == NO_ROOM || to <= start || end <= from {
            return;
        }
        if from <= start && end <= to {
            self.least[at] -= by;
            self.lowered[at] += if at < self.width { by } else { 0 };
            return;
        }
        let middle = (start + end) / 2;
        self.lower_in(2 * at, (start, middle), lowered, by);
        self.lower_in(2 * at + 1, (middle, end), lowered, by);
        self.note(at);
    }

    pub fn is_empty(&self) -> bool {
        self.least.get(1).is_none_or(|room| *room == NO_ROOM)
    }

    /// The first index whose number is below a given one.
    pub fn first_below(&self, room: i32) -> Option<usize> {
        let mut below = i64::from(room);
        if self.is_empty() || i64::from(self.least[1]) >= below {
            return None;
        }
        let mut at = 1;
        while at < self.width {
            below += i64::from(self.lowered[at]);
            at = 2 * at + usize::from(i64::from(self.least[2 * at]) >= below);
        }
        Some(at - self.width)
    }
}
