//! A layout that is kept while instructions are removed and branches get other labels. Lines are in blocks, of which only the first may have labels, mention a
//! name or align. A removal moves all that follows to the front, from one affected alignment to the next. Only those mentions are checked that can get out of
//! reach then: mentions across an alignment that grows, labels of literals, and addresses that are set.

use crate::instruction::Instr;
use crate::kept::Due as Marks;
use crate::layout::{aim_fault, size};
use crate::line::Statement;
use crate::listing::Listing;
use crate::mentioned::Mentioned;
use crate::refusals::Refused;
use crate::rooms::{Rooms, NO_ROOM};

/// The size of a group of blocks, each with how far all of it has moved.
const GROUP: usize = 512;

/// The longest reach of a mention of a label, in bytes, except for calls.
const REACH: u32 = 2052;

/// A branch out of reach is checked again after removals within this many bytes of it.
pub const WINDOW: u32 = 3072;

const NO_PLACE: u32 = u32::MAX;

#[derive(Clone, Copy)]
enum Target {
    Block(usize),
    Address(u32),
}

#[derive(Clone, Copy)]
enum Head {
    Plain,
    Pads { size: u32, most: u32 },
    Aims { instr: Instr, plus: u32, to: Target },
}

/// The addresses of all blocks.
struct Starts {
    at: Vec<u32>,
    moved: Vec<u32>,
}

impl Starts {
    fn of(&self, block: usize) -> u32 {
        self.at[block] - self.moved[block / GROUP]
    }

    /// The first block at an address or after it.
    fn first_from(&self, address: u32) -> usize {
        let (mut least, mut most) = (0, self.at.len());
        while least < most {
            let middle = (least + most) / 2;
            if self.of(middle) < address {
                least = middle + 1;
            } else {
                most = middle;
            }
        }
        least
    }

    /// Moves the blocks from one up to before another to the front by a number of bytes.
    fn shift(&mut self, from: usize, to: usize, by: u32) {
        let (first, last) = (from.div_ceil(GROUP), to / GROUP);
        if first >= last {
            self.at[from..to].iter_mut().for_each(|at| *at -= by);
        } else {
            self.at[from..first * GROUP].iter_mut().for_each(|at| *at -= by);
            self.moved[first..last].iter_mut().for_each(|moved| *moved += by);
            self.at[last * GROUP..to].iter_mut().for_each(|at| *at -= by);
        }
    }
}

/// A move: the blocks from the first up to before the next move move to the front by a number of bytes.
#[derive(Clone, Copy)]
struct Move {
    first: usize,
    by: u32,
}

/// Why a change was refused, as blocks from a first to a last one: removals from those between a mention and its target may allow it, and so may an alignment
/// that moves between these and the change.
pub struct Refusal {
    pub bytes: Refused,
    pub paddings: Refused,
}

fn refusal(here: usize, from: usize, to: usize) -> Refusal {
    let (first, last) = (from.min(to), from.max(to));
    Refusal { bytes: Refused { first, last }, paddings: Refused { first: first.min(here), last } }
}

pub struct Widest {
    heads: Vec<Head>,
    starts: Starts,
    /// The block of each line, and the place of the instruction with each block's mention.
    numbers: Vec<u32>,
    places: Vec<u32>,
    /// The blocks that mention a label, and those that call one, which matter if calls can be out of reach.
    mentions: Marks,
    calls: Vec<usize>,
    /// How many literals mention the label of each block, and the blocks whose label is mentioned so.
    literal_counts: Vec<u32>,
    literals: Marks,
    /// For each power of 2 and each block the least one at or after it that aligns to a greater number.
    aligned: [Vec<u32>; 9],
    /// The blocks that mention an address that is set, in order, and by how many bytes each may still move to the front.
    set: Vec<usize>,
    rooms: Rooms,
    moves: Vec<Move>,
    /// What the last requested change does: the blocks that it makes shorter, each with the number of bytes,
    pub shorter: Vec<(usize, u32)>,
    /// the alignments whose paddings it may change,
    pub moved: Vec<usize>,
    /// and the block whose label is then no longer mentioned by a literal.
    pub unmentioned: Option<usize>,
}

/// How many bytes an alignment takes at an address.
fn padding(head: Head, at: u32) -> u32 {
    match head {
        Head::Pads { size, most } => match at.wrapping_neg() & (size - 1) {
            need if need <= most => need,
            _ => 0,
        },
        _ => 0,
    }
}

/// By how many bytes a mention of an address may move to the front.
fn room_of(at: u32, head: Head) -> i32 {
    let Head::Aims { instr, to: Target::Address(to), .. } = head else { return NO_ROOM };
    let most = match instr {
        Instr::Call => 16_777_216,
        _ => 2048,
    };
    (most - 1 - (i64::from(to) - i64::from(at) - 4)) as i32
}

fn is_literal(instr: Instr) -> bool {
    matches!(instr, Instr::Literal { .. } | Instr::Address { .. })
}

/// What a block begins with, given its first line. Alignments that never take a byte, as instructions have two or four, don't count.
fn head_of(statement: &Statement, mentioned: Mentioned) -> Option<Head> {
    match statement {
        Statement::Aligns { size, most } if *size > 2 && *most >= 2 => Some(Head::Pads { size: *size, most: *most }),
        Statement::Runs { instr, mention: Some(mention) } => {
            let to = match mentioned {
                // the line, in place of its block, which isn't known yet
                Mentioned::Label(line) => Target::Block(line as usize),
                Mentioned::Address(address) => Target::Address(address & !1),
                Mentioned::Nowhere => return None,
            };
            Some(Head::Aims { instr: *instr, plus: mention.plus, to })
        }
        _ => None,
    }
}

/// For each block the least one at or after it that satisfies a condition.
fn behind(count: usize, is_one: impl Fn(usize) -> bool) -> Vec<u32> {
    let mut found = vec![count as u32; count + 1];
    for number in (0..count).rev() {
        found[number] = if is_one(number) { number as u32 } else { found[number + 1] };
    }
    found
}

impl Widest {
    pub fn of(listing: &Listing, mentioned: &[Mentioned], base: u32) -> Widest {
        let mut numbers = Vec::with_capacity(listing.lines.len());
        let (mut heads, mut bytes, mut places) = (vec![Head::Plain], vec![0], vec![NO_PLACE]);
        let mut has_head = false;
        for ((line, place), mentioned) in listing.lines.iter().zip(&listing.passed).zip(mentioned) {
            let head = head_of(&line.statement, *mentioned);
            if (head.is_some() || !line.names.is_empty()) && (has_head || bytes[bytes.len() - 1] > 0) {
                heads.push(Head::Plain);
                bytes.push(0);
                places.push(NO_PLACE);
                has_head = false;
            }
            let last = bytes.len() - 1;
            if let Some(head) = head {
                has_head = true;
                heads[last] = head;
                places[last] = if matches!(head, Head::Aims { .. }) { *place } else { NO_PLACE };
            }
            numbers.push(last as u32);
            if !matches!(line.statement, Statement::Aligns { .. }) {
                bytes[last] += size(&line.statement, 0) as u32;
            }
        }
        for head in &mut heads {
            if let Head::Aims { to: Target::Block(to), .. } = head {
                *to = numbers[*to] as usize;
            }
        }
        Widest::laid(base, heads, &bytes, numbers, places)
    }

    fn laid(base: u32, heads: Vec<Head>, bytes: &[u32], numbers: Vec<u32>, places: Vec<u32>) -> Widest {
        let count = heads.len();
        let mut end = base;
        let starts = heads.iter().zip(bytes).map(|(head, bytes)| {
            let at = end;
            end = at + padding(*head, at) + bytes;
            at
        });
        let starts = Starts { at: starts.collect(), moved: vec![0; count / GROUP + 1] };
        let is_far = end - base >= 8_000_000;
        let numbers_of = |is_one: &dyn Fn(&Head) -> bool| (0..count).filter(|number| is_one(&heads[*number])).collect::<Vec<_>>();
        let calls = numbers_of(&|head| is_far && matches!(head, Head::Aims { instr: Instr::Call, to: Target::Block(_), .. }));
        let set = numbers_of(&|head| matches!(head, Head::Aims { to: Target::Address(_), .. }));
        let mut widest = Widest {
            aligned: std::array::from_fn(|power| behind(count, |number| matches!(heads[number], Head::Pads { size, .. } if size > 1 << power))),
            heads,
            starts,
            numbers,
            places,
            mentions: Marks::none(count),
            calls,
            literal_counts: vec![0; count],
            literals: Marks::none(count),
            rooms: Rooms::none(set.len()),
            set,
            moves: Vec::new(),
            shorter: Vec::new(),
            moved: Vec::new(),
            unmentioned: None,
        };
        for number in 0..count {
            widest.put_mention(number, widest.heads[number]);
        }
        widest
    }

    /// Whether all that is mentioned is in reach.
    pub fn is_laid(&self) -> bool {
        let is_fault = |(number, head): (usize, &Head)| match *head {
            Head::Aims { instr, plus, to } => {
                let to = match to {
                    Target::Block(block) => self.starts.of(block),
                    Target::Address(address) => address,
                };
                aim_fault(self.starts.of(number), instr, to, plus).is_some()
            }
            _ => false,
        };
        !self.heads.iter().enumerate().any(is_fault)
    }

    pub fn count(&self) -> usize {
        self.heads.len()
    }

    pub fn block(&self, line: u32) -> usize {
        self.numbers[line as usize] as usize
    }

    /// The place of the instruction with a block's mention.
    pub fn place(&self, block: usize) -> Option<usize> {
        Some(self.places[block]).filter(|place| *place != NO_PLACE).map(|place| place as usize)
    }

    /// The range of blocks within a number of bytes before and after one.
    pub fn around(&self, block: usize, bytes: u32) -> (usize, usize) {
        let end = if block + 1 < self.count() { self.starts.of(block + 1) } else { self.starts.of(block) };
        (self.starts.first_from(self.starts.of(block).saturating_sub(bytes)), self.starts.first_from(end + bytes + 1))
    }

    /// By how many bytes a branch would be out of reach of a label, if it is. The result is limited to what `WINDOW` covers.
    pub fn miss(&self, block: usize, label: u32) -> Option<i32> {
        let Head::Aims { instr, .. } = self.heads[block] else { return None };
        let reach = if matches!(instr, Instr::BranchIf(_)) { 256 } else { 2048 };
        let distance = i64::from(self.starts.of(self.block(label))) - i64::from(self.starts.of(block)) - 4;
        let by = (distance - (reach - 1)).max(-reach - distance);
        (by > 0).then(|| by.min(i64::from(WINDOW) - reach - 8) as i32)
    }

    /// Changes the label of a branch.
    pub fn retarget(&mut self, block: usize, label: u32) {
        let label = self.block(label);
        if let Head::Aims { to, .. } = &mut self.heads[block] {
            *to = Target::Block(label);
        }
    }

    /// By how many bytes a block moves.
    fn moved_by(&self, block: usize) -> u32 {
        let behind = self.moves.partition_point(|one| one.first <= block);
        behind.checked_sub(1).map_or(0, |last| self.moves[last].by)
    }

    /// Whether the mention of a block stays in reach.
    fn check(&self, here: usize, number: usize) -> Result<(), Refusal> {
        let Head::Aims { instr, plus, to: Target::Block(to) } = self.heads[number] else { return Ok(()) };
        let start = |block| self.starts.of(block) - self.moved_by(block);
        match aim_fault(start(number), instr, start(to), plus) {
            None => Ok(()),
            Some(_) => Err(refusal(here, number, to)),
        }
    }

    /// Moves what follows a block that gets shorter: from one affected alignment to the next.
    fn walk(&mut self, here: usize, bytes: u32) -> Result<(), Refusal> {
        let count = self.count();
        self.moves.clear();
        self.moved.clear();
        self.shorter.clear();
        self.shorter.push((here, bytes));
        let (mut from, mut by) = (here + 1, bytes);
        while by > 0 && from < count {
            self.moves.push(Move { first: from, by });
            let at = self.aligned[by.trailing_zeros().min(8) as usize][from] as usize;
            if by % 4 != 0 {
                if let Some(literal) = self.literals.at_or_behind(from).filter(|literal| *literal <= at) {
                    return Err(Refusal { bytes: Refused { first: literal, last: literal }, paddings: Refused { first: here, last: literal } });
                }
            }
            if at == count {
                return Ok(());
            }
            self.moved.push(at);
            let old = self.starts.of(at);
            let next = by + padding(self.heads[at], old) - padding(self.heads[at], old - by);
            if next > by {
                self.shorter.push((at, next - by));
            }
            (from, by) = (at + 1, next);
        }
        if from < count {
            self.moves.push(Move { first: from, by: 0 });
        }
        Ok(())
    }

    /// Whether all that is mentioned across an alignment that grows stays in reach.
    fn check_across(&self, here: usize, at: usize) -> Result<(), Refusal> {
        let start = self.starts.of(at);
        let is_across = |number: usize| matches!(self.heads[number], Head::Aims { to: Target::Block(to), .. } if (to <= at) != (number <= at));
        let check = |number: usize| if is_across(number) { self.check(here, number) } else { Ok(()) };
        let before = |number: usize| self.mentions.before(number).filter(|number| *number > here && start - self.starts.of(*number) <= REACH);
        let behind = |number: usize| self.mentions.at_or_behind(number).filter(|number| self.starts.of(*number) - start <= REACH + 256);
        std::iter::successors(before(at), |number| before(*number)).try_for_each(check)?;
        std::iter::successors(behind(at), |number| behind(*number + 1)).try_for_each(check)?;
        self.calls.iter().filter(|number| **number > here).try_for_each(|number| check(*number))
    }

    fn lower(&mut self, sign: i32) {
        for n in 0..self.moves.len() {
            let end = self.moves.get(n + 1).map_or(self.count(), |one| one.first);
            let (from, to) = (self.set.partition_point(|block| *block < self.moves[n].first), self.set.partition_point(|block| *block < end));
            self.rooms.lower(from, to, sign * self.moves[n].by as i32);
        }
    }

    /// Subtracts the moves from the slack of addresses that are set, if each has enough.
    fn take_room(&mut self, here: usize) -> Result<(), Refusal> {
        if self.rooms.is_empty() {
            return Ok(());
        }
        self.lower(1);
        match self.rooms.first_below(0) {
            None => Ok(()),
            Some(n) => {
                self.lower(-1);
                let number = self.set[n];
                Err(refusal(here, number, number))
            }
        }
    }

    fn put_mention(&mut self, here: usize, head: Head) {
        self.heads[here] = head;
        match head {
            Head::Aims { instr: Instr::Call, to: Target::Block(_), .. } => {}
            Head::Aims { instr, to: Target::Block(to), .. } => {
                self.mentions.put(here);
                if is_literal(instr) {
                    self.literal_counts[to] += 1;
                    self.literals.put(to);
                }
            }
            Head::Aims { to: Target::Address(_), .. } => self.rooms.put(self.set.partition_point(|block| *block < here), room_of(self.starts.of(here), head)),
            _ => {}
        }
    }

    fn take_mention(&mut self, here: usize) {
        match std::mem::replace(&mut self.heads[here], Head::Plain) {
            Head::Aims { instr, to: Target::Block(to), .. } => {
                self.mentions.take(here);
                if is_literal(instr) {
                    self.literal_counts[to] -= 1;
                    if self.literal_counts[to] == 0 {
                        self.literals.take(to);
                        self.unmentioned = Some(to);
                    }
                }
            }
            Head::Aims { to: Target::Address(_), .. } => self.rooms.take(self.set.partition_point(|block| *block < here)),
            _ => {}
        }
    }

    fn check_all(&mut self, here: usize, bytes: u32) -> Result<(), Refusal> {
        self.walk(here, bytes)?;
        for n in 1..self.moves.len() {
            if self.moves[n].by < self.moves[n - 1].by {
                self.check_across(here, self.moves[n].first - 1)?;
            }
        }
        self.take_room(here)
    }

    /// Whether no mention gets out of reach when the instruction at a place, which isn't a call, is removed. If so, `settle` has to follow.
    pub fn may_go(&mut self, place: usize, line: u32, bytes: u32) -> Result<(), Refusal> {
        let here = self.block(line);
        let head = self.heads[here];
        let mentions = self.places[here] as usize == place;
        self.unmentioned = None;
        if mentions {
            self.take_mention(here);
        }
        let checked = self.check_all(here, bytes);
        if checked.is_ok() && mentions {
            self.places[here] = NO_PLACE;
        } else if mentions {
            self.put_mention(here, head);
        }
        checked
    }

    /// Applies the requested moves.
    pub fn settle(&mut self) {
        let count = self.count();
        for n in 0..self.moves.len() {
            let Move { first, by } = self.moves[n];
            if by > 0 {
                self.starts.shift(first, self.moves.get(n + 1).map_or(count, |one| one.first), by);
            }
        }
    }
}
