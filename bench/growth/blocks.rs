//! A layout that is kept while instructions are replaced by fewer. Lines are in blocks, of which only the first may have labels, mention a name or align. Moves
//! are followed from one alignment to the next, and only those mentions are checked that can get out of reach: mentions across an alignment that grows, labels
//! of literals, and addresses that are set.

use crate::instruction::Instr;
use crate::layout::{aim_fault, size};
use crate::line::{Mention, Statement};
use crate::listing::{Listing, Meaning};
use crate::refusals::Refused;

/// The size of a group of blocks, each with how far all of it has moved.
const GROUP: usize = 512;

/// The longest reach of a mention of a label, in bytes, except for calls.
const REACH: u32 = 2052;

#[derive(Clone, Copy)]
enum Target {
    Block(usize),
    Address(u32),
}

#[derive(Clone, Copy)]
enum Head {
    Plain,
    Pads { size: u32, most: u32 },
    Aims { instr: Instr, plus: u32, to: Target },
}

/// The addresses of all blocks.
struct Starts {
    at: Vec<u32>,
    moved: Vec<u32>,
}

impl Starts {
    fn of(&self, block: usize) -> u32 {
        self.at[block] - self.moved[block / GROUP]
    }

    /// Moves the blocks from one up to before another to the front by a number of bytes.
    fn shift(&mut self, from: usize, to: usize, by: u32) {
        let (first, last) = (from.div_ceil(GROUP), to / GROUP);
        if first >= last {
            self.at[from..to].iter_mut().for_each(|at| *at -= by);
        } else {
            self.at[from..first * GROUP].iter_mut().for_each(|at| *at -= by);
            self.moved[first..last].iter_mut().for_each(|moved| *moved += by);
            self.at[last * GROUP..to].iter_mut().for_each(|at| *at -= by);
        }
    }
}

/// By how many bytes each mention of an address that is set may still move to the front, with the least of each range.
struct Slack {
    /// Their blocks, in order.
    blocks: Vec<usize>,
    width: usize,
    least: Vec<i64>,
    owed: Vec<i64>,
}

impl Slack {
    fn of(blocks: Vec<usize>, slack: impl Fn(usize) -> i64) -> Slack {
        let width = blocks.len().next_power_of_two();
        let mut least = vec![i64::MAX; 2 * width];
        for (n, block) in blocks.iter().enumerate() {
            least[width + n] = slack(*block);
        }
        for at in (1..width).rev() {
            least[at] = least[2 * at].min(least[2 * at + 1]);
        }
        Slack { blocks, width, owed: vec![0; 2 * width], least }
    }

    fn take(&mut self, at: usize, by: i64) {
        if self.least[at] != i64::MAX {
            self.least[at] -= by;
            self.owed[at] += by;
        }
    }

    /// Subtracts an amount from each number between two within the range of a node, and returns the least of them.
    fn change(&mut self, at: usize, range: (usize, usize), from: usize, to: usize, by: i64) -> i64 {
        let (start, end) = range;
        if to <= start || end <= from {
            return i64::MAX;
        }
        if from <= start && end <= to {
            self.take(at, by);
            return self.least[at];
        }
        let owed = std::mem::take(&mut self.owed[at]);
        self.take(2 * at, owed);
        self.take(2 * at + 1, owed);
        let middle = (start + end) / 2;
        let low = self.change(2 * at, (start, middle), from, to, by);
        let high = self.change(2 * at + 1, (middle, end), from, to, by);
        self.least[at] = self.least[2 * at].min(self.least[2 * at + 1]);
        low.min(high)
    }

    /// Subtracts an amount from the numbers of the blocks between two, and returns the least of them.
    fn shift(&mut self, from: usize, to: usize, by: u32) -> i64 {
        let (from, to) = (self.blocks.partition_point(|block| *block < from), self.blocks.partition_point(|block| *block < to));
        self.change(1, (0, self.width), from, to, i64::from(by))
    }
}

/// A move: the blocks from the first up to before the next move move to the front by a number of bytes.
#[derive(Clone, Copy)]
struct Move {
    first: usize,
    by: u32,
}

pub struct Blocks {
    heads: Vec<Head>,
    starts: Starts,
    bytes: Vec<u32>,
    /// The block of each line.
    numbers: Vec<u32>,
    /// The blocks that mention a label, those that call one, and for each block the least one at or after it whose label a literal mentions.
    mentions: Vec<usize>,
    calls: Vec<usize>,
    literals: Vec<u32>,
    /// For each power of 2 and each block the least one at or after it that aligns to a greater number.
    aligned: [Vec<u32>; 9],
    slack: Slack,
    is_far: bool,
    moves: Vec<Move>,
    /// The blocks whose bytes or paddings the last change may have changed.
    pub changed: Vec<usize>,
}

/// How many bytes an alignment takes at an address.
fn padding(head: Head, at: u32) -> u32 {
    match head {
        Head::Pads { size, most } => match at.wrapping_neg() & (size - 1) {
            need if need <= most => need,
            _ => 0,
        },
        _ => 0,
    }
}

/// By how many bytes a mention of an address may move to the front.
fn slack_of(at: u32, head: Head) -> i64 {
    let Head::Aims { instr, to: Target::Address(to), .. } = head else { return i64::MAX };
    let most = match instr {
        Instr::Call => 16_777_216,
        _ => 2048,
    };
    most - 1 - (i64::from(to) - i64::from(at) - 4)
}

fn is_literal(instr: Instr) -> bool {
    matches!(instr, Instr::Literal { .. } | Instr::Address { .. })
}

/// What a line's block begins with, if the line is its first one. Alignments that never take a byte, as instructions have two or four, don't count.
fn head_of(listing: &Listing, statement: &Statement, numbers: &[u32]) -> Option<Head> {
    match statement {
        Statement::Aligns { size, most } if *size > 2 && *most >= 2 => Some(Head::Pads { size: *size, most: *most }),
        Statement::Runs { instr, mention: Some(Mention { name, plus }) } => {
            let to = match listing.names.get(name) {
                Some(Meaning::Label(line)) => Target::Block(numbers.get(*line).map_or(usize::MAX, |number| *number as usize)),
                Some(Meaning::Address(address)) => Target::Address(address & !1),
                None => return None,
            };
            Some(Head::Aims { instr: *instr, plus: *plus, to })
        }
        _ => None,
    }
}

impl Blocks {
    pub fn of(listing: &Listing, base: u32) -> Blocks {
        let mut numbers = Vec::with_capacity(listing.lines.len());
        let mut bytes = vec![0];
        let mut has_head = false;
        for line in &listing.lines {
            let head = head_of(listing, &line.statement, &[]);
            if (head.is_some() || !line.names.is_empty()) && (has_head || bytes[bytes.len() - 1] > 0) {
                bytes.push(0);
                has_head = false;
            }
            has_head |= head.is_some();
            let last = bytes.len() - 1;
            numbers.push(last as u32);
            if !matches!(line.statement, Statement::Aligns { .. }) {
                bytes[last] += size(&line.statement, 0) as u32;
            }
        }
        let mut heads = vec![Head::Plain; bytes.len()];
        for (line, number) in listing.lines.iter().zip(&numbers) {
            if let Some(head) = head_of(listing, &line.statement, &numbers) {
                heads[*number as usize] = head;
            }
        }
        Blocks::laid(base, heads, bytes, numbers)
    }

    fn laid(base: u32, heads: Vec<Head>, bytes: Vec<u32>, numbers: Vec<u32>) -> Blocks {
        let count = heads.len();
        let mut end = base;
        let starts = heads.iter().zip(&bytes).map(|(head, bytes)| {
            let at = end;
            end = at + padding(*head, at) + bytes;
            at
        });
        let starts = Starts { at: starts.collect(), moved: vec![0; count / GROUP + 1] };
        let mut mentions = Vec::new();
        let mut calls = Vec::new();
        let mut loose = Vec::new();
        let mut is_literals = vec![false; count];
        for (number, head) in heads.iter().enumerate() {
            match *head {
                Head::Aims { instr: Instr::Call, to: Target::Block(_), .. } => calls.push(number),
                Head::Aims { instr, to: Target::Block(to), .. } => {
                    mentions.push(number);
                    is_literals[to] |= is_literal(instr);
                }
                Head::Aims { to: Target::Address(_), .. } => loose.push(number),
                _ => {}
            }
        }
        let behind = |is_one: &dyn Fn(usize) -> bool| {
            let mut found = vec![count as u32; count + 1];
            for number in (0..count).rev() {
                found[number] = if is_one(number) { number as u32 } else { found[number + 1] };
            }
            found
        };
        let literals = behind(&|number| is_literals[number]);
        let aligned = std::array::from_fn(|power| behind(&|number| matches!(heads[number], Head::Pads { size, .. } if size > 1 << power)));
        let slack = Slack::of(loose, |number| slack_of(starts.at[number], heads[number]));
        let is_far = end - base >= 8_000_000;
        Blocks { heads, starts, bytes, numbers, mentions, calls, literals, aligned, slack, is_far, moves: Vec::new(), changed: Vec::new() }
    }

    pub fn count(&self) -> usize {
        self.heads.len()
    }

    pub fn of_line(&self, line: usize) -> usize {
        self.numbers[line] as usize
    }

    /// By how many bytes a block moves.
    fn moved(&self, block: usize) -> u32 {
        let behind = self.moves.partition_point(|one| one.first <= block);
        behind.checked_sub(1).map_or(0, |last| self.moves[last].by)
    }

    /// The mention of a block, if it gets out of reach.
    fn fault(&self, here: usize, number: usize) -> Option<Refused> {
        let Head::Aims { instr, plus, to: Target::Block(to) } = self.heads[number] else { return None };
        let start = |block| self.starts.of(block) - self.moved(block);
        let fault = aim_fault(start(number), instr, start(to), plus);
        fault.map(|_| Refused { first: here.min(number).min(to), last: number.max(to) })
    }

    /// Moves what follows a block that shrinks by a number of bytes: from one affected alignment to the next.
    fn walk(&mut self, here: usize, bytes: u32) -> Result<(), Refused> {
        let count = self.heads.len();
        self.moves.clear();
        self.changed.clear();
        self.changed.push(here);
        let (mut from, mut by) = (here + 1, bytes);
        while by > 0 && from < count {
            self.moves.push(Move { first: from, by });
            let at = self.aligned[by.trailing_zeros().min(8) as usize][from] as usize;
            let literal = self.literals[from] as usize;
            if by % 4 != 0 && literal < count && literal <= at {
                return Err(Refused { first: here, last: literal });
            }
            if at == count {
                return Ok(());
            }
            self.changed.push(at);
            let old = self.starts.of(at);
            by = by + padding(self.heads[at], old) - padding(self.heads[at], old - by);
            from = at + 1;
        }
        if from < count {
            self.moves.push(Move { first: from, by: 0 });
        }
        Ok(())
    }

    /// Whether all that is mentioned across an alignment that grows stays in reach.
    fn reaches_across(&self, here: usize, at: usize) -> Result<(), Refused> {
        let far = if self.is_far { u32::MAX } else { REACH };
        let start = self.starts.of(at);
        let from = self.mentions.partition_point(|number| *number <= here);
        let middle = self.mentions.partition_point(|number| *number < at);
        let before = self.mentions[from.min(middle)..middle].iter().rev().take_while(|number| start - self.starts.of(**number) <= far);
        let behind = self.mentions[middle..].iter().take_while(|number| self.starts.of(**number) - start <= far.saturating_add(256));
        let calls = if self.is_far { &self.calls[..] } else { &[] };
        let is_across = |number: &&usize| matches!(self.heads[**number], Head::Aims { to: Target::Block(to), .. } if (to <= at) != (**number <= at));
        before.chain(behind).chain(calls).filter(is_across).find_map(|number| self.fault(here, *number)).map_or(Ok(()), Err)
    }

    /// Subtracts the moves from the slack of addresses that are set. If one has too little all is restored.
    fn take_slack(&mut self) -> Result<(), Refused> {
        if self.slack.blocks.is_empty() {
            return Ok(());
        }
        let count = self.heads.len();
        let end = |moves: &[Move], n: usize| moves.get(n + 1).map_or(count, |one| one.first);
        let mut least = i64::MAX;
        for n in 0..self.moves.len() {
            least = least.min(self.slack.shift(self.moves[n].first, end(&self.moves, n), self.moves[n].by));
        }
        if least >= 0 {
            return Ok(());
        }
        let last = self.slack.blocks.iter().copied().find(|block| {
            slack_of(self.starts.of(*block) - self.moved(*block), self.heads[*block]) < 0
        });
        for n in 0..self.moves.len() {
            let (from, to, by) = (self.moves[n].first, end(&self.moves, n), self.moves[n].by);
            let (from, to) = (self.slack.blocks.partition_point(|block| *block < from), self.slack.blocks.partition_point(|block| *block < to));
            self.slack.change(1, (0, self.slack.width), from, to, -i64::from(by));
        }
        // what moves a mention this far does so as long as nothing between them changes, and its slack never grows
        Err(Refused { first: self.changed[0], last: last.unwrap_or(count - 1) })
    }

    /// Shrinks a block by a number of bytes if no mention gets out of reach.
    pub fn gives_way(&mut self, here: usize, bytes: u32) -> Result<(), Refused> {
        self.walk(here, bytes)?;
        for n in 1..self.moves.len() {
            if self.moves[n].by < self.moves[n - 1].by {
                self.reaches_across(here, self.moves[n].first - 1)?;
            }
        }
        self.take_slack()?;
        let count = self.heads.len();
        for n in 0..self.moves.len() {
            let Move { first, by } = self.moves[n];
            let end = self.moves.get(n + 1).map_or(count, |one| one.first);
            if by > 0 {
                self.starts.shift(first, end, by);
            }
        }
        self.bytes[here] -= bytes;
        Ok(())
    }
}
