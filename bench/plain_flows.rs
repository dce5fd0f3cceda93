//! The control flow of a listing's instructions and its live items in plain Rust, shared by the plain programs of the measures.
// not every program needs all of it
#![allow(dead_code)]

use crate::instruction::{Access, ByteOperation, Condition, Instr, Operation};
use crate::line::Statement;
use crate::listing::{Listing, Meaning};

const SP: u32 = 1 << 13;
const LR: u32 = 1 << 14;
pub const N: u32 = 1 << 15;
pub const Z: u32 = 1 << 16;
pub const C: u32 = 1 << 17;
pub const V: u32 = 1 << 18;
const LEFT: u32 = 0xfff | SP | LR;
const HANDED: u32 = 0xf | SP;
const ANSWERED: u32 = 0xf | 1 << 12 | LR | N | Z | C | V;

#[derive(Clone, Copy, PartialEq)]
pub enum Next {
    Place(usize),
    Points,
    Out,
}

#[derive(Clone, Copy)]
pub struct Way {
    pub uses: u32,
    pub writes: u32,
    pub next: Next,
}

#[derive(Clone, Copy)]
pub struct Ways {
    pub first: Way,
    pub second: Option<Way>,
}

impl Ways {
    /// Whether one of them leads to a place.
    fn lead_to(&self, place: usize) -> bool {
        let leads_there = |way: &Way| matches!(way.next, Next::Place(next) if next == place);
        leads_there(&self.first) || self.second.as_ref().is_some_and(leads_there)
    }
}

/// A place from which a branch or call leads to another, and the number of the previous jump to the same place, counted from 1, or 0.
struct Jump {
    place: u32,
    earlier: u32,
}

/// For each place the number of the last jump to it, counted from 1, or 0; the jumps, and the places with a flow to any code point.
struct Callers {
    last: Vec<u32>,
    jumps: Vec<Jump>,
    returns: Vec<u32>,
}

impl Callers {
    fn of(ways: &[Option<Ways>]) -> Callers {
        let mut callers = Callers { last: vec![0; ways.len()], jumps: Vec::new(), returns: Vec::new() };
        for (place, ways) in ways.iter().enumerate() {
            match ways.as_ref().map(|ways| ways.first.next) {
                Some(Next::Place(target)) if target != place + 1 && target < callers.last.len() => {
                    callers.jumps.push(Jump { place: place as u32, earlier: callers.last[target] });
                    callers.last[target] = callers.jumps.len() as u32;
                }
                Some(Next::Points) => callers.returns.push(place as u32),
                _ => {}
            }
        }
        callers
    }
}

/// The places that wait for a visit: those below `fresh`, none of which was visited yet, and those to be visited again, all of them marked.
struct Waiting {
    fresh: usize,
    again: Vec<u32>,
    marks: Vec<bool>,
}

impl Waiting {
    fn push(&mut self, place: u32) {
        if !self.marks[place as usize] {
            self.marks[place as usize] = true;
            self.again.push(place);
        }
    }

    fn pop(&mut self) -> Option<usize> {
        let place = match self.again.pop() {
            Some(place) => place as usize,
            None => {
                self.fresh = self.fresh.checked_sub(1)?;
                self.fresh
            }
        };
        self.marks[place] = false;
        Some(place)
    }
}

fn bit(register: u8) -> u32 {
    1 << register
}

fn condition_uses(condition: Condition) -> u32 {
    match condition {
        Condition::Eq | Condition::Ne => Z,
        Condition::Cs | Condition::Cc => C,
        Condition::Mi | Condition::Pl => N,
        Condition::Vs | Condition::Vc => V,
        Condition::Hi | Condition::Ls => Z | C,
        Condition::Ge | Condition::Lt => N | V,
        Condition::Gt | Condition::Le => N | Z | V,
    }
}

fn accessed(access: Access, target: u8) -> (u32, u32) {
    match access {
        Access::Str | Access::Strh | Access::Strb => (bit(target), 0),
        _ => (0, bit(target)),
    }
}

/// What an instruction that continues to the next place reads and writes.
pub fn shape(instr: &Instr) -> (u32, u32) {
    match *instr {
        Instr::Mov { target, source } => (bit(source), bit(target)),
        Instr::Three { target, left, right, .. } => (bit(left) | bit(right), bit(target) | N | Z | C | V),
        Instr::Two { operation, target, other } => {
            let (target, other) = (bit(target), bit(other));
            match operation {
                Operation::And | Operation::Eor | Operation::Orr | Operation::Mul | Operation::Bic => (target | other, target | N | Z),
                Operation::Lsl | Operation::Lsr | Operation::Asr | Operation::Ror => (target | other | C, target | N | Z | C),
                Operation::Adc | Operation::Sbc => (target | other | C, target | N | Z | C | V),
                Operation::Tst => (target | other, N | Z),
                Operation::Cmp | Operation::Cmn => (target | other, N | Z | C | V),
                Operation::Rsb => (other, target | N | Z | C | V),
                Operation::Mvn => (other, target | N | Z),
            }
        }
        Instr::Movs { target, source } => (bit(source), bit(target) | N | Z),
        Instr::ShiftLeft { target, source, .. } | Instr::ShiftRight { target, source, .. } => (bit(source), bit(target) | N | Z | C),
        Instr::ThreeNumber { target, source, .. } => (bit(source), bit(target) | N | Z | C | V),
        Instr::TwoNumber { operation, target, .. } => match operation {
            ByteOperation::Mov => (0, bit(target) | N | Z),
            ByteOperation::Cmp => (bit(target), N | Z | C | V),
            ByteOperation::Add | ByteOperation::Sub => (bit(target), bit(target) | N | Z | C | V),
        },
        Instr::Add { target, source } => (bit(target) | bit(source), bit(target)),
        Instr::Compare { left, right } => (bit(left) | bit(right), N | Z | C | V),
        Instr::Literal { target } | Instr::Address { target } => (0, bit(target)),
        Instr::Indexed { access, target, base, index } => {
            let (uses, writes) = accessed(access, target);
            (uses | bit(base) | bit(index), writes)
        }
        Instr::Offset { access, target, base, .. } => {
            let (uses, writes) = accessed(access, target);
            (uses | bit(base), writes)
        }
        Instr::Stack { access, target, .. } => {
            let (uses, writes) = accessed(access, target);
            (uses | SP, writes)
        }
        Instr::StackAddress { target, .. } => (SP, bit(target)),
        Instr::StackMove { .. } => (SP, SP),
        Instr::Extend { target, source, .. } => (bit(source), bit(target)),
        Instr::Reverse { target, source, .. } => (bit(source), bit(target)),
        Instr::Push { list } => (SP | u32::from(list & 0xff) | if list & 0x100 != 0 { LR } else { 0 }, SP),
        Instr::Pop { list } => (SP, SP | u32::from(list & 0xff)),
        Instr::StoreMany { base, list } => (bit(base) | u32::from(list), bit(base)),
        Instr::LoadMany { base, list } => (bit(base), bit(base) | u32::from(list)),
        Instr::Service { .. } => (0xf | 1 << 12 | SP, 0xf | 1 << 12),
        Instr::ReadSpecial { target, .. } => (0, bit(target)),
        Instr::WriteMask { source } => (bit(source), 0),
        _ => (0, 0),
    }
}

fn ways_of(instr: &Instr, target: Option<usize>, place: usize) -> Ways {
    let onward = Next::Place(place + 1);
    let jump = |uses| match target {
        Some(place) => Way { uses, writes: 0, next: Next::Place(place) },
        None => Way { uses: uses | LEFT, writes: 0, next: Next::Out },
    };
    let one = |first| Ways { first, second: None };
    let two = |first, second| Ways { first, second: Some(second) };
    match *instr {
        Instr::Bx { source } => two(
            Way { uses: bit(source), writes: 0, next: Next::Points },
            Way { uses: bit(source) | LEFT, writes: 0, next: Next::Out },
        ),
        Instr::Blx { source } => two(
            Way { uses: bit(source), writes: LR, next: Next::Points },
            Way { uses: bit(source) | HANDED, writes: ANSWERED, next: onward },
        ),
        Instr::Pop { list } if list & 0x100 != 0 => {
            let writes = SP | u32::from(list & 0xff);
            two(Way { uses: SP, writes, next: Next::Points }, Way { uses: SP | (LEFT & !writes), writes, next: Next::Out })
        }
        Instr::BranchIf(condition) => {
            let uses = condition_uses(condition);
            two(jump(uses), Way { uses, writes: 0, next: onward })
        }
        Instr::Branch => one(jump(0)),
        Instr::Call => one(match target {
            Some(place) => Way { uses: 0, writes: LR, next: Next::Place(place) },
            None => Way { uses: HANDED, writes: ANSWERED, next: onward },
        }),
        _ => {
            let (uses, writes) = shape(instr);
            one(Way { uses, writes, next: onward })
        }
    }
}

/// The instruction of a place, and the place of the code label that it mentions.
fn op_at(listing: &Listing, place: usize) -> Option<(&Instr, Option<usize>)> {
    let (line, _) = *listing.spots.get(place)?;
    match &listing.lines[line as usize].statement {
        Statement::Runs { instr, mention } => Some((instr, mention.as_ref().and_then(|m| code_label(listing, &m.name)))),
        _ => None,
    }
}

fn is_op(listing: &Listing, place: usize) -> bool {
    listing.spots.get(place).is_some_and(|(line, _)| matches!(listing.lines[*line as usize].statement, Statement::Runs { .. }))
}

fn code_label(listing: &Listing, name: &[u8]) -> Option<usize> {
    match listing.names.get(name)? {
        Meaning::Label(line) => Some(listing.passed[*line] as usize).filter(|place| is_op(listing, *place)),
        Meaning::Address(_) => None,
    }
}

/// The places of code labels, and those after calls.
fn points_of(listing: &Listing) -> Vec<bool> {
    let mut marks = vec![false; listing.spots.len() + 1];
    for (line, place) in listing.lines.iter().zip(&listing.passed) {
        let place = *place as usize;
        if !line.names.is_empty() && is_op(listing, place) {
            marks[place] = true;
        }
        if let Statement::Runs { instr: Instr::Blx { .. } | Instr::Call, .. } = line.statement {
            marks[place + 1] = true;
        }
    }
    marks
}

/// The items that are live before and after each place.
pub struct Flows {
    pub ways: Vec<Option<Ways>>,
    pub is_point: Vec<bool>,
    pub before: Vec<u32>,
    pub after: Vec<u32>,
    /// The items that are live before at least one code point.
    pub points: u32,
}

impl Flows {
    /// The control flow of a listing, with no item live yet.
    pub fn of(listing: &Listing) -> Flows {
        let count = listing.spots.len();
        let ways = (0..count).map(|place| op_at(listing, place).map(|(instr, target)| ways_of(instr, target, place))).collect();
        Flows { ways, is_point: points_of(listing), before: vec![0; count], after: vec![0; count], points: 0 }
    }

    /// What is live before a place and after it, according to the current sets of other places.
    #[inline]
    pub fn seen(&self, place: usize) -> (u32, u32) {
        let mut seen = (0, 0);
        let mut look = |way: Way| {
            let there = match way.next {
                Next::Place(place) => self.before.get(place).copied().unwrap_or(0),
                Next::Points => self.points,
                Next::Out => 0,
            };
            seen.0 |= way.uses | (there & !way.writes);
            seen.1 |= there;
        };
        if let Some(ways) = self.ways[place] {
            look(ways.first);
            if let Some(second) = ways.second {
                look(second);
            }
        }
        seen
    }

    /// Finds the live items by visits of all places, from the last on, and of each again when what its successors need has grown. Returns the number of visits.
    pub fn find(&mut self) -> u64 {
        let callers = Callers::of(&self.ways);
        let count = self.ways.len();
        let mut waiting = Waiting { fresh: count, again: Vec::new(), marks: vec![true; count] };
        let mut visits = 0;
        while let Some(place) = waiting.pop() {
            visits += 1;
            let (before, after) = self.seen(place);
            self.after[place] = after;
            let new = self.before[place] | before;
            if new == self.before[place] {
                continue;
            }
            self.before[place] = new;
            if place > 0 && self.ways[place - 1].as_ref().is_some_and(|ways| ways.lead_to(place)) {
                waiting.push(place as u32 - 1);
            }
            let mut rest = callers.last[place];
            while rest > 0 {
                let jump = &callers.jumps[rest as usize - 1];
                waiting.push(jump.place);
                rest = jump.earlier;
            }
            if self.is_point[place] && self.points | new != self.points {
                self.points |= new;
                for place in &callers.returns {
                    waiting.push(*place);
                }
            }
        }
        visits
    }
}
