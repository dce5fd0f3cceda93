//! Whether a listing that is being rewritten can be laid out. If each mention stays in reach whichever instructions are replaced by fewer, it is checked once;
//! otherwise a layout is kept, and for each replacement what moves is checked, up to where an alignment absorbs the change.

use crate::instruction::Instr;
use crate::layout::{aim_fault, size};
use crate::line::{Mention, Statement};
use crate::listing::{Listing, Meaning};

/// Where a line begins in the longest layout, and whether that is a multiple of 4 in every layout.
#[derive(Clone, Copy)]
struct Start {
    at: u32,
    aligned: bool,
}

/// What a block begins with.
#[derive(Clone, Copy)]
enum Head {
    Plain,
    Pads { size: u32, most: u32 },
    Aims { instr: Instr, plus: u32, to: Option<Target> },
}

/// The block that begins with a label, or an address that is set.
#[derive(Clone, Copy)]
enum Target {
    Block(usize),
    Address(u32),
}

/// Lines of which only the first may have labels, mention a name or align.
struct Block {
    at: u32,
    head: Head,
    /// How many bytes it takes, without its padding.
    bytes: u32,
    /// The blocks that begin with an instruction that mentions its label.
    callers: Vec<usize>,
    /// The greatest of 4 and the sizes of all alignments from here on.
    alignment: u32,
}

impl Block {
    /// Where it ends if it begins at an address.
    fn end(&self, at: u32) -> u32 {
        at + self.bytes
            + match self.head {
                Head::Pads { size, most } => {
                    let need = at.wrapping_neg() & (size - 1);
                    if need <= most { need } else { 0 }
                }
                _ => 0,
            }
    }
}

pub struct Reach {
    is_steady: bool,
    blocks: Vec<Block>,
    /// The number of each line's block.
    numbers: Vec<usize>,
    /// The blocks from this one on are at addresses lower than noted by a number of bytes.
    border: usize,
    shift: u32,
    /// The blocks whose mention may get out of reach by coming nearer.
    loose: Vec<usize>,
    /// The new addresses of the blocks that move separately, and by how many bytes those after them move.
    moved: Vec<u32>,
    by: u32,
}

fn is_literal(instr: Instr) -> bool {
    matches!(instr, Instr::Literal { .. } | Instr::Address { .. })
}

/// Where the line after a statement begins.
fn behind(here: Start, statement: &Statement) -> Start {
    match statement {
        Statement::Aligns { size, most } => Start { at: here.at + (size - 1).min(*most), aligned: size % 4 == 0 && size - 1 <= *most },
        Statement::Runs { .. } => {
            let bytes = size(statement, here.at) as u32;
            Start { at: here.at + bytes, aligned: here.aligned && bytes == 4 }
        }
        _ => Start { at: here.at + size(statement, here.at) as u32, aligned: here.aligned },
    }
}

/// The number of each line's block.
fn numbers(listing: &Listing) -> Vec<usize> {
    let mut number = 0;
    let begins = |statement: &Statement| matches!(statement, Statement::Aligns { .. } | Statement::Runs { mention: Some(_), .. });
    let mut next = |is_new: bool| {
        number += usize::from(is_new);
        number
    };
    listing.lines.iter().map(|line| next(!line.names.is_empty() || begins(&line.statement))).collect()
}

/// The blocks of a listing from a base.
fn blocks(listing: &Listing, base: u32, numbers: &[usize]) -> Vec<Block> {
    let mut all = vec![Block { at: base, head: Head::Plain, bytes: 0, callers: Vec::new(), alignment: 4 }];
    for (line, number) in listing.lines.iter().zip(numbers) {
        if *number == all.len() {
            let last = &all[number - 1];
            let head = match &line.statement {
                Statement::Aligns { size, most } => Head::Pads { size: *size, most: *most },
                Statement::Runs { instr, mention: Some(Mention { name, plus }) } => {
                    let to = listing.names.get(name).map(|meaning| match meaning {
                        Meaning::Label(line) => Target::Block(numbers[*line]),
                        Meaning::Address(address) => Target::Address(address & !1),
                    });
                    Head::Aims { instr: *instr, plus: *plus, to }
                }
                _ => Head::Plain,
            };
            all.push(Block { at: last.end(last.at), head, bytes: 0, callers: Vec::new(), alignment: 4 });
        }
        if !matches!(line.statement, Statement::Aligns { .. }) {
            all[*number].bytes += size(&line.statement, 0) as u32;
        }
    }
    for number in 0..all.len() {
        if let Head::Aims { to: Some(Target::Block(label)), .. } = all[number].head {
            all[label].callers.push(number);
        }
    }
    let mut alignment = 4;
    for block in all.iter_mut().rev() {
        if let Head::Pads { size, .. } = block.head {
            alignment = alignment.max(size);
        }
        block.alignment = alignment;
    }
    all
}

/// The blocks whose mention may get out of reach by coming nearer: of an address, or by a literal of a label that isn't after it.
fn loose(blocks: &[Block]) -> Vec<usize> {
    let is_loose = |(number, block): (usize, &Block)| match block.head {
        Head::Aims { to: Some(Target::Address(_)), .. } => Some(number),
        Head::Aims { instr, to: Some(Target::Block(label)), .. } => (is_literal(instr) && label <= number).then_some(number),
        _ => None,
    };
    blocks.iter().enumerate().filter_map(is_loose).collect()
}

/// Whether each mention stays in reach whichever instructions are replaced by fewer.
pub fn is_steady(listing: &Listing, base: u32) -> bool {
    let mut starts = Vec::with_capacity(listing.lines.len());
    let mut here = Start { at: base, aligned: true };
    for line in &listing.lines {
        starts.push(here);
        here = behind(here, &line.statement);
    }
    listing.lines.iter().map(|line| &line.statement).enumerate().all(|(line, statement)| {
        let Statement::Runs { instr, mention: Some(Mention { name, plus }) } = statement else { return true };
        let here = starts[line].at;
        match listing.names.get(name) {
            None => true,
            Some(Meaning::Label(label)) if is_literal(*instr) => {
                let Start { at, aligned } = starts[*label];
                aligned && plus % 4 == 0 && here < at && u64::from(at) + u64::from(*plus) <= u64::from(here) + 1022
            }
            Some(Meaning::Label(label)) => aim_fault(here, *instr, starts[*label].at, *plus).is_none(),
            Some(Meaning::Address(_)) if is_literal(*instr) => false,
            Some(Meaning::Address(to)) => aim_fault(base, *instr, to & !1, *plus).is_none() && aim_fault(here, *instr, to & !1, *plus).is_none(),
        }
    })
}

impl Reach {
    pub fn of(listing: &Listing, base: u32) -> Reach {
        let is_steady = is_steady(listing, base);
        let numbers = if is_steady { Vec::new() } else { numbers(listing) };
        let blocks = if is_steady { Vec::new() } else { blocks(listing, base, &numbers) };
        Reach { is_steady, border: 0, shift: 0, loose: loose(&blocks), blocks, numbers, moved: Vec::new(), by: 0 }
    }

    pub fn is_steady(&self) -> bool {
        self.is_steady
    }

    fn start(&self, number: usize) -> u32 {
        self.blocks[number].at - if number < self.border { 0 } else { self.shift }
    }

    /// Where a block begins once another one has moved what follows it.
    fn moved(&self, here: usize, number: usize) -> u32 {
        match number.checked_sub(here + 1) {
            None => self.start(number),
            Some(at) => self.moved.get(at).copied().unwrap_or_else(|| self.start(number) - self.by),
        }
    }

    /// Whether what a block's first line mentions is in reach then.
    fn reaches(&self, here: usize, number: usize) -> bool {
        let Head::Aims { instr, plus, to: Some(to) } = self.blocks[number].head else { return true };
        let to = match to {
            Target::Block(label) => self.moved(here, label),
            Target::Address(address) => address,
        };
        aim_fault(self.moved(here, number), instr, to, plus).is_none()
    }

    /// Moves what follows a block that shrinks by a number of bytes, up to where everything after moves alike.
    fn walk(&mut self, here: usize, bytes: u32) {
        self.moved.clear();
        self.by = 0;
        let mut at = self.blocks[here].end(self.start(here)) - bytes;
        for number in here + 1..self.blocks.len() {
            let (start, block) = (self.start(number), &self.blocks[number]);
            if at <= start && (start - at) % block.alignment == 0 {
                self.by = start - at;
                return;
            }
            self.moved.push(at);
            at = block.end(at);
        }
    }

    /// Shrinks a line's block by a number of bytes if no mention gets out of reach, and returns whether none does.
    pub fn gives_way(&mut self, line: usize, bytes: u32) -> bool {
        let here = self.numbers[line];
        self.walk(here, bytes);
        let end = here + 1 + self.moved.len();
        let is_kept = self.reaches(here, here)
            && (here + 1..end).all(|number| self.reaches(here, number) && self.blocks[number].callers.iter().all(|caller| self.reaches(here, *caller)))
            && self.loose.iter().all(|number| self.reaches(here, *number));
        if is_kept {
            self.shrink(here, end, bytes);
        }
        is_kept
    }

    fn shrink(&mut self, here: usize, end: usize, bytes: u32) {
        for number in self.border.min(here + 1)..self.border.max(end) {
            let start = self.start(number);
            self.blocks[number].at = match number.checked_sub(here + 1) {
                None => start,
                Some(at) => self.moved.get(at).copied().unwrap_or(start + self.shift),
            };
        }
        self.border = end;
        self.shift += self.by;
        self.blocks[here].bytes -= bytes;
    }
}
