//! What the instruction of each line mentions, with each name looked up once, and which code is unreachable.

use crate::instruction::Instr;
use crate::line::Statement;
use crate::listing::{Listing, Meaning};

/// What a line's instruction mentions: nothing with an address, a line's label, or an address that is set.
#[derive(Clone, Copy)]
pub enum Mentioned {
    Nowhere,
    Label(u32),
    Address(u32),
}

pub fn mentioned(listing: &Listing) -> Vec<Mentioned> {
    let of = |statement: &Statement| match statement {
        Statement::Runs { mention: Some(mention), .. } => match listing.names.get(&mention.name) {
            Some(Meaning::Label(line)) => Mentioned::Label(*line as u32),
            Some(Meaning::Address(address)) => Mentioned::Address(*address),
            None => Mentioned::Nowhere,
        },
        _ => Mentioned::Nowhere,
    };
    listing.lines.iter().map(|line| of(&line.statement)).collect()
}

fn is_op(listing: &Listing, place: usize) -> bool {
    listing.spots.get(place).is_some_and(|(line, _)| matches!(listing.lines[*line as usize].statement, Statement::Runs { .. }))
}

/// The line of the code label that a line mentions.
pub fn code_label(listing: &Listing, mentioned: &[Mentioned], line: u32) -> Option<u32> {
    match mentioned[line as usize] {
        Mentioned::Label(label) => Some(label).filter(|label| is_op(listing, listing.passed[*label as usize] as usize)),
        Mentioned::Nowhere | Mentioned::Address(_) => None,
    }
}

/// Whether what follows an instruction is reached if the instruction is. After a call it is reached anyway.
fn goes_on(instr: Instr) -> bool {
    match instr {
        Instr::Bx { .. } | Instr::Branch => false,
        Instr::Pop { list } => list & 0x100 == 0,
        _ => true,
    }
}

/// For each place whether it has an unreachable instruction that isn't a call. Branches lead to code labels, which count as reached, so an instruction is
/// unreachable if it follows no label, no call, and no reached instruction that goes on: one pass over the lines decides it.
pub fn idle(listing: &Listing) -> Vec<bool> {
    let mut is_idle = vec![false; listing.spots.len()];
    let mut is_reached = false;
    for (line, place) in listing.lines.iter().zip(&listing.passed) {
        is_reached |= !line.names.is_empty();
        match line.statement {
            Statement::Runs { instr, .. } => {
                let is_call = matches!(instr, Instr::Blx { .. } | Instr::Call);
                is_idle[*place as usize] = !is_call && !is_reached;
                is_reached = is_call || is_reached && goes_on(instr);
            }
            Statement::Words(_) => is_reached = false,
            _ => {}
        }
    }
    is_idle
}
