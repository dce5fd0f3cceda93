//! The addresses of the lines of a listing.

use crate::instruction::Instr;
use crate::line::{Mention, Statement};
use crate::listing::{Listing, Meaning};
use std::collections::HashMap;

#[allow(dead_code)]
pub struct Layout<'a> {
    pub end: u32,
    pub places: Vec<u32>,
    pub labels: HashMap<&'a [u8], u32>,
}

#[allow(dead_code)]
#[derive(Debug)]
pub enum Fault {
    Range(i64),
    Align(u64),
}

pub enum LayoutError {
    Line { number: usize, fault: Fault },
    Memory,
}

const CODE_END: u64 = 0x2000_0000;

/// How many bytes a statement takes at an address.
pub fn size(statement: &Statement, at: u32) -> u64 {
    match statement {
        Statement::Nothing | Statement::Sets { .. } => 0,
        Statement::Runs { instr, .. } => match instr {
            Instr::Call | Instr::Barrier(_) | Instr::ReadSpecial { .. } | Instr::WriteMask { .. } => 4,
            _ => 2,
        },
        Statement::Words(values) => 4 * values.len() as u64,
        Statement::Aligns { size, most } => match at.next_multiple_of(*size) - at {
            need if need <= *most => need as u64,
            _ => 0,
        },
    }
}

/// A branch that reaches from -2 `half` to below 2 `half` bytes.
fn branch_fault(half: i64, at: u32, to: u32) -> Option<Fault> {
    let distance = to as i64 - (at as i64 + 4);
    (distance < -2 * half || 2 * half <= distance).then_some(Fault::Range(distance))
}

fn literal_fault(at: u32, to: u32, plus: u32) -> Option<Fault> {
    let target = to as u64 + plus as u64;
    let distance = target as i64 - ((at as i64 + 4) & !3);
    if target % 4 != 0 {
        Some(Fault::Align(target))
    } else {
        (!(0..=1020).contains(&distance)).then_some(Fault::Range(distance))
    }
}

/// What is wrong with an instruction at an address, when what it mentions is at another.
pub fn aim_fault(at: u32, instr: Instr, to: u32, plus: u32) -> Option<Fault> {
    match instr {
        Instr::BranchIf(_) => branch_fault(128, at, to),
        Instr::Branch => branch_fault(1024, at, to),
        Instr::Call => branch_fault(8_388_608, at, to),
        _ => literal_fault(at, to, plus),
    }
}

impl<'a> Layout<'a> {
    fn lay(listing: &'a Listing, base: u32) -> Option<Layout<'a>> {
        let mut places = Vec::with_capacity(listing.spots.len());
        let mut labels = HashMap::new();
        let mut at = base;
        for line in &listing.lines {
            labels.extend(line.names.iter().map(|name| (name.as_slice(), at)));
            match &line.statement {
                Statement::Runs { .. } => places.push(at),
                Statement::Words(values) => places.extend((0..values.len() as u32).map(|n| at + 4 * n)),
                _ => {}
            }
            let next = at as u64 + size(&line.statement, at);
            if next > CODE_END {
                return None;
            }
            at = next as u32;
        }
        Some(Layout { end: at, places, labels })
    }

    fn fault(&self, listing: &Listing, at: u32, instr: Instr, mention: &Mention) -> Option<Fault> {
        let to = match self.labels.get(mention.name.as_slice()) {
            Some(to) => *to,
            None => match listing.names.get(&mention.name) {
                Some(Meaning::Address(address)) => address & !1,
                _ => return None,
            },
        };
        aim_fault(at, instr, to, mention.plus)
    }
}

pub fn layout(listing: &Listing, base: u32) -> Result<Layout<'_>, LayoutError> {
    let layout = Layout::lay(listing, base).ok_or(LayoutError::Memory)?;
    for (n, line) in listing.lines.iter().enumerate() {
        if let Statement::Runs { instr, mention: Some(mention) } = &line.statement {
            let at = layout.places[listing.passed[n] as usize];
            if let Some(fault) = layout.fault(listing, at, *instr, mention) {
                return Err(LayoutError::Line { number: n + 1, fault });
            }
        }
    }
    Ok(layout)
}
