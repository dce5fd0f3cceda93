//! The instructions of windows in plain Rust, their names by first appearance and their texts, shared by the plain programs of the measures.
// not every program needs all of it
#![allow(dead_code)]

use crate::instruction::{ByteOperation, Extension, Instr, Reversal, Right, Sum};
use crate::line::Statement;
use crate::listing::Listing;

/// An instruction of a window: its form and operation as one number, its registers in the order of its text, and its number.
#[derive(Clone, Copy, PartialEq, Eq, Hash)]
pub struct WindowInstr {
    pub form: u8,
    pub registers: [u8; 3],
    pub count: u8,
    pub number: u8,
}

/// The instruction in its window form, if a window may contain it: one form for both encodings of an effect.
pub fn window_instr(instr: &Instr) -> Option<WindowInstr> {
    let made = |form: u8, registers: &[u8], number: u8| {
        let mut all = [0; 3];
        all[..registers.len()].copy_from_slice(registers);
        Some(WindowInstr { form, registers: all, count: registers.len() as u8, number }).filter(|_| registers.iter().all(|r| *r < 8))
    };
    let sum = |sum: Sum| match sum {
        Sum::Add => 0,
        Sum::Sub => 1,
    };
    let byte = |operation: ByteOperation| match operation {
        ByteOperation::Mov => 4,
        ByteOperation::Cmp => 5,
        ByteOperation::Add => 6,
        ByteOperation::Sub => 7,
    };
    match *instr {
        Instr::Three { sum: s, target, left, right } => made(sum(s), &[target, left, right], 0),
        Instr::ThreeNumber { sum: s, target, source, number } if target == source => made(6 + sum(s), &[target], number),
        Instr::ThreeNumber { sum: s, target, source, number } => made(2 + sum(s), &[target, source], number),
        Instr::TwoNumber { operation, target, number } => made(byte(operation), &[target], number),
        Instr::ShiftLeft { target, source, amount } => made(8, &[target, source], amount),
        Instr::ShiftRight { shift: Right::Lsr, target, source, amount } => made(9, &[target, source], amount),
        Instr::ShiftRight { shift: Right::Asr, target, source, amount } => made(10, &[target, source], amount),
        Instr::Two { operation, target, other } => made(11 + operation as u8, &[target, other], 0),
        Instr::Movs { target, source } => made(27, &[target, source], 0),
        Instr::Mov { target, source } => made(28, &[target, source], 0),
        Instr::Add { target, source } => made(29, &[target, source], 0),
        Instr::Extend { extension, target, source } => made(30 + extension_number(extension), &[target, source], 0),
        Instr::Reverse { reversal, target, source } => made(34 + reversal_number(reversal), &[target, source], 0),
        _ => None,
    }
}

fn extension_number(extension: Extension) -> u8 {
    match extension {
        Extension::Sxth => 0,
        Extension::Sxtb => 1,
        Extension::Uxth => 2,
        Extension::Uxtb => 3,
    }
}

fn reversal_number(reversal: Reversal) -> u8 {
    match reversal {
        Reversal::Rev => 0,
        Reversal::Rev16 => 1,
        Reversal::Revsh => 2,
    }
}

/// The names that registers get by first appearance.
pub struct Naming {
    names: [u8; 8],
    /// The registers, by their names.
    pub order: [u8; 8],
    pub count: u8,
}

impl Naming {
    pub fn new() -> Naming {
        Naming { names: [u8::MAX; 8], order: [0; 8], count: 0 }
    }

    /// The instruction with its registers' names in place of registers.
    #[inline]
    pub fn named(&mut self, instr: &WindowInstr) -> WindowInstr {
        instr.with(|register| {
            let name = &mut self.names[usize::from(register)];
            if *name == u8::MAX {
                *name = self.count;
                self.order[usize::from(self.count)] = register;
                self.count += 1;
            }
            *name
        })
    }
}

impl WindowInstr {
    /// The instruction with other registers.
    #[inline]
    pub fn with(&self, mut other: impl FnMut(u8) -> u8) -> WindowInstr {
        let mut instr = *self;
        for register in &mut instr.registers[..usize::from(self.count)] {
            *register = other(*register);
        }
        instr
    }

    /// Appends its canonical text.
    pub fn write(&self, text: &mut Vec<u8>) {
        let put = |text: &mut Vec<u8>, register: u8| text.extend_from_slice(&[b'r', b'0' + register]);
        text.extend_from_slice(NAMES[usize::from(self.form)].as_bytes());
        for (n, register) in self.registers[..usize::from(self.count)].iter().enumerate() {
            text.extend_from_slice(if n == 0 { b" " } else { b", " });
            put(text, *register);
        }
        match self.form {
            2..=10 => text.extend_from_slice(format!(", #{}", self.number).as_bytes()),
            20 => text.extend_from_slice(b", #0"),
            24 => {
                text.extend_from_slice(b", ");
                put(text, self.registers[0]);
            }
            _ => {}
        }
    }
}

/// The places of a listing: the instruction, and whether it follows the instruction before with nothing between that ends a window.
pub fn rows(listing: &Listing) -> Vec<(Option<WindowInstr>, bool)> {
    let mut rows = Vec::with_capacity(listing.spots.len());
    let mut joined = false;
    for line in &listing.lines {
        joined = joined && line.names.is_empty();
        match &line.statement {
            Statement::Runs { instr, mention: None } => rows.push((window_instr(instr), joined)),
            Statement::Runs { .. } => rows.push((None, joined)),
            Statement::Words(values) => rows.extend(values.iter().map(|_| (None, false))),
            _ => {}
        }
        joined = match &line.statement {
            Statement::Runs { .. } => true,
            Statement::Aligns { .. } => false,
            _ => joined,
        };
    }
    rows
}

/// The mnemonics of the forms, in order.
const NAMES: [&str; 37] = [
    "adds", "subs", "adds", "subs", "movs", "cmp", "adds", "subs", "lsls", "lsrs", "asrs", "ands", "eors", "lsls", "lsrs", "asrs", "adcs", "sbcs", "rors", "tst",
    "rsbs", "cmp", "cmn", "orrs", "muls", "bics", "mvns", "movs", "mov", "add", "sxth", "sxtb", "uxth", "uxtb", "rev", "rev16", "revsh",
];
