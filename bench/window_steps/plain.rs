//! Times the same step in plain Rust.

#[path = "../plain_steps.rs"]
mod plain_steps;

use plain_steps::{ByteOperation, Extension, Instr, Operation, Reversal, Shift, Sum, WState, step};
use std::time::Instant;

/// The instruction of a halfword, if a window over r0 to r3 may contain it.
fn ready(halfword: u16) -> Option<Instr> {
    let field = |low: u32, bits: u32| u32::from(halfword) >> low & ((1 << bits) - 1);
    let (target, source, third) = (field(0, 3), field(3, 3), field(6, 3));
    let amount = field(6, 5);
    let wide = if amount == 0 { 32 } else { amount };
    let sum = if field(9, 1) == 0 { Sum::Add } else { Sum::Sub };
    let (instr, named): (Instr, &[u32]) = match field(11, 5) {
        0b00000 if amount == 0 => (Instr::Movs { target, source }, &[target, source]),
        0b00000 => (Instr::Shift { kind: Shift::Lsl, target, source, amount }, &[target, source]),
        0b00001 => (Instr::Shift { kind: Shift::Lsr, target, source, amount: wide }, &[target, source]),
        0b00010 => (Instr::Shift { kind: Shift::Asr, target, source, amount: wide }, &[target, source]),
        0b00011 if field(10, 1) == 0 => {
            (Instr::Three { sum, target, left: source, right: third }, &[target, source, third])
        }
        0b00011 => (Instr::ThreeNumber { sum, target, source, number: third }, &[target, source]),
        0b00100..=0b00111 => {
            let operation = match field(11, 2) {
                0 => ByteOperation::Mov,
                1 => ByteOperation::Cmp,
                2 => ByteOperation::Add,
                _ => ByteOperation::Sub,
            };
            let target = field(8, 3);
            (Instr::TwoNumber { operation, target, number: field(0, 8) }, &[target])
        }
        0b01000 if field(10, 1) == 0 => {
            let operations = [
                Operation::And, Operation::Eor, Operation::Lsl, Operation::Lsr, Operation::Asr, Operation::Adc,
                Operation::Sbc, Operation::Ror, Operation::Tst, Operation::Rsb, Operation::Cmp, Operation::Cmn,
                Operation::Orr, Operation::Mul, Operation::Bic, Operation::Mvn,
            ];
            let operation = operations[field(6, 4) as usize];
            (Instr::Two { operation, target, other: source }, &[target, source])
        }
        0b01000 => {
            let (target, source) = (target + 8 * field(7, 1), field(3, 4));
            match field(8, 2) {
                0 => (Instr::Add { target, source }, &[target, source]),
                2 => (Instr::Mov { target, source }, &[target, source]),
                _ => return None,
            }
        }
        0b10110 if field(8, 3) == 0b010 => {
            let extensions = [Extension::Sxth, Extension::Sxtb, Extension::Uxth, Extension::Uxtb];
            (Instr::Extend { extension: extensions[field(6, 2) as usize], target, source }, &[target, source])
        }
        0b10111 if field(8, 3) == 0b010 => {
            let reversal = match field(6, 2) {
                0 => Reversal::Rev,
                1 => Reversal::Rev16,
                3 => Reversal::Revsh,
                _ => return None,
            };
            (Instr::Reverse { reversal, target, source }, &[target, source])
        }
        _ => return None,
    };
    named.iter().all(|register| *register < 4).then_some(instr)
}

fn next(random: u32) -> u32 {
    let random = random ^ (random << 13);
    let random = random ^ (random >> 17);
    random ^ (random << 5)
}

fn run(list: &[Instr], mut state: WState) -> WState {
    for instr in list {
        state = step(instr, state);
    }
    state
}

fn main() {
    let mut list = Vec::new();
    let mut random = 1;
    for _ in 0..65536 {
        random = next(random);
        if let Some(instr) = ready((random % 65536) as u16) {
            list.push(instr);
        }
    }
    let start = Instant::now();
    let mut state = WState { r: [1, 2, 3, 4], nzcv: 0 };
    let mut random = 1;
    for _ in 0..2_000 {
        random = next(random);
        state.r[0] = random;
        state = run(&list, state);
    }
    let milliseconds = start.elapsed().as_millis();
    println!("{} {:?} {}", list.len(), state.r, state.nzcv);
    eprintln!("{milliseconds}");
}
