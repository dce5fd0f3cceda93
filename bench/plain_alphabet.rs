//! The alphabet and the states of a seed in plain Rust, shared by the plain programs of the measures.
// not every program needs all of it
#![allow(dead_code)]

use crate::plain_steps::{ByteOperation, Extension, Instr, Operation, Reversal, Shift, Sum, WState};

/// The instructions of the first `k` registers and a pool, in the order of their numbers.
pub fn alphabet(k: u32, pool: &[u32]) -> Vec<Instr> {
    let mut instrs = Vec::new();
    for sum in [Sum::Add, Sum::Sub] {
        for target in 0..k {
            for left in 0..k {
                for right in 0..k {
                    instrs.push(Instr::Three { sum, target, left, right });
                }
            }
        }
    }
    for sum in [Sum::Add, Sum::Sub] {
        for target in 0..k {
            for source in (0..k).filter(|source| *source != target) {
                for number in pool.iter().copied().filter(|number| *number < 8) {
                    instrs.push(Instr::ThreeNumber { sum, target, source, number });
                }
            }
        }
    }
    for operation in [ByteOperation::Mov, ByteOperation::Cmp, ByteOperation::Add, ByteOperation::Sub] {
        for target in 0..k {
            for number in pool.iter().copied() {
                instrs.push(Instr::TwoNumber { operation, target, number });
            }
        }
    }
    for (kind, end) in [(Shift::Lsl, 32), (Shift::Lsr, 33), (Shift::Asr, 33)] {
        for target in 0..k {
            for source in 0..k {
                for amount in pool.iter().copied().filter(|amount| *amount > 0 && *amount < end) {
                    instrs.push(Instr::Shift { kind, target, source, amount });
                }
            }
        }
    }
    pairs(k, &mut instrs);
    instrs
}

fn pairs(k: u32, instrs: &mut Vec<Instr>) {
    use crate::plain_steps::Operation::*;
    let mut each = |make: &dyn Fn(u32, u32) -> Instr| {
        for target in 0..k {
            for other in 0..k {
                instrs.push(make(target, other));
            }
        }
    };
    for operation in [And, Eor, Lsl, Lsr, Asr, Adc, Sbc, Ror, Tst, Rsb, Cmp, Cmn, Orr, Mul, Bic, Mvn] {
        each(&|target, other| Instr::Two { operation, target, other });
    }
    each(&|target, source| Instr::Movs { target, source });
    each(&|target, source| Instr::Mov { target, source });
    each(&|target, source| Instr::Add { target, source });
    for extension in [Extension::Sxth, Extension::Sxtb, Extension::Uxth, Extension::Uxtb] {
        each(&|target, source| Instr::Extend { extension, target, source });
    }
    for reversal in [Reversal::Rev, Reversal::Rev16, Reversal::Revsh] {
        each(&|target, source| Instr::Reverse { reversal, target, source });
    }
}

/// The 64 states of a seed, by PCG XSH RR 64/32 with stream 54.
pub fn seeded(seed: u64) -> Vec<WState> {
    const MULTIPLIER: u64 = 6364136223846793005;
    let increment = 54 << 1 | 1;
    let mut state = seed.wrapping_add(increment).wrapping_mul(MULTIPLIER).wrapping_add(increment);
    let mut word = || {
        let old = state;
        state = old.wrapping_mul(MULTIPLIER).wrapping_add(increment);
        (((old >> 18 ^ old) >> 27) as u32).rotate_right((old >> 59) as u32)
    };
    (0..64).map(|_| WState { r: [word(), word(), word(), word()], nzcv: (word() % 16) as u8 }).collect()
}

/// The canonical text of an instruction.
pub fn text_of(instr: &Instr) -> String {
    let operations = [
        "ands", "eors", "lsls", "lsrs", "asrs", "adcs", "sbcs", "rors", "tst", "rsbs", "cmp", "cmn", "orrs", "muls", "bics", "mvns",
    ];
    let sum_name = |sum| match sum {
        Sum::Add => "adds",
        Sum::Sub => "subs",
    };
    match *instr {
        Instr::Mov { target, source } => format!("mov r{target}, r{source}"),
        Instr::Movs { target, source } => format!("movs r{target}, r{source}"),
        Instr::Add { target, source } => format!("add r{target}, r{source}"),
        Instr::Three { sum, target, left, right } => format!("{} r{target}, r{left}, r{right}", sum_name(sum)),
        Instr::ThreeNumber { sum, target, source, number } => format!("{} r{target}, r{source}, #{number}", sum_name(sum)),
        Instr::TwoNumber { operation, target, number } => {
            let name = match operation {
                ByteOperation::Mov => "movs",
                ByteOperation::Cmp => "cmp",
                ByteOperation::Add => "adds",
                ByteOperation::Sub => "subs",
            };
            format!("{name} r{target}, #{number}")
        }
        Instr::Shift { kind, target, source, amount } => {
            let name = match kind {
                Shift::Lsl => "lsls",
                Shift::Lsr => "lsrs",
                Shift::Asr => "asrs",
                Shift::Ror => "rors",
            };
            format!("{name} r{target}, r{source}, #{amount}")
        }
        Instr::Two { operation, target, other } => {
            let name = operations[operation as usize];
            match operation {
                Operation::Mul => format!("{name} r{target}, r{other}, r{target}"),
                Operation::Rsb => format!("{name} r{target}, r{other}, #0"),
                _ => format!("{name} r{target}, r{other}"),
            }
        }
        Instr::Extend { extension, target, source } => {
            let name = match extension {
                Extension::Sxth => "sxth",
                Extension::Sxtb => "sxtb",
                Extension::Uxth => "uxth",
                Extension::Uxtb => "uxtb",
            };
            format!("{name} r{target}, r{source}")
        }
        Instr::Reverse { reversal, target, source } => {
            let name = match reversal {
                Reversal::Rev => "rev",
                Reversal::Rev16 => "rev16",
                Reversal::Revsh => "revsh",
            };
            format!("{name} r{target}, r{source}")
        }
    }
}
