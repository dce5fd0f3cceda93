//! Walks through sequences with the proved crate. In Rattle; sequences.sh builds it.
#![tactic(auto)]

ghost use Rattle.std.specs.Prelude.{◌<◌, ◌≤◌, length};

use seq_enum::{Pool, Walk, alphabet_instrs};
use std::alloc::Global;
use std::time::Instant;
use thumb_instr::{Instr, parts};
use thumb_table::{Code, encode};

/// The code of an instruction of one halfword.
fn code(instr: &Instr) -> u64 {
    match encode(instr) {
        Code::One(first) => u64::from(first),
        Code::Two(first, _) => u64::from(first),
    }
}

/// A digest of the alphabet.
fn alphabet_digest(alphabet: &[Instr]) -> u64 {
    let mut sum = 0u64;
    for instr in alphabet {
        sum = sum.rotate_left(5) ^ code(instr);
    }
    sum
}

/// The registers and numbers of an instruction.
fn numbers(instr: &Instr) -> u64 {
    let parts = parts(instr);
    u64::from(parts.first) << 16 | u64::from(parts.second) << 8 | u64::from(parts.third)
}

/// A digest of the registers and numbers of the last instructions.
fn digest(alphabet: &[Instr], count: u32) -> u64
    requires some { 0 < length alphabet.now }
    requires few { length alphabet.now ≤ 1952 }
{
    let mut walk = Walk::new(alphabet);
    let mut sum = 0u64;
    for _turn in 0..count {
        let instrs = walk.instrs();
        let last = match instrs.last() {
            None => 0,
            Some(instr) => numbers(instr),
        };
        sum = sum.rotate_left(5) ^ last ^ (instrs.len() as u64).rotate_left(16);
        walk.next();
    }
    sum
}

fn main(rt: HostRuntime) -> anyhow::Result<()> {
    let pool = Pool::new(&[0, 1, 2, 4, 8, 16, 24, 31, 255]);
    let Some(pool) = pool else {
        return Ok(());
    };
    let alphabet = alphabet_instrs(rt.alloc(), 3, &pool)?;
    let start = Instant::now(&rt)?;
    let sum = digest(&alphabet, 5_000_000);
    eprintln!(rt; "{} ms", start.elapsed(&rt)?.as_millis())?;
    println!(rt; "{:016x} {sum:016x}", alphabet_digest(&alphabet))?;
    Ok(())
}
