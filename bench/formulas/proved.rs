//! Times the proved `formula` on two sides of three products each. In Rattle; formulas.sh builds it.
#![tactic(auto)]

use bit_blast::formula;
use cnf_gates::Formula;
use std::time::Instant;
use thumb_instr::items::{N, Z};
use thumb_instr::{Instr, Items, Mask, Operation, Seq, Within};

/// A number that depends on every literal and its place.
fn digest(formula: &Formula) -> u32 {
    let mut digest: u32 = 0;
    for number in 0..formula.clauses() {
        digest = digest.rotate_left(3) ^ 1;
        for literal in formula.clause(number + 1) {
            digest = digest.rotate_left(5) ^ literal.cast_unsigned();
        }
    }
    digest
}

fn main(rt: HostRuntime) -> anyhow::Result<()> {
    let first = Instr::Two {
        operation: Operation::Mul,
        target: Within::of(0),
        other: Within::of(1),
    };
    let second = Instr::Two {
        operation: Operation::Mul,
        target: Within::of(1),
        other: Within::of(2),
    };
    let third = Instr::Two {
        operation: Operation::Mul,
        target: Within::of(2),
        other: Within::of(0),
    };
    let mut left = Seq::new();
    left.push(first);
    left.push(second);
    left.push(third);
    let mut right = Seq::new();
    right.push(second);
    right.push(first);
    right.push(third);
    let mask = Mask::of(Items::of(&[0, 1, 2, N, Z]));
    let start = Instant::now(&rt)?;
    for _ in 0..20_u32 {
        let found = formula(rt.alloc(), &left, &right, mask, 3)?;
        println!(rt; "{} {} {}", found.variables(), found.clauses(), digest(&found))?;
    }
    let milliseconds = start.elapsed(&rt)?.as_millis();
    eprintln!(rt; "{milliseconds}")?;
    Ok(())
}
