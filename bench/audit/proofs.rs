//! Writes a table whose proofs have at least as many bytes as the argument says: the sum of three numbers in another order, repeated.

#[path = "../plain_formulas.rs"]
mod plain_formulas;
#[path = "../plain_alphabet.rs"]
mod plain_alphabet;
#[path = "../plain_solver.rs"]
mod plain_solver;
#[path = "../plain_steps.rs"]
mod plain_steps;

use plain_formulas::formula;
use plain_alphabet::{seeded, text_of};
use plain_solver::{Verdict, number, solve};
use plain_steps::{Instr, Mask, Sum};
use std::fmt::Write as _;

fn adds(target: u32, left: u32, right: u32) -> Instr {
    Instr::Three { sum: Sum::Add, target, left, right }
}

fn main() {
    let bytes: usize = std::env::args().nth(1).unwrap().parse().unwrap();
    let left = [adds(0, 0, 1), adds(0, 0, 2), Instr::Movs { target: 0, source: 0 }];
    let right = [adds(1, 1, 2), adds(0, 0, 1)];
    let formula = formula(&left, &right, Mask { registers: [true, false, false, false], nzcv: 12 }, 3);
    let Verdict::Unsat(log) = solve(formula.variables as usize, &formula.clauses, 100_000) else { panic!() };
    let mut entry = String::from("entry\n");
    left.iter().for_each(|instr| writeln!(entry, "left {}", text_of(instr)).unwrap());
    right.iter().for_each(|instr| writeln!(entry, "right {}", text_of(instr)).unwrap());
    entry.push_str("mask r0 n z\nproof\n");
    for (line, id) in log.iter().zip(formula.clauses.len() + 1..) {
        write!(entry, "{id} ").unwrap();
        line.literals.iter().for_each(|literal| write!(entry, "{} ", number(*literal)).unwrap());
        entry.push_str("0 ");
        line.hints.iter().for_each(|hint| write!(entry, "{hint} ").unwrap());
        entry.push_str("0\n");
    }
    println!("peep 1\nregs 3\nleft 3\nseed 42\nbudget 1\npool 0 1 2 4 8 16 24 31 255");
    for state in seeded(42) {
        let [a, b, c, d] = state.r;
        println!("state {a:08x} {b:08x} {c:08x} {d:08x} {:x}", state.nzcv);
    }
    (0..bytes.div_ceil(entry.len())).for_each(|_| print!("{entry}"));
    println!("end");
}
