//! The solver in plain Rust, for a comparison of speed: it reads a formula in DIMACS on standard input, prints what the program of `proved.rs` prints, and
//! on standard error the microseconds of the search and the conflicts.

#[path = "../plain_solver.rs"]
mod plain_solver;

use plain_solver::{Verdict, number, solve};
use std::io::{self, BufWriter, Read, Write};
use std::time::Instant;

const BUDGET: usize = 20_000;

/// The variables and the clauses of a formula in DIMACS.
fn read(text: &str) -> (usize, Vec<Vec<u32>>) {
    let mut lines = text.lines();
    let variables = lines.next().unwrap().split(' ').nth(2).unwrap().parse().unwrap();
    let code = |number: i32| 2 * (number.unsigned_abs() - 1) + u32::from(number < 0);
    let clause = |line: &str| line.split(' ').map(|w| w.parse().unwrap()).filter(|n| *n != 0).map(code).collect();
    (variables, lines.map(clause).collect())
}

fn main() -> io::Result<()> {
    let mut text = String::new();
    io::stdin().read_to_string(&mut text)?;
    let (variables, clauses) = read(&text);
    let start = Instant::now();
    let verdict = solve(variables, &clauses, BUDGET);
    let microseconds = start.elapsed().as_micros();
    let mut out = BufWriter::new(io::stdout().lock());
    let (name, log) = match verdict {
        Verdict::Sat(values) => {
            writeln!(out, "sat")?;
            for (value, variable) in values.iter().zip(0..) {
                writeln!(out, "{}", number(2 * variable + u32::from(!value)))?;
            }
            eprintln!("{microseconds} 0");
            return out.flush();
        }
        Verdict::Unsat(log) => ("unsat", log),
        Verdict::Spent(log) => ("spent", log),
    };
    writeln!(out, "{name}")?;
    for (line, id) in log.iter().zip(clauses.len() + 1..) {
        write!(out, "{id} ")?;
        for literal in &line.literals {
            write!(out, "{} ", number(*literal))?;
        }
        write!(out, "0 ")?;
        for hint in &line.hints {
            write!(out, "{hint} ")?;
        }
        writeln!(out, "0")?;
    }
    eprintln!("{microseconds} {}", log.len());
    out.flush()
}
