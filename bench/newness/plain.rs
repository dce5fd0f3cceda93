//! Judging a log in plain Rust, for a comparison of speed: it reads and prints what the program of `proved.rs` does, uses the same lists of clauses by
//! literals, and prints its microseconds on standard error.

// Here logs have no deletions.
#[allow(dead_code)]
#[path = "../plain_checker.rs"]
mod plain_checker;
#[path = "../plain_newness.rs"]
mod plain_newness;

use plain_checker::{Checker, code};
use plain_newness::are_new;
use std::io::{self, Read};
use std::time::Instant;

struct Addition {
    id: u32,
    literals: Vec<u32>,
    hints: Vec<i64>,
}

fn numbers(line: &str) -> Vec<i64> {
    line.split(' ').map(|word| word.parse().unwrap()).collect()
}

fn addition(line: &str) -> Addition {
    let numbers = numbers(line);
    let end = numbers.iter().position(|n| *n == 0).unwrap();
    Addition {
        id: numbers[0] as u32,
        literals: numbers[1..end].iter().map(|n| code(*n)).collect(),
        hints: numbers[end + 1..numbers.len() - 1].to_vec(),
    }
}

fn is_spent(formula: &[Vec<u32>], log: &[Addition]) -> bool {
    if log.iter().any(|line| line.literals.is_empty()) {
        return false;
    }
    let mut checker = Checker::new(formula.to_vec());
    for line in log {
        if checker.add(line.id, line.literals.clone(), &line.hints).is_err() {
            return false;
        }
    }
    are_new(formula, log.iter().map(|line| &line.literals[..]))
}

fn main() -> io::Result<()> {
    let mut text = String::new();
    io::stdin().read_to_string(&mut text)?;
    let (front, back) = text.split_once("spent\n").unwrap();
    let codes = |line: &str| numbers(line).iter().filter(|n| **n != 0).map(|n| code(*n)).collect();
    let formula: Vec<Vec<u32>> = front.lines().filter(|line| !line.starts_with('p')).map(codes).collect();
    let log: Vec<Addition> = back.lines().map(addition).collect();
    let start = Instant::now();
    let is_spent = is_spent(&formula, &log);
    let microseconds = start.elapsed().as_micros();
    println!("{} clauses, spent: {is_spent}", log.len());
    eprintln!("{microseconds}");
    Ok(())
}
