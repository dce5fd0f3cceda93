//! Reads from standard input a formula in DIMACS and, after the line `spent`, a log over it. Prints whether the log spends a budget of as many clauses as it
//! adds, and on standard error the microseconds of judging it. In Rattle; newness.sh builds it.
#![tactic(auto)]

ghost use Rattle.std.specs.Prelude.{IfOk, IfSome, FitsSigned, ◌≤◌};
ghost use Rattle.std.specs.Int.{w32};
ghost use Rattle.cnf_gates.specs.Cnf.{IsLiteral, AreLiterals};

use anyhow::Context;
use cnf_gates::Formula;
use lrat_check::{Line, is_spent, read_line};
use std::alloc::{AllocError, Global};
use std::io::Read;
use std::time::Instant;
use step_ledger::{Counted, Steps};

fn literal(word: &str) -> Option<i32>
    ensures { IfSome result (λ z. IsLiteral z × FitsSigned w32 z) }
{
    match word.parse::<i32>() {
        Ok(number) if number != 0 && -200_000 <= number && number <= 200_000 => Some(number),
        _ => None,
    }
}

fn clause(alloc: Global, line: &str) -> Result<Vec<i32>, AllocError>
    ensures { IfOk result (λ clause. AreLiterals clause.items) }
{
    let mut clause = Vec::new(alloc);
    for word in line.split_whitespace() {
        if let Some(number) = literal(word) {
            clause.push(number)?;
        }
    }
    Ok(clause)
}

fn formula(alloc: Global, text: &str) -> anyhow::Result<Formula> {
    let mut formula = Formula::new(alloc, 200_000);
    for line in text.lines() {
        if !line.starts_with('p') {
            formula.push_clause(clause(alloc, line)?)?;
        }
    }
    Ok(formula)
}

fn log(alloc: Global, text: &str) -> anyhow::Result<Vec<Line>> {
    let mut lines = Vec::new(alloc);
    for line in text.lines() {
        if let Some(line) = read_line(alloc, line.as_bytes())? {
            lines.push(line)?;
        }
    }
    Ok(lines)
}

fn budget(log: &[Line]) -> u32 {
    let mut budget: u32 = 0;
    for line in log {
        if let Line::Addition(_) = line {
            budget = budget.saturating_add(1);
        }
    }
    budget
}

fn main(rt: HostRuntime) -> anyhow::Result<()> {
    let alloc = rt.alloc();
    let mut text = String::new(alloc);
    rt.stdin().read_to_string(&mut text)?;
    let (front, back) = text.as_str().split_once("spent\n").context("no log")?;
    let formula = formula(alloc, front)?;
    let log = log(alloc, back)?;
    let budget = budget(&log);
    let mut steps = Steps::new(Counted::new());
    let start = Instant::now(&rt)?;
    let is_spent = is_spent(alloc, &formula, &log, budget, &mut steps)?;
    let microseconds = start.elapsed(&rt)?.as_micros();
    println!(rt; "{} clauses, spent: {is_spent}", log.len())?;
    eprintln!(rt; "{microseconds}")?;
    Ok(())
}
