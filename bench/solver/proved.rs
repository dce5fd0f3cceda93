//! Solves the formula in DIMACS on standard input with the proved solver, prints the model or the log, and on standard error the microseconds of the
//! search and the conflicts. In Rattle; solver.sh builds it.
#![tactic(auto)]

ghost use Rattle.std.specs.Prelude.{IfOk, IfSome, FitsSigned, ◌≤◌};
ghost use Rattle.std.specs.Int.{w32};
ghost use Rattle.cnf_gates.specs.Cnf.{IsLiteral, AreLiterals};

use cdcl_core::{Verdict, solve};
use cnf_gates::{Formula, Model};
use lrat_check::{Line, write_line};
use std::alloc::{AllocError, Global};
use std::io::{self, BufWriter, Read, Write};
use std::time::Instant;
use step_ledger::{Counted, Steps};

const BUDGET: u32 = 20_000;

fn literal(word: &str) -> Option<i32>
    ensures { IfSome result (λ z. IsLiteral z × FitsSigned w32 z) }
{
    match word.parse::<i32>() {
        Ok(number) if number != 0 && -200_000 <= number && number <= 200_000 => Some(number),
        _ => None,
    }
}

fn clause(alloc: Global, line: &str) -> Result<Vec<i32>, AllocError>
    ensures { IfOk result (λ clause. AreLiterals clause.items) }
{
    let mut clause = Vec::new(alloc);
    for word in line.split_whitespace() {
        if let Some(number) = literal(word) {
            clause.push(number)?;
        }
    }
    Ok(clause)
}

/// The number of variables in the first line, `p cnf VARIABLES CLAUSES`.
fn variables(line: &str) -> u32
    ensures { result ≤ 200000 }
{
    for word in line.split_whitespace() {
        if let Ok(number) = word.parse::<u32>() {
            return number.min(200_000);
        }
    }
    0
}

fn formula(alloc: Global, text: &str) -> anyhow::Result<Formula> {
    let mut formula = Formula::new(alloc, 0);
    for line in text.lines() {
        if line.starts_with('p') {
            formula = Formula::new(alloc, variables(line));
        } else {
            formula.push_clause(clause(alloc, line)?)?;
        }
    }
    Ok(formula)
}

fn print_log<W: Write>(alloc: Global, verdict: &str, log: &[Line], out: &mut W) -> anyhow::Result<()> {
    writeln!(out, "{verdict}")?;
    for line in log {
        out.write_all(&write_line(alloc, line)?)?;
    }
    Ok(())
}

fn print_model<W: Write>(model: &Model, out: &mut W) -> anyhow::Result<()> {
    writeln!(out, "sat")?;
    let mut number: u32 = 0;
    for value in model.values() {
        number = number.saturating_add(1);
        writeln!(out, "{}{number}", if *value { "" } else { "-" })?;
    }
    Ok(())
}

fn main(rt: HostRuntime) -> anyhow::Result<()> {
    let alloc = rt.alloc();
    let mut text = String::new(alloc);
    rt.stdin().read_to_string(&mut text)?;
    let formula = formula(alloc, text.as_str())?;
    if formula.clauses() > 1_000_000 {
        return Ok(());
    }
    let mut steps = Steps::new(Counted::new());
    let start = Instant::now(&rt)?;
    let verdict = solve(alloc, &formula, BUDGET, &mut steps)?;
    let microseconds = start.elapsed(&rt)?.as_micros();
    let mut out = BufWriter::new(alloc, io::writer(&rt))?;
    let mut conflicts = 0;
    match &verdict {
        Verdict::Sat(model) => print_model(model, &mut out)?,
        Verdict::Unsat(log) => {
            conflicts = log.len();
            print_log(alloc, "unsat", log, &mut out)?;
        }
        Verdict::Spent(log) => {
            conflicts = log.len();
            print_log(alloc, "spent", log, &mut out)?;
        }
    }
    out.flush()?;
    eprintln!(rt; "{microseconds} {conflicts}")?;
    Ok(())
}
