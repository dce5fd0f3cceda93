"""Builds, outside the repository, a program that runs `lrat_check` on files.

The program reads `formula.cnf` and `lines.txt` in its working folder and prints a word for each
line: `ok`, the fault, or `unread`. At the end it prints on standard error the milliseconds of
reading and of checking the lines, and whether the formula is refuted.
"""

import pathlib
import shutil
import subprocess

REPOSITORY = pathlib.Path(__file__).resolve().parent.parent
TAKEN = ("cnf_gates", "step_ledger", "clause_model", "lrat_check")


def crates():
    """The lines of crates.txt for the crates that are used, and for the program."""
    lines = (REPOSITORY / "crates.txt").read_text().splitlines()
    return [line for line in lines if line.split(":")[0] in TAKEN] + ["lrat_files: lrat_check cnf_gates step_ledger anyhow"]


MAIN = r"""//! Checks the lines of a file over the formula of another.
#![tactic(auto)]

ghost use Rattle.std.specs.Prelude.{IfOk, IfSome, FitsSigned};
ghost use Rattle.std.specs.Int.{w32};
ghost use Rattle.cnf_gates.specs.Cnf.{IsLiteral, AreLiterals};

use anyhow::Context;
use cnf_gates::Formula;
use lrat_check::{Checker, Line, read_line};
use std::alloc::{AllocError, Global};
use std::io::{self, BufWriter, Write};
use std::time::Instant;
use step_ledger::{Counted, Steps};

fn literal(word: &str) -> Option<i32>
    ensures { IfSome result (λ z. IsLiteral z × FitsSigned w32 z) }
{
    match word.parse::<i32>() {
        Ok(number) if number != 0 && -200_000 <= number && number <= 200_000 => Some(number),
        _ => None,
    }
}

fn clause(alloc: Global, line: &str) -> Result<Vec<i32>, AllocError>
    ensures { IfOk result (λ clause. AreLiterals clause.items) }
{
    let mut clause = Vec::new(alloc);
    for word in line.split_whitespace() {
        if let Some(number) = literal(word) {
            clause.push(number)?;
        }
    }
    Ok(clause)
}

fn formula(alloc: Global, text: &str) -> anyhow::Result<Formula> {
    let mut formula = Formula::new(alloc, 200_000);
    for line in text.lines() {
        if !line.starts_with('p') && !line.starts_with('c') && !line.is_empty() {
            formula.push_clause(clause(alloc, line)?)?;
        }
    }
    Ok(formula)
}

fn lines(alloc: Global, text: &str) -> anyhow::Result<Vec<Option<Line>>> {
    let mut lines = Vec::new(alloc);
    for line in text.lines() {
        lines.push(read_line(alloc, line.as_bytes())?)?;
    }
    Ok(lines)
}

fn check<W: Write>(checker: &mut Checker, lines: &[Option<Line>], out: &mut W) -> anyhow::Result<()> {
    let mut steps = Steps::new(Counted::new());
    for line in lines {
        match line {
            None => writeln!(out, "unread")?,
            Some(line) => match checker.add(line, &mut steps) {
                Ok(()) => writeln!(out, "ok")?,
                Err(fault) => writeln!(out, "{fault:?}")?,
            },
        }
    }
    Ok(())
}

fn main(rt: HostRuntime) -> anyhow::Result<()> {
    let alloc = rt.alloc();
    let text = std::fs::read_to_string(&rt, "formula.cnf").context("formula.cnf")?;
    let formula = formula(alloc, text.as_str())?;
    let text = std::fs::read_to_string(&rt, "lines.txt").context("lines.txt")?;
    let start = Instant::now(&rt)?;
    let lines = lines(alloc, text.as_str())?;
    let read = start.elapsed(&rt)?.as_millis();
    let mut out = BufWriter::new(alloc, io::writer(&rt))?;
    let start = Instant::now(&rt)?;
    let mut checker = Checker::new(alloc, &formula)?;
    check(&mut checker, &lines, &mut out)?;
    let checked = start.elapsed(&rt)?.as_millis();
    out.flush()?;
    eprintln!(rt; "read {read} checked {checked} refuted {}", checker.refuted())?;
    Ok(())
}
"""

INVARIANTS = r"""use Rattle.cnf_gates.specs.Cnf.{AreLiterals}
use Rattle.lrat_files.proofs.clause.Given as goal

abbrev pub invariant-loop-word : goal.invariant-loop-word
invariant-loop-word l = AreLiterals l.clause.items
"""

ANSWERS = r"""use Rattle.std.proofs.Common.{subst, List, ℤ, sym, ◌++◌, ◌∷◌, [], w32}
use Rattle.std.proofs.lemmas.Int.{to_z-of_z}
use Rattle.cnf_gates.specs.Cnf.{AreLiterals}
use Rattle.cnf_gates.proofs.Literals.{AreLiteralsOf-push}
use Rattle.lrat_files.proofs.clause.Goals as goal

pub loop-word-preserved-in-Continue-1 : goal.loop-word-preserved-in-Continue-1
loop-word-preserved-in-Continue-1 c =
    let z : ℤ = c.in-Some-literal.number in
    let more : AreLiterals (c.loop-word.clause.items ++ z ∷ []) = AreLiteralsOf-push 200000 c.loop-word.clause.items z c.loop-word.invariant c.in-Some-literal.ensures.0 in
    subst AreLiterals (sym c.in_ok-push.ensures.items) (rw (to_z-of_z w32 z c.in-Some-literal.ensures.1) more)
"""


def build(folder):
    """Builds the program in a folder outside the repository, and returns its path."""
    folder = pathlib.Path(folder)
    for name in TAKEN:
        shutil.copytree(
            REPOSITORY / "crates" / name,
            folder / "crates" / name,
            ignore=shutil.ignore_patterns("out"),
            dirs_exist_ok=True,
        )
    program = folder / "crates" / "lrat_files"
    (program / "src").mkdir(parents=True, exist_ok=True)
    (program / "src" / "main.rt").write_text(MAIN)
    (program / "proofs" / "clause").mkdir(parents=True, exist_ok=True)
    (program / "proofs" / "clause" / "Invariants.antt").write_text(INVARIANTS)
    (program / "proofs" / "clause" / "Answers.antt").write_text(ANSWERS)
    (folder / "crates.txt").write_text("".join(f"{line}\n" for line in crates()))
    work = folder / "work"
    work.mkdir(exist_ok=True)
    (work / "formula.cnf").write_text("p cnf 1 1\n1 0\n")
    (work / "lines.txt").write_text("")
    subprocess.run(["rt", "run"], cwd=program, check=False)
    binary = program / "out" / "lrat_files"
    if not binary.exists():
        raise SystemExit("the program was not built")
    return binary


def run(binary, folder, clauses, lines):
    """The program's answer for each line, and its report."""
    folder = pathlib.Path(folder)
    folder.mkdir(parents=True, exist_ok=True)
    text = "".join(" ".join(map(str, [*clause, 0])) + "\n" for clause in clauses)
    (folder / "formula.cnf").write_text(f"p cnf 200000 {len(clauses)}\n{text}")
    (folder / "lines.txt").write_text("".join(line + "\n" for line in lines))
    done = subprocess.run([binary], cwd=folder, capture_output=True, text=True, check=True)
    return done.stdout.split("\n")[:-1], done.stderr.strip()
