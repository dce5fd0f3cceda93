//! The checker in plain Rust, for a comparison of speed. It does the same as the program of
//! `lrat_files.py`: checks the lines of `lines.txt` over `formula.cnf`, prints a word for each line
//! and prints on standard error the milliseconds of reading and of checking.

#[path = "../plain_checker.rs"]
mod plain_checker;

use plain_checker::{Checker, Fault, code};
use std::collections::HashSet;
use std::fmt;
use std::fs;
use std::io::{self, BufWriter, Write};
use std::time::Instant;

enum Line {
    Addition { id: u32, literals: Vec<u32>, hints: Vec<i64> },
    Deletion { ids: Vec<u32> },
}

fn number(word: &str) -> Option<i64> {
    let number: i64 = word.parse().ok()?;
    (number.to_string() == word).then_some(number)
}

fn read_line(text: &str) -> Option<Line> {
    let mut words: Vec<&str> = text.split(' ').collect();
    if words.pop()? != "0" || words.is_empty() {
        return None;
    }
    let id = u32::try_from(number(words[0])?).ok()?;
    if words.get(1) == Some(&"d") {
        let ids = words[2..].iter().map(|w| u32::try_from(number(w)?).ok()).collect::<Option<_>>()?;
        return Some(Line::Deletion { ids });
    }
    let end = words.iter().position(|w| *w == "0")?;
    let mut seen = HashSet::new();
    let mut literals = Vec::new();
    for word in &words[1..end] {
        let number = number(word)?;
        if number == 0 || number.unsigned_abs() > 200_000 || !seen.insert(number.unsigned_abs()) {
            return None;
        }
        literals.push(code(number));
    }
    let hints = words[end + 1..].iter().map(|w| number(w)).collect::<Option<_>>()?;
    Some(Line::Addition { id, literals, hints })
}

fn read_formula(text: &str) -> Vec<Vec<u32>> {
    text.lines()
        .filter(|line| !line.starts_with('p') && !line.starts_with('c') && !line.is_empty())
        .map(|line| {
            line.split_whitespace()
                .map(|w| w.parse::<i64>().unwrap_or(0))
                .filter(|n| *n != 0)
                .map(code)
                .collect()
        })
        .collect()
}

struct Answer(Option<Result<(), Fault>>);

impl fmt::Display for Answer {
    fn fmt(&self, f: &mut fmt::Formatter<'_>) -> fmt::Result {
        match &self.0 {
            None => write!(f, "unread"),
            Some(Ok(())) => write!(f, "ok"),
            Some(Err(fault)) => write!(f, "{fault:?}"),
        }
    }
}

fn answer(checker: &mut Checker, line: &Line) -> Result<(), Fault> {
    match line {
        Line::Addition { id, literals, hints } => checker.add(*id, literals.clone(), hints),
        Line::Deletion { ids } => checker.delete(ids),
    }
}

fn main() -> io::Result<()> {
    let formula = read_formula(&fs::read_to_string("formula.cnf")?);
    let text = fs::read_to_string("lines.txt")?;
    let start = Instant::now();
    let lines: Vec<Option<Line>> = text.lines().map(read_line).collect();
    let read = start.elapsed().as_millis();
    let mut out = BufWriter::new(io::stdout());
    let start = Instant::now();
    let mut checker = Checker::new(formula);
    for line in &lines {
        writeln!(out, "{}", Answer(line.as_ref().map(|line| answer(&mut checker, line))))?;
    }
    let checked = start.elapsed().as_millis();
    out.flush()?;
    eprintln!("read {read} checked {checked} refuted {}", checker.refuted);
    Ok(())
}
