//! The checker of proofs in plain Rust, shared by the plain programs of the measures.

use std::collections::{HashMap, HashSet};

// Line numbers are only printed.
#[allow(dead_code)]
#[derive(Debug)]
pub enum Fault {
    Order,
    Rat,
    Dead(usize),
    Hint(usize),
    NoConflict,
}

/// A DIMACS number as a literal: twice the variable, plus 1 if it is negative.
pub fn code(number: i64) -> u32 {
    let variable = number.unsigned_abs() as u32 - 1;
    2 * variable + u32::from(number < 0)
}

pub struct Checker {
    live: HashMap<u64, Vec<u32>>,
    last: u64,
    pub refuted: bool,
    /// How many hints the last addition needed.
    pub used: usize,
    marks: Vec<bool>,
    trail: Vec<u32>,
}

impl Checker {
    /// A checker whose live clauses are the given ones, numbered from 1.
    pub fn new(clauses: Vec<Vec<u32>>) -> Checker {
        let (last, refuted) = (clauses.len() as u64, clauses.iter().any(Vec::is_empty));
        Checker { live: (1..).zip(clauses).collect(), last, refuted, used: 0, marks: Vec::new(), trail: Vec::new() }
    }

    fn is_true(&self, literal: u32) -> bool {
        self.marks.get(literal as usize).copied().unwrap_or(false)
    }

    fn set(&mut self, literal: u32) {
        let at = literal as usize;
        if self.marks.len() <= at {
            self.marks.resize(at + 1, false);
        }
        self.marks[at] = true;
        self.trail.push(literal);
    }

    fn refute(&mut self, hints: &[i64]) -> Result<(), Fault> {
        for (i, hint) in hints.iter().enumerate() {
            let Some(clause) = self.live.get(&hint.unsigned_abs()) else {
                return Err(Fault::Dead(i + 1));
            };
            let mut unset = None;
            for &literal in clause {
                if self.is_true(literal) {
                    return Err(Fault::Hint(i + 1));
                }
                if !self.is_true(literal ^ 1) {
                    match unset {
                        None => unset = Some(literal),
                        Some(first) if first == literal => {}
                        Some(_) => return Err(Fault::Hint(i + 1)),
                    }
                }
            }
            match unset {
                None => {
                    self.used = i + 1;
                    return Ok(());
                }
                Some(literal) => self.set(literal),
            }
        }
        Err(Fault::NoConflict)
    }

    /// Adds a clause that follows by its hints, or returns a fault.
    pub fn add(&mut self, id: u32, literals: Vec<u32>, hints: &[i64]) -> Result<(), Fault> {
        let id = u64::from(id);
        if id <= self.last {
            return Err(Fault::Order);
        }
        if hints.iter().any(|hint| *hint < 0) {
            return Err(Fault::Rat);
        }
        for &literal in &literals {
            self.set(literal ^ 1);
        }
        let outcome = self.refute(hints);
        for literal in self.trail.drain(..) {
            self.marks[literal as usize] = false;
        }
        outcome?;
        self.last = id;
        self.refuted |= literals.is_empty();
        self.live.insert(id, literals);
        Ok(())
    }

    /// Deletes live clauses.
    pub fn delete(&mut self, ids: &[u32]) -> Result<(), Fault> {
        let mut seen = HashSet::new();
        for (i, id) in ids.iter().enumerate() {
            if !self.live.contains_key(&u64::from(*id)) || !seen.insert(*id) {
                return Err(Fault::Dead(i + 1));
            }
        }
        for id in ids {
            self.live.remove(&u64::from(*id));
        }
        Ok(())
    }
}
