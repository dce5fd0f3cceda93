//! Listings: lines whose names are each defined once, as the statements need them.

use crate::instruction::Instr;
use crate::line::{line, Line, Mark, Mention, Statement, Value};
use std::collections::hash_map::Entry;
use std::collections::{HashMap, HashSet};

/// What a name denotes: the line of its label, by its index, or an address that is set.
pub enum Meaning {
    Label(usize),
    Address(u32),
}

pub struct Listing {
    pub lines: Vec<Line>,
    pub names: HashMap<Vec<u8>, Meaning>,
    /// The line of each place (an instruction or a word), and which of the line's places it is.
    pub spots: Vec<(u32, u32)>,
    /// How many places there are before each line.
    pub passed: Vec<u32>,
}

#[derive(Debug)]
pub enum Kind {
    Shape,
    Twice,
    Target,
    Limit,
}

/// The number of the refused line, from 1, and the reason.
pub struct Refusal {
    pub number: usize,
    pub kind: Kind,
}

pub const MOST_LINES: usize = 262_144;

/// In bytes, without its newline.
const LONGEST_LINE: usize = 1024;

fn lines(text: &[u8]) -> Result<Vec<Line>, Refusal> {
    let mut lines = Vec::new();
    for text in text.split_inclusive(|b| *b == b'\n') {
        let number = lines.len() + 1;
        if number > MOST_LINES || text.strip_suffix(b"\n").unwrap_or(text).len() > LONGEST_LINE {
            return Err(Refusal { number, kind: Kind::Limit });
        }
        lines.push(line(text).ok_or(Refusal { number, kind: Kind::Shape })?);
    }
    Ok(lines)
}

/// What the names that the lines define denote.
fn meanings(lines: &[Line]) -> Result<HashMap<Vec<u8>, Meaning>, Refusal> {
    let mut meanings = HashMap::new();
    for (n, line) in lines.iter().enumerate() {
        let labels = line.names.iter().map(|name| (name, Meaning::Label(n)));
        let set = match &line.statement {
            Statement::Sets { name, address } => Some((name, Meaning::Address(*address))),
            _ => None,
        };
        for (name, meaning) in labels.chain(set) {
            match meanings.entry(name.clone()) {
                Entry::Vacant(entry) => entry.insert(meaning),
                Entry::Occupied(_) => return Err(Refusal { number: n + 1, kind: Kind::Twice }),
            };
        }
    }
    Ok(meanings)
}

fn functions(lines: &[Line]) -> HashSet<&[u8]> {
    let mut functions = HashSet::new();
    let mut waits = false;
    for line in lines {
        if let Some(name) = line.names.first() {
            if waits {
                functions.insert(name.as_slice());
            }
            waits = false;
        }
        match &line.mark {
            Mark::Nothing => {}
            Mark::Next => waits = true,
            Mark::Named(name) => {
                functions.insert(name);
            }
        }
    }
    functions
}

/// How many words follow from each line on, with neither an instruction nor an alignment before them.
fn runs_of_words(lines: &[Line]) -> Vec<usize> {
    let mut runs = vec![0; lines.len()];
    let mut run = 0;
    for (n, line) in lines.iter().enumerate().rev() {
        match &line.statement {
            Statement::Nothing | Statement::Sets { .. } => {}
            Statement::Runs { .. } | Statement::Aligns { .. } => run = 0,
            Statement::Words(values) => run += values.len(),
        }
        runs[n] = run;
    }
    runs
}

impl Listing {
    pub fn of(lines: Vec<Line>) -> Result<Listing, Refusal> {
        let names = meanings(&lines)?;
        Ok(Listing::with(lines, names))
    }

    /// The listing of lines, given what the names that they define denote.
    pub fn with(lines: Vec<Line>, names: HashMap<Vec<u8>, Meaning>) -> Listing {
        let mut spots = Vec::new();
        let mut passed = Vec::with_capacity(lines.len());
        for (n, line) in lines.iter().enumerate() {
            passed.push(spots.len() as u32);
            match &line.statement {
                Statement::Runs { .. } => spots.push((n as u32, 0)),
                Statement::Words(values) => spots.extend((0..values.len() as u32).map(|item| (n as u32, item))),
                _ => {}
            }
        }
        Listing { lines, names, spots, passed }
    }

    fn label_line(&self, name: &[u8]) -> Option<usize> {
        match self.names.get(name) {
            Some(Meaning::Label(line)) => Some(*line),
            _ => None,
        }
    }

    /// Whether an instruction follows the line's labels.
    fn is_code(&self, line: usize) -> bool {
        match self.spots.get(self.passed[line] as usize) {
            Some((line, _)) => matches!(self.lines[*line as usize].statement, Statement::Runs { .. }),
            None => false,
        }
    }

    fn is_aimed(&self, runs: &[usize], instr: Instr, mention: &Mention) -> bool {
        let label = self.label_line(&mention.name);
        match instr {
            Instr::BranchIf(_) => label.is_some_and(|line| self.is_code(line)),
            Instr::Branch | Instr::Call => label.is_none_or(|line| self.is_code(line)),
            _ => {
                let plus = mention.plus as usize;
                plus % 4 == 0 && plus <= 1020 && label.is_some_and(|line| plus / 4 < runs[line])
            }
        }
    }

    fn is_word_of(&self, functions: &HashSet<&[u8]>, value: &Value) -> bool {
        match value {
            Value::Number(_) => true,
            Value::OfName(Mention { name, plus }) => match self.label_line(name) {
                Some(line) if self.is_code(line) => *plus == 0 && functions.contains(name.as_slice()),
                _ => true,
            },
        }
    }

    /// The first line that mentions a name of the wrong kind.
    fn first_target(&self) -> Option<usize> {
        let functions = functions(&self.lines);
        let runs = runs_of_words(&self.lines);
        self.lines.iter().position(|line| match &line.statement {
            Statement::Runs { instr, mention: Some(mention) } => !self.is_aimed(&runs, *instr, mention),
            Statement::Words(values) => !values.iter().all(|value| self.is_word_of(&functions, value)),
            _ => false,
        })
    }
}

pub fn parse(text: &[u8]) -> Result<Listing, Refusal> {
    let listing = Listing::of(lines(text)?)?;
    match listing.first_target() {
        None => Ok(listing),
        Some(line) => Err(Refusal { number: line + 1, kind: Kind::Target }),
    }
}

pub fn print(listing: &Listing) -> Vec<u8> {
    let mut text = Vec::new();
    for line in &listing.lines {
        text.extend_from_slice(&line.text);
    }
    text
}
