//! Tables in plain Rust, shared by the plain programs of the measures: their text is read and written.
// not every program needs all of it
#![allow(dead_code)]

use crate::plain_costs::{Costs, cost_of};
use std::collections::HashSet;
use std::convert::TryFrom;
use std::io::Write;

#[derive(Clone, Copy, PartialEq)]
pub enum Operand { Register(u8), Number(u16) }

/// An instruction of windows: the index of its mnemonic, and up to three operands.
#[derive(Clone, Copy, PartialEq)]
pub struct Instr { pub mnemonic: u8, pub operands: [Operand; 3], pub count: u8 }

pub enum Line {
    Addition { id: u32, literals: Vec<i32>, hints: Vec<i64> },
    Deletion { id: u32, ids: Vec<u32> },
}

pub struct Open { pub number: u64, pub log: Vec<Line> }

pub struct Entry { pub left: Vec<Instr>, pub right: Vec<Instr>, pub mask: u8, pub proof: Vec<Line>, pub opens: Vec<Open> }

pub struct Family { pub entry: u32, pub number: u32, pub low: u32, pub high: u32, pub proof: Vec<Line> }

/// Only version 4 has costs.
pub struct Table { pub version: u8, pub scratch: u8, pub costs: Option<Costs>, pub regs: u8, pub left: u8, pub seed: u32, pub budget: u32, pub pool: Vec<u8>, pub states: Vec<([u32; 4], u8)>, pub entries: Vec<Entry>, pub families: Vec<Family> }

/// The operands of a mnemonic: registers as `r`, a repetition of the first register as `=`, and numbers by their ranges.
enum Shape { Registers(usize), Product, Negation, RegistersAndNumber(usize, u16, u16) }

use Shape::{Negation, Product, Registers, RegistersAndNumber};

/// The canonical forms of instructions of windows.
const FORMS: &[(&str, Shape)] = &[
    ("movs", Registers(2)), ("mov", Registers(2)), ("add", Registers(2)),
    ("adds", Registers(3)), ("subs", Registers(3)),
    ("adds", RegistersAndNumber(2, 0, 7)), ("subs", RegistersAndNumber(2, 0, 7)),
    ("movs", RegistersAndNumber(1, 0, 255)), ("cmp", RegistersAndNumber(1, 0, 255)),
    ("adds", RegistersAndNumber(1, 0, 255)), ("subs", RegistersAndNumber(1, 0, 255)),
    ("lsls", RegistersAndNumber(2, 1, 31)), ("lsrs", RegistersAndNumber(2, 1, 32)), ("asrs", RegistersAndNumber(2, 1, 32)),
    ("ands", Registers(2)), ("eors", Registers(2)), ("lsls", Registers(2)), ("lsrs", Registers(2)), ("asrs", Registers(2)),
    ("adcs", Registers(2)), ("sbcs", Registers(2)), ("rors", Registers(2)), ("tst", Registers(2)), ("rsbs", Negation),
    ("cmp", Registers(2)), ("cmn", Registers(2)), ("orrs", Registers(2)), ("muls", Product), ("bics", Registers(2)), ("mvns", Registers(2)),
    ("sxth", Registers(2)), ("sxtb", Registers(2)), ("uxth", Registers(2)), ("uxtb", Registers(2)),
    ("rev", Registers(2)), ("rev16", Registers(2)), ("revsh", Registers(2)),
];

fn number(word: &str) -> Option<u64> {
    let plain = !word.is_empty() && word.bytes().all(|b| b.is_ascii_digit()) && (word.len() == 1 || !word.starts_with('0'));
    if plain { word.parse().ok() } else { None }
}

fn number_within(word: &str, least: u64, most: u64) -> Option<u64> {
    number(word).filter(|n| least <= *n && *n <= most)
}

fn signed(word: &str) -> Option<i64> {
    match word.strip_prefix('-') {
        Some(rest) => i64::try_from(number(rest)?).ok().filter(|n| *n != 0).map(|n| -n),
        None => i64::try_from(number(word)?).ok(),
    }
}

fn id(word: &str) -> Option<u32> {
    u32::try_from(number(word)?).ok().filter(|n| *n != 0)
}

fn operand(word: &str) -> Option<Operand> {
    match word.as_bytes() {
        [b'r', register @ b'0'..=b'3'] => Some(Operand::Register(register - b'0')),
        [b'#', ..] => u16::try_from(number(&word[1..])?).ok().map(Operand::Number),
        _ => None,
    }
}

fn fits(shape: &Shape, operands: &[Operand]) -> bool {
    let registers = operands.iter().take_while(|o| matches!(o, Operand::Register(_))).count();
    match *shape {
        Registers(count) => registers == count && operands.len() == count,
        Product => registers == 3 && operands.len() == 3 && operands[0] == operands[2],
        Negation => registers == 2 && operands.len() == 3 && operands[2] == Operand::Number(0),
        RegistersAndNumber(count, least, most) => {
            registers == count && operands.len() == count + 1
                && matches!(operands[count], Operand::Number(n) if least <= n && n <= most)
        }
    }
}

fn instruction(text: &str) -> Option<Instr> {
    let (mnemonic, rest) = text.split_once(' ')?;
    let mut operands = [Operand::Number(0); 3];
    let mut count = 0;
    for word in rest.split(", ") {
        *operands.get_mut(count)? = operand(word)?;
        count += 1;
    }
    let form = FORMS.iter().position(|(name, shape)| *name == mnemonic && fits(shape, &operands[..count]))?;
    Some(Instr { mnemonic: form as u8, operands, count: count as u8 })
}

fn proof_line(text: &str) -> Option<Line> {
    let mut words: Vec<&str> = text.split(' ').collect();
    if words.pop()? != "0" || words.is_empty() {
        return None;
    }
    let line_id = id(words[0])?;
    if words.get(1) == Some(&"d") {
        let ids = words[2..].iter().map(|w| id(w)).collect::<Option<_>>()?;
        return Some(Line::Deletion { id: line_id, ids });
    }
    let end = words.iter().position(|w| *w == "0")?;
    let mut seen = HashSet::new();
    let mut literals = Vec::new();
    for word in &words[1..end] {
        let literal = signed(word)?;
        if literal == 0 || literal.unsigned_abs() > 200_000 || !seen.insert(literal.unsigned_abs()) {
            return None;
        }
        literals.push(literal as i32);
    }
    let hints = words[end + 1..].iter().map(|w| signed(w).filter(|h| *h != 0 && h.unsigned_abs() <= u64::from(u32::MAX))).collect::<Option<_>>()?;
    Some(Line::Addition { id: line_id, literals, hints })
}

fn hex(word: &str, digits: usize) -> Option<u32> {
    let plain = word.len() == digits && word.bytes().all(|b| b.is_ascii_digit() || (b'a'..=b'f').contains(&b));
    if plain { u32::from_str_radix(word, 16).ok() } else { None }
}

fn state(tail: &str) -> Option<([u32; 4], u8)> {
    let mut words = tail.strip_prefix(' ')?.split(' ');
    let mut registers = [0; 4];
    for register in &mut registers {
        *register = hex(words.next()?, 8)?;
    }
    let flags = hex(words.next()?, 1)? as u8;
    if words.next().is_none() { Some((registers, flags)) } else { None }
}

fn pool(tail: &str) -> Option<Vec<u8>> {
    let numbers: Vec<u8> = tail.strip_prefix(' ')?.split(' ').map(|w| number_within(w, 0, 255).map(|n| n as u8)).collect::<Option<_>>()?;
    (numbers.len() <= 16 && numbers.windows(2).all(|w| w[0] < w[1])).then_some(numbers)
}

fn costs(tail: &str) -> Option<Costs> {
    let numbers: Vec<u8> = tail.split(' ').map(|word| number_within(word, 1, 64).map(|n| n as u8)).collect::<Option<_>>()?;
    Costs::try_from(numbers).ok()
}

const ITEMS: [&str; 8] = ["r0", "r1", "r2", "r3", "n", "z", "c", "v"];

fn mask(tail: &str) -> Option<u8> {
    let mut rest = tail;
    let mut mask = 0;
    for (bit, item) in ITEMS.iter().enumerate() {
        if let Some(after) = rest.strip_prefix(' ').and_then(|r| r.strip_prefix(item)) {
            mask |= 1 << bit;
            rest = after;
        }
    }
    rest.is_empty().then_some(mask)
}

/// What may come next.
enum Place { Start, Regs, Left, Seed, Budget, Pool, Scratch, Costs, States, Sides, Proof, Log, OpenLog, Raised, RaisedLog, End }

fn step(table: &mut Table, place: Place, line: &str) -> Option<Place> {
    match place {
        Place::Start => { table.version = number_within(line.strip_prefix("peep ")?, 1, 4)? as u8; Some(Place::Regs) }
        Place::Regs => { table.regs = number_within(line.strip_prefix("regs ")?, 1, 4)? as u8; Some(Place::Left) }
        Place::Left => { table.left = number_within(line.strip_prefix("left ")?, 1, 5)? as u8; Some(Place::Seed) }
        Place::Seed => { table.seed = number_within(line.strip_prefix("seed ")?, 0, u64::from(u32::MAX))? as u32; Some(Place::Budget) }
        Place::Budget => { table.budget = number_within(line.strip_prefix("budget ")?, 1, 1_000_000)? as u32; Some(Place::Pool) }
        Place::Pool => { table.pool = pool(line.strip_prefix("pool")?)?; Some(if table.version == 1 { Place::States } else { Place::Scratch }) }
        Place::Scratch => { table.scratch = number_within(line.strip_prefix("scratch ")?, 0, 1)? as u8; Some(if table.version < 4 { Place::States } else { Place::Costs }) }
        Place::Costs => { table.costs = Some(costs(line.strip_prefix("costs ")?)?); Some(Place::States) }
        Place::States => {
            if let Some(tail) = line.strip_prefix("state") {
                table.states.push(state(tail)?);
                return Some(Place::States);
            }
            entry_or_end(table, line)
        }
        Place::Sides => {
            let entry = table.entries.last_mut()?;
            if let Some(text) = line.strip_prefix("left ") {
                if entry.left.len() == 5 || !entry.right.is_empty() { return None; }
                entry.left.push(instruction(text)?);
                Some(Place::Sides)
            } else if entry.left.is_empty() {
                None
            } else if let Some(text) = line.strip_prefix("right ") {
                if entry.right.len() == 5 { return None; }
                entry.right.push(instruction(text)?);
                Some(Place::Sides)
            } else {
                entry.mask = mask(line.strip_prefix("mask")?)?;
                Some(Place::Proof)
            }
        }
        Place::Proof => (line == "proof").then_some(Place::Log),
        Place::Log | Place::OpenLog => {
            let entry = table.entries.last_mut()?;
            if line.as_bytes().first()?.is_ascii_digit() {
                let logged = proof_line(line)?;
                match entry.opens.last_mut() {
                    Some(open) => open.log.push(logged),
                    None => entry.proof.push(logged),
                }
                return Some(Place::OpenLog);
            }
            if let Some(word) = line.strip_prefix("open ") {
                let number = number(word)?;
                if entry.opens.last().is_some_and(|last| last.number >= number) { return None; }
                entry.opens.push(Open { number, log: Vec::new() });
                return Some(Place::OpenLog);
            }
            entry_or_end(table, line)
        }
        Place::Raised => (line == "proof").then_some(Place::RaisedLog),
        Place::RaisedLog if line.as_bytes().first()?.is_ascii_digit() => {
            table.families.last_mut()?.proof.push(proof_line(line)?);
            Some(Place::RaisedLog)
        }
        Place::RaisedLog => family_or_end(table, line),
        Place::End => None,
    }
}

fn family_or_end(table: &mut Table, line: &str) -> Option<Place> {
    if line == "end" {
        return Some(Place::End);
    }
    let words: Vec<&str> = line.strip_prefix("family ")?.split(' ').collect();
    let numbers: Vec<u32> = words.iter().map(|word| u32::try_from(number(word)?).ok()).collect::<Option<_>>()?;
    let [entry, number, low, high] = <[u32; 4]>::try_from(numbers).ok()?;
    table.families.push(Family { entry, number, low, high, proof: Vec::new() });
    Some(Place::Raised)
}

fn entry_or_end(table: &mut Table, line: &str) -> Option<Place> {
    if table.version > 2 && line.starts_with("family ") {
        return family_or_end(table, line);
    }
    match line {
        "entry" => {
            table.entries.push(Entry { left: Vec::new(), right: Vec::new(), mask: 0, proof: Vec::new(), opens: Vec::new() });
            Some(Place::Sides)
        }
        "end" => Some(Place::End),
        _ => None,
    }
}

impl Table {
    /// The weight of a side: its cost, or without costs its length.
    pub fn weight(&self, side: &[Instr]) -> u32 {
        side.iter().map(|instr| cost_of(self.costs.as_ref(), FORMS[instr.mnemonic as usize].0)).sum()
    }
}

pub fn read_table(text: &[u8]) -> Result<Table, u64> {
    let mut table = Table { version: 1, scratch: 0, costs: None, regs: 0, left: 0, seed: 0, budget: 0, pool: Vec::new(), states: Vec::new(), entries: Vec::new(), families: Vec::new() };
    let mut place = Place::Start;
    let mut line_number = 1;
    let mut rest = text;
    while !rest.is_empty() {
        let end = rest.iter().position(|b| *b == b'\n').ok_or(line_number)?;
        let line = std::str::from_utf8(&rest[..end]).map_err(|_| line_number)?;
        place = step(&mut table, place, line).ok_or(line_number)?;
        rest = &rest[end + 1..];
        line_number += 1;
    }
    if matches!(place, Place::End) { Ok(table) } else { Err(line_number) }
}

pub fn write_instr(out: &mut Vec<u8>, word: &str, instr: &Instr) {
    out.extend_from_slice(word.as_bytes());
    out.extend_from_slice(FORMS[instr.mnemonic as usize].0.as_bytes());
    for (place, operand) in instr.operands[..instr.count as usize].iter().enumerate() {
        out.extend_from_slice(if place == 0 { b" " } else { b", " });
        match operand {
            Operand::Register(r) => write!(out, "r{r}").unwrap(),
            Operand::Number(n) => write!(out, "#{n}").unwrap(),
        }
    }
    out.push(b'\n');
}

fn write_log(out: &mut Vec<u8>, log: &[Line]) {
    for line in log {
        match line {
            Line::Addition { id, literals, hints } => {
                write!(out, "{id} ").unwrap();
                for literal in literals { write!(out, "{literal} ").unwrap(); }
                out.extend_from_slice(b"0 ");
                for hint in hints { write!(out, "{hint} ").unwrap(); }
                out.extend_from_slice(b"0\n");
            }
            Line::Deletion { id, ids } => {
                write!(out, "{id} d ").unwrap();
                for gone in ids { write!(out, "{gone} ").unwrap(); }
                out.extend_from_slice(b"0\n");
            }
        }
    }
}

pub fn write_table(table: &Table) -> Vec<u8> {
    let mut out = Vec::new();
    write!(out, "peep {}\nregs {}\nleft {}\nseed {}\nbudget {}\npool", table.version, table.regs, table.left, table.seed, table.budget).unwrap();
    for number in &table.pool { write!(out, " {number}").unwrap(); }
    out.push(b'\n');
    if table.version > 1 { writeln!(out, "scratch {}", table.scratch).unwrap(); }
    if let Some(costs) = &table.costs {
        out.extend_from_slice(b"costs");
        for cost in costs { write!(out, " {cost}").unwrap(); }
        out.push(b'\n');
    }
    for (r, flags) in &table.states {
        writeln!(out, "state {:08x} {:08x} {:08x} {:08x} {flags:x}", r[0], r[1], r[2], r[3]).unwrap();
    }
    for entry in &table.entries {
        out.extend_from_slice(b"entry\n");
        for instr in &entry.left { write_instr(&mut out, "left ", instr); }
        for instr in &entry.right { write_instr(&mut out, "right ", instr); }
        out.extend_from_slice(b"mask");
        for (bit, item) in ITEMS.iter().enumerate() {
            if entry.mask >> bit & 1 == 1 { write!(out, " {item}").unwrap(); }
        }
        out.extend_from_slice(b"\nproof\n");
        write_log(&mut out, &entry.proof);
        for open in &entry.opens {
            writeln!(out, "open {}", open.number).unwrap();
            write_log(&mut out, &open.log);
        }
    }
    for family in &table.families {
        writeln!(out, "family {} {} {} {}\nproof", family.entry, family.number, family.low, family.high).unwrap();
        write_log(&mut out, &family.proof);
    }
    out.extend_from_slice(b"end\n");
    out
}
