//! The entries and families of a table by their left sides, and the rewritten listing, in plain Rust, shared by the plain programs that rewrite.

// not every program needs all of it
#![allow(dead_code)]

use crate::instruction::instruction;
use crate::line::{line, Line, Statement};
use crate::listing::Listing;
use crate::plain_flows::{shape, N};
use crate::plain_tables::{self, write_instr, Entry, Table};
use crate::plain_windows::{window_instr, Naming, WindowInstr};
use std::collections::HashMap;
use std::hash::{BuildHasherDefault, Hasher};

/// The most instructions of a left side.
pub const LONGEST: usize = 5;

/// An instruction as a part of keys: never 0.
fn code(instr: &WindowInstr) -> u128 {
    let [a, b, c] = instr.registers.map(u128::from);
    u128::from(instr.form) + 1 | a << 6 | b << 8 | c << 10 | u128::from(instr.number) << 12
}

/// A key with one more instruction.
pub fn longer(key: u128, instr: &WindowInstr) -> u128 {
    key << 20 | code(instr)
}

#[derive(Default)]
pub struct Mixed(u64);

impl Hasher for Mixed {
    fn write(&mut self, _: &[u8]) {
        unreachable!();
    }

    fn write_u128(&mut self, key: u128) {
        let mixed = (key as u64 ^ ((key >> 64) as u64).rotate_left(29)).wrapping_mul(0x9E37_79B9_7F4A_7C15);
        self.0 = mixed ^ mixed >> 32;
    }

    fn finish(&self) -> u64 {
        self.0
    }
}

/// An entry whose right side is lighter: shorter, or cheaper if the table has costs.
#[derive(Clone)]
pub struct Rule {
    /// The right side's instructions, each with the items that it reads and writes.
    pub right: Vec<(WindowInstr, u32, u32)>,
    /// The registers that its left side names and that aren't in its mask, and the flags that aren't in its mask.
    pub dead: u32,
    /// Whether its right side names one more register.
    pub needs_scratch: bool,
}

/// An instruction with an 8-bit number, with another number.
pub fn with_byte(instr: &WindowInstr, number: u8) -> WindowInstr {
    if (4..=7).contains(&instr.form) { WindowInstr { number, ..*instr } } else { *instr }
}

/// A family of such an entry: the entry's rule, and the places of its number in the left side.
pub struct Family {
    pub rule: Rule,
    left: Vec<WindowInstr>,
    hole: usize,
    number: u8,
    low: u32,
    high: u32,
}

impl Family {
    /// An instruction with a value in its hole.
    fn filled(&self, instr: &WindowInstr, value: u8) -> WindowInstr {
        if instr.number == self.number { with_byte(instr, value) } else { *instr }
    }

    /// The rule of the value for which the left side is a window, if there is one.
    pub fn instance(&self, window: &[WindowInstr]) -> Option<Rule> {
        let value = window[self.hole].number;
        let is_left = |(own, there): (&WindowInstr, &WindowInstr)| self.filled(own, value).number == there.number;
        if u32::from(value) < self.low || u32::from(value) > self.high || !self.left.iter().zip(window).all(is_left) {
            return None;
        }
        let right = self.rule.right.iter().map(|(instr, uses, writes)| (self.filled(instr, value), *uses, *writes)).collect();
        Some(Rule { right, ..self.rule })
    }
}

/// The entries of a table by the keys of their left sides, in order for each key. An entry that applies only where an earlier one does is left out. The
/// families by the keys of their left sides with 0 in place of each 8-bit number.
pub struct Rules {
    pub by_left: HashMap<u128, Vec<Rule>, BuildHasherDefault<Mixed>>,
    pub by_blinded: HashMap<u128, Vec<Family>, BuildHasherDefault<Mixed>>,
    pub longest: usize,
}

/// A side's instructions, each with the items that it reads and writes.
fn instrs_of(side: &[plain_tables::Instr]) -> Vec<(WindowInstr, u32, u32)> {
    let made = |instr| {
        let mut text = Vec::new();
        write_instr(&mut text, "", instr);
        let (instr, _) = instruction(text.trim_ascii_end()).unwrap();
        let (uses, writes) = shape(&instr);
        (window_instr(&instr).unwrap(), uses, writes)
    };
    side.iter().map(made).collect()
}

/// Items with the registers in place of the names r0 to r3.
pub fn under(order: &[u8; 8], items: u32) -> u32 {
    (0..4).filter(|name| items >> name & 1 == 1).fold(items & !0xf, |all, name| all | 1 << order[name])
}

/// An entry's rule, and its left side with renamed registers.
fn rule_of(entry: &Entry) -> (Rule, Vec<WindowInstr>) {
    let mut naming = Naming::new();
    let left: Vec<WindowInstr> = instrs_of(&entry.left).iter().map(|(instr, ..)| naming.named(instr)).collect();
    let dead_registers = !entry.mask & ((1 << naming.count) - 1);
    let dead = u32::from(dead_registers) | u32::from(!entry.mask >> 4) * N;
    let right = instrs_of(&entry.right);
    let named = 1u32.checked_shl(u32::from(naming.count)).map_or(0, |end| !(end - 1) & 0xf);
    let needs_scratch = right.iter().any(|(_, uses, writes)| (uses | writes) & named != 0);
    (Rule { right, dead, needs_scratch }, left)
}

impl Rules {
    pub fn of(table: &Table) -> Rules {
        let mut rules = Rules { by_left: HashMap::default(), by_blinded: HashMap::default(), longest: 0 };
        let is_lighter = |entry: &Entry| table.weight(&entry.right) < table.weight(&entry.left);
        for entry in table.entries.iter().filter(|entry| is_lighter(entry)) {
            let (rule, left) = rule_of(entry);
            let alike = rules.by_left.entry(left.iter().fold(0, longer)).or_default();
            let leads = |led: &Rule| led.dead == rule.dead && led.right.len() == rule.right.len() && (rule.needs_scratch || !led.needs_scratch);
            if !alike.iter().any(leads) {
                alike.push(rule);
            }
            rules.longest = rules.longest.max(left.len());
        }
        for raised in &table.families {
            let entry = &table.entries[raised.entry as usize - 1];
            if is_lighter(entry) {
                let (rule, left) = rule_of(entry);
                let number = raised.number as u8;
                let hole = left.iter().position(|instr| (4..=7).contains(&instr.form) && instr.number == number).expect("a hole");
                let key = left.iter().fold(0, |key, instr| longer(key, &with_byte(instr, 0)));
                let family = Family { rule, left, hole, number, low: raised.low, high: raised.high };
                rules.by_blinded.entry(key).or_default().push(family);
            }
        }
        rules
    }
}

/// The line of a text that is one line.
fn line_of(text: &[u8]) -> Line {
    line(text).expect("a line")
}

/// The listing of the remaining lines of the given one, by the kept places, in order: the instruction at each, and the line of the window from which it comes.
pub fn left_of(given: Listing, kept: impl Iterator<Item = (u32, Option<WindowInstr>)>, is_changed: &[bool]) -> Listing {
    let mut lines = Vec::with_capacity(given.lines.len());
    let mut kept = kept.peekable();
    for (n, line) in given.lines.into_iter().enumerate() {
        let is_changed = is_changed[n];
        if !is_changed {
            lines.push(line);
        } else if !line.names.is_empty() {
            let mut text = line.text;
            text.truncate(line.front);
            text.push(b'\n');
            lines.push(Line { text, statement: Statement::Nothing, ..line });
        }
        while let Some((_, instr)) = kept.next_if(|(home, _)| *home == n as u32) {
            if let (Some(instr), true) = (instr, is_changed) {
                let mut text = vec![b'\t'];
                instr.write(&mut text);
                text.push(b'\n');
                lines.push(line_of(&text));
            }
        }
    }
    Listing::of(lines).unwrap_or_else(|_| unreachable!())
}

/// How many lines have an instruction.
pub fn instruction_count(listing: &Listing) -> usize {
    listing.lines.iter().filter(|line| matches!(line.statement, Statement::Runs { .. })).count()
}

/// The text of the table, up to its last line, and the rest.
pub fn parted(text: &[u8]) -> (&[u8], &[u8]) {
    let last = b"\nend\n";
    let end = text.windows(last.len()).position(|bytes| bytes == last).map_or(text.len(), |at| at + last.len());
    text.split_at(end)
}
