//! What the two plain tidying programs share: their input, the line of a branch, and their output.

use crate::instruction::{Condition, Instr};
use crate::layout::{layout, Fault, LayoutError};
use crate::line::Statement;
use crate::listing::{parse, print, Kind, Listing, Refusal};
use std::hint::black_box;
use std::io::{self, Read, Write};
use std::time::Instant;

/// The address from which a listing is laid out, the most lines that it may have, and the most bytes of a line without its newline.
pub struct Setting {
    pub base: u32,
    pub lines: usize,
    pub longest: usize,
}

fn mnemonic(instr: Instr) -> &'static str {
    let Instr::BranchIf(condition) = instr else { return "b" };
    match condition {
        Condition::Eq => "beq",
        Condition::Ne => "bne",
        Condition::Cs => "bcs",
        Condition::Cc => "bcc",
        Condition::Mi => "bmi",
        Condition::Pl => "bpl",
        Condition::Vs => "bvs",
        Condition::Vc => "bvc",
        Condition::Hi => "bhi",
        Condition::Ls => "bls",
        Condition::Ge => "bge",
        Condition::Lt => "blt",
        Condition::Gt => "bgt",
        Condition::Le => "ble",
    }
}

/// The mnemonic of a line's branch, and the name that another line mentions.
fn words(listing: &Listing, line: u32, named: u32) -> (&'static str, &[u8]) {
    let of = |line: u32| match &listing.lines[line as usize].statement {
        Statement::Runs { instr, mention: Some(mention) } => (mnemonic(*instr), mention.name.as_slice()),
        _ => ("", [].as_slice()),
    };
    (of(line).0, of(named).1)
}

/// The line of a line's branch, redirected to what another line mentions.
pub fn own_text(listing: &Listing, line: u32, named: u32) -> Vec<u8> {
    let (mnemonic, name) = words(listing, line, named);
    [b"\t", mnemonic.as_bytes(), b" ", name, b"\n"].concat()
}

/// How many bytes that line has, without its newline.
// unused in the slow program, which counts the bytes of whole lines
#[allow(dead_code)]
pub fn own_length(listing: &Listing, line: u32, named: u32) -> usize {
    let (mnemonic, name) = words(listing, line, named);
    2 + mnemonic.len() + name.len()
}

fn instruction_count(listing: &Listing) -> usize {
    listing.lines.iter().filter(|line| matches!(line.statement, Statement::Runs { .. })).count()
}

/// The refusal of a listing that can't be laid out.
pub fn refusal(listing: &Listing, base: u32) -> Option<String> {
    match layout(listing, base) {
        Ok(_) => None,
        Err(LayoutError::Line { number, fault: Fault::Range(distance) }) => Some(format!("refused listing {number} 4 {distance}")),
        Err(LayoutError::Line { number, fault: Fault::Align(address) }) => Some(format!("refused listing {number} 5 {address}")),
        Err(LayoutError::Memory) => Some(String::from("memory")),
    }
}

fn kind_number(kind: Kind) -> u32 {
    match kind {
        Kind::Shape => 1,
        Kind::Twice => 2,
        Kind::Target => 3,
        Kind::Limit => 6,
    }
}

/// Tidies the listing on standard input, and reports the results.
pub fn run(tidied: impl FnOnce(Listing, &Setting) -> Result<(Listing, u64), String>) -> io::Result<()> {
    let numbers: Vec<usize> = std::env::args().skip(1).filter_map(|word| word.parse().ok()).collect();
    let number = |n: usize, usual: usize| numbers.get(n).copied().unwrap_or(usual);
    let setting = Setting { base: number(0, 0) as u32, lines: number(1, 262_144), longest: number(2, 1024) };
    let mut text = Vec::new();
    io::stdin().read_to_end(&mut text)?;
    let start = Instant::now();
    let listing = match parse(&text) {
        Ok(listing) => listing,
        Err(Refusal { number, kind }) => {
            eprintln!("refused listing {number} {}", kind_number(kind));
            return Ok(());
        }
    };
    let before = instruction_count(&listing);
    let begun = Instant::now();
    let (listing, changes) = match tidied(listing, &setting) {
        Ok(tidied) => black_box(tidied),
        Err(refusal) => {
            eprintln!("{refusal}");
            return Ok(());
        }
    };
    let tidying = begun.elapsed().as_micros();
    let text = black_box(print(&listing));
    let all = start.elapsed().as_micros();
    io::stdout().write_all(&text)?;
    eprintln!("{tidying} {all} {changes} {before} {}", instruction_count(&listing));
    Ok(())
}
