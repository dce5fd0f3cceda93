//! Reads a listing from standard input in plain Rust, assembles it from 0, or from 0x8000000 with an argument, and writes its image to standard
//! output.
//! Prints on standard error what the proved program prints.

#[path = "../listing_lines/plain/instruction.rs"]
mod instruction;
#[path = "../listing_lines/plain/layout.rs"]
mod layout;
#[path = "../listing_lines/plain/line.rs"]
mod line;
#[path = "../listing_lines/plain/listing.rs"]
mod listing;
#[path = "../listing_lines/plain/operands.rs"]
mod operands;
#[path = "../listing_lines/plain/words.rs"]
mod words;

use crate::instruction::{Access, Barrier, ByteOperation, Extension, Instr, Interrupts, Reversal, Right, Special, Sum};
use crate::layout::{layout, Layout};
use crate::line::{Mention, Statement, Value};
use crate::listing::{parse, Listing, Meaning};
use std::hint::black_box;
use std::io::{self, Read, Write};
use std::time::Instant;

fn fields(parts: &[(u32, u32)]) -> u32 {
    parts.iter().fold(0, |code, (width, value)| code << width | value)
}

/// A head followed by low registers.
fn low(head: u32, operands: &[u8]) -> u32 {
    operands.iter().fold(head, |code, operand| code << 3 | *operand as u32)
}

fn split(head: u32, target: u8, source: u8) -> u32 {
    fields(&[(8, head), (1, target as u32 / 8), (4, source as u32), (3, target as u32 % 8)])
}

/// Half of a distance in `width` bits.
fn halved(width: u32, distance: i64) -> u32 {
    (distance >> 1) as u32 & ((1 << width) - 1)
}

fn call(distance: i64) -> u32 {
    let half = halved(24, distance);
    let sign = half >> 23;
    let one = !((half >> 22) ^ sign) & 1;
    let two = !((half >> 21) ^ sign) & 1;
    fields(&[(5, 30), (1, sign), (10, half >> 11 & 1023), (2, 3), (1, one), (1, 1), (1, two), (11, half & 2047)])
}

/// The code of an instruction at an address, when what it mentions is at another.
fn encode(instr: Instr, at: u32, to: u32) -> u32 {
    let distance = to as i64 - (at as i64 + 4);
    let words = (to.wrapping_sub((at + 4) & !3) / 4) & 255;
    match instr {
        Instr::Movs { target, source } => low(0, &[source, target]),
        Instr::ShiftLeft { target, source, amount } => low(amount as u32, &[source, target]),
        Instr::ShiftRight { shift, target, source, amount } => {
            let head = match shift { Right::Lsr => 1, Right::Asr => 2 };
            low(head << 5 | amount as u32 % 32, &[source, target])
        }
        Instr::Three { sum, target, left, right } => low(12 | minus(sum), &[right, left, target]),
        Instr::ThreeNumber { sum, target, source, number } => low(14 | minus(sum), &[number, source, target]),
        Instr::TwoNumber { operation, target, number } => {
            let head = match operation { ByteOperation::Mov => 4, ByteOperation::Cmp => 5, ByteOperation::Add => 6, ByteOperation::Sub => 7 };
            low(head, &[target]) << 8 | number as u32
        }
        Instr::Two { operation, target, other } => low(256 | operation as u32, &[other, target]),
        Instr::Add { target, source } => split(68, target, source),
        Instr::Compare { left, right } => split(69, left, right),
        Instr::Mov { target, source } => split(70, target, source),
        Instr::Bx { source } => 0x4700 | (source as u32) << 3,
        Instr::Blx { source } => 0x4780 | (source as u32) << 3,
        Instr::Literal { target } => low(9, &[target]) << 8 | words,
        Instr::Indexed { access, target, base, index } => low(40 | access as u32, &[index, base, target]),
        Instr::Offset { access, target, base, offset } => low(offset_head(access) << 5 | offset as u32, &[base, target]),
        Instr::Stack { access, target, offset } => low(if matches!(access, Access::Str) { 18 } else { 19 }, &[target]) << 8 | offset as u32,
        Instr::Address { target } => low(20, &[target]) << 8 | words,
        Instr::StackAddress { target, offset } => low(21, &[target]) << 8 | offset as u32,
        Instr::StackMove { sum, offset } => (352 | minus(sum)) << 7 | offset as u32,
        Instr::Extend { extension, target, source } => {
            let head = match extension { Extension::Sxth => 0, Extension::Sxtb => 1, Extension::Uxth => 2, Extension::Uxtb => 3 };
            low(0x2c8 | head, &[source, target])
        }
        Instr::Reverse { reversal, target, source } => {
            let head = match reversal { Reversal::Rev => 0, Reversal::Rev16 => 1, Reversal::Revsh => 3 };
            low(0x2e8 | head, &[source, target])
        }
        Instr::Push { list } => 0xb400 | list as u32,
        Instr::Pop { list } => 0xbc00 | list as u32,
        Instr::StoreMany { base, list } => low(24, &[base]) << 8 | list as u32,
        Instr::LoadMany { base, list } => low(25, &[base]) << 8 | list as u32,
        Instr::Breakpoint { number } => 0xbe00 | number as u32,
        Instr::Service { number } => 0xdf00 | number as u32,
        Instr::Hint(hint) => 0xbf00 | (hint as u32) << 4,
        Instr::ChangeState(interrupts) => match interrupts { Interrupts::Enable => 0xb662, Interrupts::Disable => 0xb672 },
        Instr::BranchIf(condition) => 0xd000 | (condition as u32) << 8 | halved(8, distance),
        Instr::Branch => 0xe000 | halved(11, distance),
        Instr::Call => call(distance),
        Instr::Barrier(barrier) => 0xf3bf_8f0f | match barrier { Barrier::Dsb => 4, Barrier::Dmb => 5, Barrier::Isb => 6 } << 4,
        Instr::ReadSpecial { target, special } => 0xf3ef_8000 | (target as u32) << 8 | match special { Special::Primask => 16, Special::Ipsr => 5 },
        Instr::WriteMask { source } => 0xf380_8810 | (source as u32) << 16,
    }
}

fn minus(sum: Sum) -> u32 {
    match sum { Sum::Add => 0, Sum::Sub => 1 }
}

fn offset_head(access: Access) -> u32 {
    match access {
        Access::Str => 12,
        Access::Ldr => 13,
        Access::Strb => 14,
        Access::Ldrb => 15,
        Access::Strh => 16,
        _ => 17,
    }
}

/// The word of a name: for code with bit 0 set.
fn word(listing: &Listing, laid: &Layout, name: &[u8]) -> Option<u32> {
    match listing.names.get(name)? {
        Meaning::Address(address) => Some(*address),
        Meaning::Label(line) => {
            let address = laid.labels[name];
            let code = listing.spots.get(listing.passed[*line] as usize).is_some_and(|(line, _)| matches!(listing.lines[*line as usize].statement, Statement::Runs { .. }));
            Some(address + code as u32)
        }
    }
}

fn put(bytes: &mut Vec<u8>, base: u32, instr: Instr, to: u32) {
    let code = encode(instr, base + bytes.len() as u32, to);
    match instr {
        Instr::Call | Instr::Barrier(_) | Instr::ReadSpecial { .. } | Instr::WriteMask { .. } => {
            bytes.extend_from_slice(&((code >> 16) as u16).to_le_bytes());
            bytes.extend_from_slice(&(code as u16).to_le_bytes());
        }
        _ => bytes.extend_from_slice(&(code as u16).to_le_bytes()),
    }
}

/// The image, or the number of the first line that can't be placed in one.
fn assemble(listing: &Listing, laid: &Layout, base: u32) -> Result<Vec<u8>, usize> {
    let mut bytes = Vec::with_capacity((laid.end - base) as usize);
    for (n, line) in listing.lines.iter().enumerate() {
        match &line.statement {
            Statement::Nothing => {}
            Statement::Runs { instr, mention: None } => put(&mut bytes, base, *instr, 0),
            Statement::Runs { instr, mention: Some(Mention { name, plus }) } => {
                let to = match laid.labels.get(name.as_slice()) {
                    Some(to) => *to,
                    None => word(listing, laid, name).ok_or(n + 1)? & !1,
                };
                put(&mut bytes, base, *instr, to + plus);
            }
            Statement::Words(values) => {
                for value in values {
                    let word = match value {
                        Value::Number(number) => *number,
                        Value::OfName(Mention { name, plus }) => word(listing, laid, name).ok_or(n + 1)?.wrapping_add(*plus),
                    };
                    bytes.extend_from_slice(&word.to_le_bytes());
                }
            }
            Statement::Aligns { size, most } => {
                let at = base + bytes.len() as u32;
                let need = at.next_multiple_of(*size) - at;
                if need <= *most {
                    for _ in 0..need / 2 {
                        bytes.extend_from_slice(&[0, 0xbf]);
                    }
                }
            }
            Statement::Sets { address, .. } => {
                if (base..laid.end).contains(address) {
                    return Err(n + 1);
                }
            }
        }
    }
    Ok(bytes)
}

fn main() -> io::Result<()> {
    let mut text = Vec::new();
    io::stdin().read_to_end(&mut text)?;
    let base = if std::env::args().len() > 1 { 0x0800_0000 } else { 0 };
    let start = Instant::now();
    let Ok(listing) = parse(&text) else {
        eprintln!("refused");
        return Ok(());
    };
    let Ok(laid) = layout(&listing, base) else {
        eprintln!("refused");
        return Ok(());
    };
    let begun = Instant::now();
    match black_box(assemble(&listing, &laid, base)) {
        Err(line) => eprintln!("refused {line}"),
        Ok(image) => {
            let assembling = begun.elapsed().as_micros();
            let all = start.elapsed().as_micros();
            io::stdout().write_all(&image)?;
            eprintln!("{assembling} {all} {}", listing.lines.len());
        }
    }
    Ok(())
}
