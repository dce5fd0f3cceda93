//! Reads a listing from standard input in plain Rust, by the whole grammar of the proved crates, prints it to standard output and lays it out from 0.
//! Prints on standard error what the proved program prints: the microseconds of reading and printing, those of reading, the number of lines, the
//! microseconds of laying out, and where the listing ends or why it can't be laid out; or the line and the kind of the refusal.

mod instruction;
mod layout;
mod line;
mod listing;
mod operands;
mod words;

use crate::layout::{layout, LayoutError};
use crate::listing::{parse, print, Refusal};
use std::hint::black_box;
use std::io::{self, Read, Write};
use std::time::Instant;

fn main() -> io::Result<()> {
    let mut text = Vec::new();
    io::stdin().read_to_end(&mut text)?;
    let start = Instant::now();
    let listing = match parse(&text) {
        Ok(listing) => black_box(listing),
        Err(Refusal { number, kind }) => {
            eprintln!("refused {number} {kind:?}");
            return Ok(());
        }
    };
    let read = start.elapsed().as_micros();
    let printed = black_box(print(&listing));
    let all = start.elapsed().as_micros();
    let start = Instant::now();
    let laid = black_box(layout(&listing, 0));
    let laying = start.elapsed().as_micros();
    io::stdout().write_all(&printed)?;
    let count = listing.lines.len();
    match laid {
        Ok(layout) => eprintln!("{all} {read} {count} {laying} {}", layout.end),
        Err(LayoutError::Line { number, fault }) => eprintln!("{all} {read} {count} {laying} refused {number} {fault:?}"),
        Err(LayoutError::Memory) => eprintln!("{all} {read} {count} {laying} memory"),
    }
    Ok(())
}
