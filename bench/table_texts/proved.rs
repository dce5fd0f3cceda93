//! Reads a table from standard input with the proved crates and writes it back to standard output.
//! Prints on standard error: the microseconds of reading, those of writing, and the number of entries; or the refused line.
#![tactic(auto)]

use rule_table::{TableError, read_table, write_table};
use std::io::{Read, Write};
use std::time::Instant;

fn main(rt: HostRuntime) -> anyhow::Result<()> {
    let mut text = Vec::new(rt.alloc());
    rt.stdin().read_to_end(&mut text)?;
    let start = Instant::now(&rt)?;
    match read_table(rt.alloc(), &text) {
        Ok(table) => {
            let read = start.elapsed(&rt)?.as_micros();
            let start = Instant::now(&rt)?;
            let written = write_table(rt.alloc(), &table)?;
            let wrote = start.elapsed(&rt)?.as_micros();
            rt.stdout().write_all(&written)?;
            let count = table.entries.len();
            eprintln!(rt; "{read} {wrote} {count}")?;
        }
        Err(TableError::Line(line)) => {
            eprintln!(rt; "refused {line}")?;
        }
        Err(TableError::Memory) => {
            eprintln!(rt; "memory")?;
        }
    }
    Ok(())
}
