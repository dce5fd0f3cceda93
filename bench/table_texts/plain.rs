//! Tables in plain Rust, for a comparison of speed: reads a table from standard input and writes it back to standard output.
//! Prints on standard error what the proved program prints.

#[path = "../plain_costs.rs"]
mod plain_costs;
#[path = "../plain_tables.rs"]
mod plain_tables;

use plain_tables::{read_table, write_table};
use std::io::{self, Read, Write};
use std::time::Instant;

fn main() -> io::Result<()> {
    let mut text = Vec::new();
    io::stdin().read_to_end(&mut text)?;
    let start = Instant::now();
    match read_table(&text) {
        Ok(table) => {
            let read = start.elapsed().as_micros();
            let start = Instant::now();
            let written = write_table(&table);
            let wrote = start.elapsed().as_micros();
            io::stdout().write_all(&written)?;
            eprintln!("{read} {wrote} {}", table.entries.len());
        }
        Err(line) => eprintln!("refused {line}"),
    }
    Ok(())
}
