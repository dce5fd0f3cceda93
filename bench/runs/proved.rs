//! Runs the top call once for each line of standard input, over a store and a sink in memory, and prints the results on standard output. In Rattle;
//! faults.sh and fuzz.sh build it.
//!
//! A line is TABLE LISTING CALL PUT WORD .., separated by blanks: the contents of `t` and `l`, each an `x` and hexadecimal digits; the numbers of the store's
//! call and of the sink's put that fail, 0 for none; and the words. The answer is STATUS MICROSECONDS STEPS PRINTED, then the contents of `t`, `l`, `o` and
//! `i`: `-` for nothing, `=` for an unchanged text, else an `x` and hexadecimal digits.
#![tactic(auto)]

use audit_cli::peep;
use outer_store::{MemSink, MemStore};
use std::alloc::Global;
use std::io::{BufRead, BufReader, BufWriter, Write};
use std::time::Instant;
use step_ledger::{Counted, Steps};

/// What a line asks for.
#[derive(Drop)]
struct Run {
    table: Vec<u8>,
    listing: Vec<u8>,
    call: u64,
    put: u64,
    words: Vec<String>,
}

/// The bytes of an `x` and hexadecimal digits.
fn bytes_of(alloc: Global, field: Option<&str>) -> anyhow::Result<Vec<u8>> {
    let digits = field.and_then(|text| text.strip_prefix("x")).unwrap_or("");
    Ok(hex::decode(alloc, digits.as_bytes())?)
}

/// The number of a field.
fn number_of(field: Option<&str>) -> u64 {
    field.and_then(|text| text.parse::<u64>().ok()).unwrap_or(0)
}

/// What a line asks for.
fn run_of(alloc: Global, line: &str) -> anyhow::Result<Run> {
    let mut fields = line.split_whitespace();
    let table = bytes_of(alloc, fields.next())?;
    let listing = bytes_of(alloc, fields.next())?;
    let call = number_of(fields.next());
    let put = number_of(fields.next());
    let mut words = Vec::new(alloc);
    for word in fields {
        words.push(String::from_str(alloc, word)?)?;
    }
    Ok(Run {
        table,
        listing,
        call,
        put,
        words,
    })
}

/// The answer for a text, compared with what it was before.
fn told(alloc: Global, held: Option<&[u8]>, before: &[u8]) -> anyhow::Result<String> {
    match held {
        None => Ok(String::from_str(alloc, "-")?),
        Some(text) if text == before => Ok(String::from_str(alloc, "=")?),
        Some(text) => {
            let digits = hex::encode(alloc, text)?;
            Ok(format!(in alloc; "x{digits}")?)
        }
    }
}

/// Runs what a line asks for, and returns the answer.
fn report(rt: &HostRuntime, run: &Run) -> anyhow::Result<String> {
    let alloc = rt.alloc();
    let mut held = Vec::new(alloc);
    held.push((String::from_str(alloc, "t")?, run.table.as_slice().to_vec(alloc)?))?;
    held.push((String::from_str(alloc, "l")?, run.listing.as_slice().to_vec(alloc)?))?;
    let mut store = MemStore::new(alloc, held, [run.call].to_vec(alloc)?);
    let mut sink = MemSink::new(alloc, [run.put].to_vec(alloc)?);
    let mut steps = Steps::new(Counted::new());
    let start = Instant::now(rt)?;
    let status = peep(alloc, &run.words, &mut store, &mut sink, &mut steps);
    let time = start.elapsed(rt)?.as_micros();
    let code = status.code();
    let count = steps.ledger().count();
    let printed = hex::encode(alloc, sink.written())?;
    let table = told(alloc, store.held("t"), &run.table)?;
    let listing = told(alloc, store.held("l"), &run.listing)?;
    let out = told(alloc, store.held("o"), b"")?;
    let image = told(alloc, store.held("i"), b"")?;
    Ok(format!(in alloc; "{code} {time} {count} x{printed} {table} {listing} {out} {image}\n")?)
}

fn main(rt: HostRuntime) -> anyhow::Result<()> {
    let alloc = rt.alloc();
    let mut output = BufWriter::new(alloc, std::io::writer(&rt))?;
    for line in BufReader::new(alloc, rt.reader())?.lines(alloc) {
        let line = line?;
        let run = run_of(alloc, line.as_str())?;
        let text = report(&rt, &run)?;
        output.write_all(text.as_bytes())?;
        output.flush()?;
    }
    Ok(())
}
