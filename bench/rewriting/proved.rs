//! Rewrites a listing by a table. Standard input has the table, which is audited, followed by the listing; the new listing goes to standard output. Prints on
//! standard error: the microseconds of rewriting, those of reading both, rewriting and printing, how many windows were replaced,
//! and how many instructions there were before and after. In Rattle; rewriting.sh builds it.
#![tactic(auto)]

ghost use Rattle.std.specs.Prelude.{◌≤◌, length};

use listing_parser::{ListingLine, Statement, parse, print};
use rule_table::read_table;
use std::io::{Read, Write};
use std::time::Instant;
use step_ledger::{Counted, Ledger, Steps};
use table_audit::{Audited, audit};
use window_rewrite::{Rewritten, rewrite};

/// The length of the table in bytes.
fn end_of_table(text: &[u8]) -> usize
    ensures { result ≤ length text.now }
{
    for at in 0..text.len() {
        if let [b'\n', b'e', b'n', b'd', b'\n', ..] = &text[at..] {
            return text.len().min(at + 5);
        }
    }
    text.len()
}

/// How many lines have an instruction.
fn instruction_count(lines: &[ListingLine]) -> u64 {
    let mut count = 0u64;
    for line in lines {
        if let Statement::Instruction { .. } = &line.statement {
            count = count.wrapping_add(1);
        }
    }
    count
}

/// Rewrites the listing of a text by an audited table, which was read in the given microseconds.
fn rewriting<L: Ledger>(
    rt: &HostRuntime,
    table: &Audited,
    text: &[u8],
    reading: u128,
    steps: &mut Steps<L>,
) -> anyhow::Result<()> {
    let alloc = rt.alloc();
    let start = Instant::now(rt)?;
    let listing = match parse(alloc, text) {
        Ok(listing) => listing,
        Err(error) => {
            eprintln!(rt; "refused {error}")?;
            return Ok(());
        }
    };
    let parsing = start.elapsed(rt)?.as_micros();
    let before = instruction_count(listing.lines());
    let start = Instant::now(rt)?;
    match rewrite(alloc, table, listing, 0, steps) {
        Err(error) => eprintln!(rt; "refused {error}")?,
        Ok(
            Rewritten {
                listing,
                replacements,
            },
        ) => {
            let rewriting = start.elapsed(rt)?.as_micros();
            let printed = print(alloc, &listing)?;
            let rest = start.elapsed(rt)?.as_micros();
            let all = reading.saturating_add(parsing).saturating_add(rest);
            rt.stdout().write_all(&printed)?;
            let after = instruction_count(listing.lines());
            eprintln!(rt; "{rewriting} {all} {} {before} {after}", replacements.len())?;
        }
    }
    Ok(())
}

/// Reads and audits the table, and rewrites the listing by it.
fn audited<L: Ledger>(
    rt: &HostRuntime,
    table: &[u8],
    listing: &[u8],
    steps: &mut Steps<L>,
) -> anyhow::Result<()> {
    let start = Instant::now(rt)?;
    let table = read_table(rt.alloc(), table)?;
    let reading = start.elapsed(rt)?.as_micros();
    match audit(rt.alloc(), table, steps) {
        Err(error) => eprintln!(rt; "refused {error}")?,
        Ok(audited) => rewriting(rt, &audited, listing, reading, steps)?,
    }
    Ok(())
}

fn main(rt: HostRuntime) -> anyhow::Result<()> {
    let mut text = Vec::new(rt.alloc());
    rt.stdin().read_to_end(&mut text)?;
    let (table, listing) = text.split_at(end_of_table(&text));
    audited(&rt, table, listing, &mut Steps::new(Counted::new()))
}
