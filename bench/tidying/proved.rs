//! Tidies the listing on standard input and writes it to standard output. Prints on standard error the microseconds of tidying, those of reading,
//! tidying and printing, how many changes there were, and how many instructions there were before and after; or why it is refused. In Rattle; tidying.sh builds it.
#![tactic(auto)]

use flow_tidy::{Tidy, tidy};
use listing_parser::{ListingLine, Statement, parse, print};
use std::io::{Read, Write};
use std::time::Instant;
use step_ledger::{Counted, Ledger, Steps};

/// How many lines have an instruction.
fn instruction_count(lines: &[ListingLine]) -> u64 {
    let mut count = 0u64;
    for line in lines {
        if let Statement::Instruction { .. } = &line.statement {
            count = count.wrapping_add(1);
        }
    }
    count
}

/// Tidies the listing of a text.
fn tidied<L: Ledger>(rt: &HostRuntime, text: &[u8], steps: &mut Steps<L>) -> anyhow::Result<()> {
    let alloc = rt.alloc();
    let start = Instant::now(rt)?;
    let listing = match parse(alloc, text) {
        Ok(listing) => listing,
        Err(error) => {
            eprintln!(rt; "refused {error}")?;
            return Ok(());
        }
    };
    let parsing = start.elapsed(rt)?.as_micros();
    let before = instruction_count(listing.lines());
    let start = Instant::now(rt)?;
    match tidy(alloc, listing, 0, steps) {
        Err(error) => eprintln!(rt; "refused {error}")?,
        Ok(Tidy { listing, changes }) => {
            let tidying = start.elapsed(rt)?.as_micros();
            let printed = print(alloc, &listing)?;
            let rest = start.elapsed(rt)?.as_micros();
            let whole = parsing.saturating_add(rest);
            rt.stdout().write_all(&printed)?;
            let after = instruction_count(listing.lines());
            eprintln!(rt; "{tidying} {whole} {changes} {before} {after}")?;
        }
    }
    Ok(())
}

fn main(rt: HostRuntime) -> anyhow::Result<()> {
    let mut text = Vec::new(rt.alloc());
    rt.stdin().read_to_end(&mut text)?;
    tidied(&rt, &text, &mut Steps::new(Counted::new()))
}
