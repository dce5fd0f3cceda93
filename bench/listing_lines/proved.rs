//! Reads a listing from standard input with the proved crates, prints it to standard output and lays it out from 0.
//! Prints on standard error: the microseconds of reading and printing, those of reading, the number of lines, the microseconds of laying out, and
//! where the listing ends or why it can't be laid out; or the line and the kind of the refusal.
#![tactic(auto)]

use label_layout::{LayoutError, layout};
use listing_parser::{ListingError, parse, print};
use std::io::{Read, Write};
use std::time::Instant;

fn main(rt: HostRuntime) -> anyhow::Result<()> {
    let mut text = Vec::new(rt.alloc());
    rt.stdin().read_to_end(&mut text)?;
    let start = Instant::now(&rt)?;
    match parse(rt.alloc(), &text) {
        Ok(listing) => {
            let read = start.elapsed(&rt)?.as_micros();
            let printed = print(rt.alloc(), &listing)?;
            let all = start.elapsed(&rt)?.as_micros();
            let start = Instant::now(&rt)?;
            let laid = layout(rt.alloc(), &listing, 0);
            let laying = start.elapsed(&rt)?.as_micros();
            rt.stdout().write_all(&printed)?;
            let count = listing.lines().len();
            match laid {
                Ok(laid) => {
                    eprintln!(rt; "{all} {read} {count} {laying} {}", laid.end())?;
                }
                Err(LayoutError::Line { number, kind }) => {
                    eprintln!(rt; "{all} {read} {count} {laying} refused {number} {kind:?}")?;
                }
                Err(LayoutError::Memory) => {
                    eprintln!(rt; "{all} {read} {count} {laying} memory")?;
                }
            }
        }
        Err(ListingError::Line { number, kind }) => {
            eprintln!(rt; "refused {number} {kind:?}")?;
        }
        Err(ListingError::Memory) => {
            eprintln!(rt; "memory")?;
        }
    }
    Ok(())
}
