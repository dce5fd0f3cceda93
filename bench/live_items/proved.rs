//! Reads a listing from standard input with the proved crates, and finds its live items and its windows.
//! Prints on standard error: the microseconds of the live items, those of the windows, the number of places, of visits and of pairs, and digests.
#![tactic(auto)]

ghost use Rattle.std.specs.Prelude.{◌≡◌, ◌<◌, IfOk, IfSome};
ghost use Rattle.thumb_model.specs.Listing.{code_of};
ghost use Rattle.liveness.specs.Live.{IsLive};

use listing_parser::{Listing, parse};
use liveness::{Live, live};
use seq_enum::Pool;
use std::io::Read;
use std::marker::Brand;
use std::sync::ledger::{Blank, Ledger as Name};
use std::time::Instant;
use step_ledger::{Counted, Free, Steps};
use window_harvest::windows;

/// Computes the live items and measures the microseconds, with visits counted in contracts only, as in the program.
fn timed<N: Name>(
    rt: &HostRuntime,
    listing: &Listing,
    blank: Blank,
) -> anyhow::Result<Option<(u128, Live)>>
    requires name { blank.name ≡ N.name }
    requires parts { blank.parts ≡ N.parts }
    requires some { 0 < blank.parts }
    ensures { IfOk result (λ o. IfSome o (λ f. IsLive (code_of listing.now) f.1)) }
{
    let mut steps = Steps::new(Free::<N>::new(blank));
    let start = Instant::now(rt)?;
    match live(rt.alloc(), listing, &mut steps) {
        Err(_) => Ok(None),
        Ok(found) => {
            let finding = start.elapsed(rt)?.as_micros();
            Ok(Some((finding, found)))
        }
    }
}

fn main(rt: HostRuntime) -> anyhow::Result<()> {
    let mut text = Vec::new(rt.alloc());
    rt.stdin().read_to_end(&mut text)?;
    let Some(pool) = Pool::new(&[0, 1, 2, 4, 8, 16, 24, 31, 255]) else {
        return Ok(());
    };
    let Ok(listing) = parse(rt.alloc(), &text) else {
        eprintln!(rt; "refused")?;
        return Ok(());
    };
    let Some((finding, found)) = timed::<Brand>(&rt, &listing, Blank::new(1))? else {
        eprintln!(rt; "memory")?;
        return Ok(());
    };
    let mut steps = Steps::new(Counted::new());
    if live(rt.alloc(), &listing, &mut steps).is_err() {
        eprintln!(rt; "memory")?;
        return Ok(());
    }
    let start = Instant::now(&rt)?;
    let Ok(pairs) = windows(rt.alloc(), &listing, &found, 3, 3, &pool) else {
        eprintln!(rt; "memory")?;
        return Ok(());
    };
    let harvesting = start.elapsed(&rt)?.as_micros();
    let mut digest = 0u64;
    for place in 0..listing.place_count() {
        digest = digest
            .wrapping_mul(31)
            .wrapping_add(u64::from(found.after(place).bits));
    }
    let mut windows_digest = 0u64;
    for (seq, mask) in &pairs {
        windows_digest = windows_digest
            .wrapping_mul(31)
            .wrapping_add(u64::from(mask.items.bits))
            .wrapping_add(seq.len() as u64);
    }
    let count = listing.place_count();
    let visits = steps.ledger().count();
    eprintln!(rt; "{finding} {harvesting} {count} {visits} {digest} {} {windows_digest}", pairs.len())?;
    Ok(())
}
