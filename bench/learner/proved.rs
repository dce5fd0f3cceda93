//! Learns a table from the windows of the listing on standard input with three registers, three instructions, the default pool and a budget of 20,000, and
//! writes it to standard output. If a cost file and an empty line precede the listing, the table is learnt with these costs, from windows of at most two
//! instructions. Prints on standard error the milliseconds of learning and the number of windows. In Rattle; learner.sh builds it.
#![tactic(auto)]

ghost use Rattle.std.specs.Prelude.{IfOk, map, ◌≤◌, length};
ghost use Rattle.table_learn.specs.Given.{settings_of, AreInLimits};
ghost use Rattle.window_harvest.specs.Harvest.{AreHarvest, pair_of};
ghost use Rattle.audit_cli.specs.Learn.{limits_of};

use listing_parser::{Listing, parse};
use liveness::live;
use rule_table::{LearnOptions, write_table};
use seq_enum::{Costs, Pool, read_costs};
use std::alloc::Global;
use std::io::{Read, Write};
use std::time::Instant;
use step_ledger::{Counted, Ledger, Steps};
use table_learn::{Settings, learn};
use thumb_instr::{Mask, Seq, Within};
use window_harvest::windows;

fn harvest<L: Ledger>(
    alloc: Global,
    listing: &Listing,
    settings: &Settings,
    steps: &mut Steps<L>,
) -> Result<Vec<(Seq, Mask)>, listing_parser::Memory>
    requires { AreInLimits (settings_of settings.now) }
    ensures { IfOk result (λ pairs. AreHarvest (limits_of (settings_of settings.now)) listing.now (map pair_of pairs.items)) }
{
    let live = live(alloc, listing, steps)?;
    windows(alloc, listing, &live, settings.regs, settings.left, &settings.pool)
}

/// Learns and prints the time.
fn timed<L: Ledger>(
    rt: &HostRuntime,
    listing: &Listing,
    settings: Settings,
    steps: &mut Steps<L>,
) -> anyhow::Result<()>
    requires { AreInLimits (settings_of settings) }
{
    let alloc = rt.alloc();
    let Ok(windows) = harvest(alloc, listing, &settings, steps) else {
        eprintln!(rt; "memory")?;
        return Ok(());
    };
    let count = windows.len();
    let start = Instant::now(rt)?;
    match learn(alloc, windows, settings, steps) {
        Err(error) => eprintln!(rt; "{error}")?,
        Ok(table) => {
            let milliseconds = start.elapsed(rt)?.as_millis();
            rt.stdout().write_all(&write_table(alloc, &table)?)?;
            eprintln!(rt; "{milliseconds} {count}")?;
        }
    }
    Ok(())
}

/// The length in bytes of the cost file before an empty line and a listing; 0 if there is only the listing.
fn end_of_costs(text: &[u8]) -> usize
    ensures { result ≤ length text.now }
{
    if let [b'c', b'o', b's', b't', b's', b' ', ..] = text {
        for at in 0..text.len() {
            if let [b'\n', b'\n', ..] = &text[at..] {
                return text.len().min(at + 1);
            }
        }
    }
    0
}

/// The settings with costs, or without them.
fn settings(pool: Pool, costs: Option<Costs>) -> Settings
    ensures { AreInLimits (settings_of result) }
{
    let left = match costs {
        None => Within::of(3),
        Some(_) => Within::of(2),
    };
    let options = LearnOptions { regs: Within::of(3), left, budget: Within::of(20_000), seed: 42, scratch: Within::of(0), pool };
    options.header(costs)
}

fn main(rt: HostRuntime) -> anyhow::Result<()> {
    let mut text = Vec::new(rt.alloc());
    rt.stdin().read_to_end(&mut text)?;
    let Some(pool) = Pool::new(&[0, 1, 2, 4, 8, 16, 24, 31, 255]) else {
        return Ok(());
    };
    let (costs, listing) = text.split_at(end_of_costs(&text));
    let costs = if costs.is_empty() {
        None
    } else {
        Some(read_costs(costs)?)
    };
    let Ok(listing) = parse(rt.alloc(), listing) else {
        eprintln!(rt; "refused")?;
        return Ok(());
    };
    timed(
        &rt,
        &listing,
        settings(pool, costs),
        &mut Steps::new(Counted::new()),
    )
}
