//! Times the proved index of the prints of all sequences of at most two instructions over r0 to r2. In Rattle; prints.sh builds it.
#![tactic(auto)]

use fingerprints::{Index, seeded};
use seq_enum::Pool;
use std::time::Instant;
use thumb_instr::items::{C, N, V, Z};
use thumb_instr::{Items, Mask};

fn main(rt: HostRuntime) -> anyhow::Result<()> {
    let alloc = rt.alloc();
    let states = seeded(alloc, 42)?;
    let Some(pool) = Pool::new(&[0, 1, 2, 4, 8, 16, 24, 31, 255]) else {
        return Ok(());
    };
    let mask = Mask::of(Items::of(&[0, 1, 2, N, Z, C, V]));
    let start = Instant::now(&rt)?;
    let index = Index::build(alloc, 3, &pool, 2, &states, mask)?;
    let milliseconds = start.elapsed(&rt)?.as_millis();
    let mut total = 0u64;
    for (print, number) in index.pairs() {
        total = total.rotate_left(1) ^ *print ^ *number;
    }
    println!(rt; "{} {total}", index.pairs().len())?;
    eprintln!(rt; "{milliseconds}")?;
    Ok(())
}
