//! The sequences that cost less than a limit, by the proved crate. In Rattle; cheaper.sh builds it.
#![tactic(auto)]

use seq_enum::{Pool, cheaper, read_costs};
use std::time::Instant;

/// A digest of the numbers.
fn digest(numbers: &[u64]) -> u64 {
    let mut sum = 0u64;
    for number in numbers {
        sum = sum.rotate_left(5) ^ *number;
    }
    sum
}

fn main(rt: HostRuntime) -> anyhow::Result<()> {
    let Some(pool) = Pool::new(&[3, 24]) else {
        return Ok(());
    };
    let Ok(costs) = read_costs(b"costs 1\nmuls 32\nmovs 2\nadds 3\nadd 5\nrev 7\n") else {
        return Ok(());
    };
    let start = Instant::now(&rt)?;
    let numbers = cheaper(rt.alloc(), 2, &pool, &costs, 3, 36)?;
    eprintln!(rt; "{} ms", start.elapsed(&rt)?.as_millis())?;
    println!(rt; "{} {:016x}", numbers.len(), digest(&numbers))?;
    Ok(())
}
