//! Audits the table on standard input, and prints on standard error the microseconds of auditing and those of reading. In Rattle; audit.sh builds it.
#![tactic(auto)]

use rule_table::read_table;
use std::io::Read;
use std::time::Instant;
use step_ledger::{Counted, Steps};
use table_audit::{AuditError, audit};

fn main(rt: HostRuntime) -> anyhow::Result<()> {
    let mut text = Vec::new(rt.alloc());
    rt.stdin().read_to_end(&mut text)?;
    let start = Instant::now(&rt)?;
    let table = read_table(rt.alloc(), &text)?;
    let reading = start.elapsed(&rt)?.as_micros();
    let start = Instant::now(&rt)?;
    let mut steps = Steps::new(Counted::new());
    let outcome = audit(rt.alloc(), table, &mut steps);
    let auditing = start.elapsed(&rt)?.as_micros();
    match outcome {
        Ok(audited) => println!(rt; "entries {}", audited.table().entries.len())?,
        Err(AuditError::Memory) => println!(rt; "memory")?,
        Err(error) => println!(rt; "{error}")?,
    }
    eprintln!(rt; "{auditing} {reading}")?;
    Ok(())
}
