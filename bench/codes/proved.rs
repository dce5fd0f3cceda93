//! Decodes all first halfwords and encodes them again with the proved crates. In Rattle; codes.sh appends sum.rs and builds it.
#![tactic(auto)]

use std::io;
use thumb_table::{Code, decode, encode};

fn main(rt: HostRuntime) -> io::Result<()> {
    let sum = sum_of_codes();
    println!(rt; "{sum}")?;
    Ok(())
}
