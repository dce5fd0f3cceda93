//! What instructions of windows cost, by their mnemonics, in plain Rust, shared by the plain programs of the measures.
// not every program needs all of it
#![allow(dead_code)]

/// The mnemonics of instructions of windows, in the order of a table's costs.
pub const MNEMONICS: [&str; 28] = [
    "adds", "subs", "movs", "cmp", "lsls", "lsrs", "asrs", "ands", "eors", "adcs", "sbcs", "rors", "tst", "rsbs", "cmn", "orrs", "muls", "bics", "mvns", "mov",
    "add", "sxth", "sxtb", "uxth", "uxtb", "rev", "rev16", "revsh",
];

/// A number for each mnemonic, 1 to 64.
pub type Costs = [u8; MNEMONICS.len()];

/// The cost of an instruction, by its canonical text; 1 without costs.
pub fn cost_of(costs: Option<&Costs>, text: &str) -> u32 {
    let mnemonic = text.split(' ').next();
    let place = MNEMONICS.iter().position(|name| Some(*name) == mnemonic).expect("an instruction of a window");
    costs.map_or(1, |costs| u32::from(costs[place]))
}
