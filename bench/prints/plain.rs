//! Times the same index in plain Rust: eight states side by side, along the tree of prefixes; or with the word `single`, one state after the other.

#[path = "../plain_lanes.rs"]
mod plain_lanes;
#[path = "../plain_alphabet.rs"]
mod plain_alphabet;
#[path = "../plain_steps.rs"]
mod plain_steps;

use plain_lanes::{columns_of, index, prints_within};
use plain_alphabet::{alphabet, seeded};
use plain_steps::{Instr, Mask, WState, step};
use std::time::Instant;

const POOL: [u32; 9] = [0, 1, 2, 4, 8, 16, 24, 31, 255];

fn mixed(print: u64, word: u32) -> u64 {
    (print.rotate_left(5) ^ u64::from(word)).wrapping_mul(0x9E37_79B9_7F4A_7C15)
}

/// The print of states under the mask of r0 to r2 and the flags.
fn print_in(states: &[WState]) -> u64 {
    states.iter().fold(0, |print, state| {
        let print = state.r[..3].iter().fold(print, |print, word| mixed(print, *word));
        mixed(print, u32::from(state.nzcv))
    })
}

fn print_length(instrs: &[Instr], states: &[WState], length: u32, prints: &mut Vec<u64>) {
    if length == 0 {
        prints.push(print_in(states));
        return;
    }
    for instr in instrs {
        let mut after = [states[0]; 64];
        for (after, state) in after.iter_mut().zip(states) {
            *after = step(instr, *state);
        }
        print_length(instrs, &after, length - 1, prints);
    }
}

fn single_prints(instrs: &[Instr], states: &[WState]) -> Vec<u64> {
    let mut prints = Vec::new();
    for length in 0..=2 {
        print_length(instrs, states, length, &mut prints);
    }
    prints
}

fn main() {
    let states = seeded(42);
    let instrs = alphabet(3, &POOL);
    let mask = Mask { registers: [true, true, true, false], nzcv: 15 };
    let start = Instant::now();
    let prints = match std::env::args().nth(1) {
        Some(_) => single_prints(&instrs, &states),
        None => prints_within(&instrs, &columns_of(&states), mask, 2),
    };
    let pairs = index(&prints);
    let milliseconds = start.elapsed().as_millis();
    let total = pairs.iter().fold(0u64, |total, (print, number)| total.rotate_left(1) ^ print ^ number);
    println!("{} {total}", pairs.len());
    eprintln!("{milliseconds}");
}
