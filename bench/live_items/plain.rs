//! Reads a listing from standard input in plain Rust, and finds its live items and its windows by the rules of the proved crates.
//! Prints on standard error what the proved program prints. With an argument it prints the windows as a table of entries without right sides. The settings may
//! follow the argument: registers, instructions, budget, and the pool's numbers joined by commas.

#[path = "../listing_lines/plain/instruction.rs"]
mod instruction;
#[path = "../listing_lines/plain/line.rs"]
mod line;
#[path = "../listing_lines/plain/listing.rs"]
mod listing;
#[path = "../listing_lines/plain/operands.rs"]
mod operands;
#[path = "../plain_flows.rs"]
mod plain_flows;
#[path = "../plain_windows.rs"]
mod plain_windows;
#[path = "../listing_lines/plain/words.rs"]
mod words;

use crate::listing::{parse, Listing};
use crate::plain_flows::{Flows, C, N, V, Z};
use crate::plain_windows::{rows, Naming, WindowInstr};
use std::collections::HashSet;
use std::hint::black_box;
use std::io::{self, Read};
use std::time::Instant;

/// Whether an instruction's numbers are in the pool.
fn is_over(instr: &WindowInstr, pool: &[u8]) -> bool {
    match instr.form {
        2..=7 | 9 | 10 => pool.contains(&instr.number),
        8 => pool.contains(&instr.number) && instr.number < 32,
        _ => true,
    }
}

type Window = ([Option<WindowInstr>; 5], u32);

fn canonical(window: &[WindowInstr], live: u32, regs: usize, pool: &[u8]) -> Option<Window> {
    let mut naming = Naming::new();
    let mut instrs = [None; 5];
    for (n, instr) in window.iter().enumerate() {
        if !is_over(instr, pool) {
            return None;
        }
        instrs[n] = Some(naming.named(instr));
    }
    let order = naming.order.get(..usize::from(naming.count)).filter(|order| order.len() <= regs)?;
    let registers: u32 = order.iter().enumerate().map(|(name, register)| (live >> register & 1) << name).sum();
    Some((instrs, registers | (live & (N | Z | C | V))))
}

fn windows(listing: &Listing, flows: &Flows, regs: usize, left: usize, pool: &[u8]) -> Vec<(usize, Window)> {
    let rows = rows(listing);
    let mut seen = HashSet::new();
    let mut pairs = Vec::new();
    for place in 0..rows.len() {
        let run: Vec<WindowInstr> = rows[place..]
            .iter()
            .take(left)
            .enumerate()
            .map_while(|(n, (instr, joined))| instr.filter(|_| n == 0 || *joined))
            .collect();
        for count in 1..=run.len() {
            if let Some(pair) = canonical(&run[..count], flows.after[place + count - 1], regs, pool) {
                if seen.insert(pair) {
                    pairs.push((count, pair));
                }
            }
        }
    }
    pairs
}

struct Settings {
    regs: usize,
    left: usize,
    budget: usize,
    pool: Vec<u8>,
}

/// The settings of the arguments, with defaults for the others.
fn settings(words: &[String]) -> Settings {
    let number = |at: usize, usual| words.get(at).map_or(usual, |word| word.parse().unwrap());
    let pool = words.get(3).map_or("0,1,2,4,8,16,24,31,255", |word| word);
    Settings { regs: number(0, 3), left: number(1, 3), budget: number(2, 20_000), pool: pool.split(',').map(|n| n.parse().unwrap()).collect() }
}

fn print_windows(pairs: &[(usize, Window)], settings: &Settings) {
    let Settings { regs, left, budget, pool } = settings;
    let numbers: String = pool.iter().map(|number| format!(" {number}")).collect();
    println!("peep 1\nregs {regs}\nleft {left}\nseed 42\nbudget {budget}\npool{numbers}");
    for (_, (instrs, mask)) in pairs {
        println!("entry");
        for instr in instrs.iter().flatten() {
            let mut text = Vec::new();
            instr.write(&mut text);
            println!("left {}", String::from_utf8_lossy(&text));
        }
        let names = ["r0", "r1", "r2", "r3"].into_iter().zip(0..).chain([("n", 15), ("z", 16), ("c", 17), ("v", 18)]);
        let items: String = names.filter(|(_, bit)| mask >> bit & 1 == 1).map(|(name, _)| format!(" {name}")).collect();
        println!("mask{items}");
    }
    println!("end");
}

fn main() -> io::Result<()> {
    let mut text = Vec::new();
    io::stdin().read_to_end(&mut text)?;
    let Ok(listing) = parse(&text) else {
        eprintln!("refused");
        return Ok(());
    };
    let start = Instant::now();
    let mut flows = Flows::of(&listing);
    let visits = black_box(flows.find());
    let finding = start.elapsed().as_micros();
    let start = Instant::now();
    let words: Vec<String> = std::env::args().skip(2).collect();
    let settings = settings(&words);
    let pairs = black_box(windows(&listing, &flows, settings.regs, settings.left, &settings.pool));
    let harvesting = start.elapsed().as_micros();
    let digest = flows.after.iter().fold(0u64, |sum, bits| sum.wrapping_mul(31).wrapping_add(u64::from(*bits)));
    let windows_digest = pairs.iter().fold(0u64, |sum, (count, (_, mask))| {
        sum.wrapping_mul(31).wrapping_add(u64::from(*mask)).wrapping_add(*count as u64)
    });
    if std::env::args().len() > 1 {
        print_windows(&pairs, &settings);
    }
    eprintln!("{finding} {harvesting} {} {} {digest} {} {windows_digest}", listing.spots.len(), visits, pairs.len());
    Ok(())
}
