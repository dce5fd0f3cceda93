//! Times the proved `step` on random instructions. In Rattle; window_steps.sh builds it.
#![tactic(auto)]

ghost use Rattle.std.specs.Prelude.{◌≡◌, true, IsTrue};
ghost use Rattle.thumb_instr.specs.Window.{is_in_window};
ghost use Rattle.thumb_instr.specs.Renaming.{named};
ghost use Rattle.window_steps.specs.Ready.{are_below};

use std::alloc::{AllocError, Global};
use std::time::Instant;
use thumb_instr::{Instr, in_window};
use thumb_table::decode;
use window_exec::{WState, step};

/// An instruction that a window over r0 to r3 may contain.
#[derive(Clone, Copy)]
struct Ready {
    instr: Instr,
    ghost window: { is_in_window instr ≡ true },
    ghost registers: { are_below 4 (named instr) ≡ true },
}

fn names_first_four(instr: &Instr) -> bool
    ensures { IsTrue result → are_below 4 (named instr.now) ≡ true }
{
    match *instr {
        Instr::Mov { target, source } => target.number < 4 && source.number < 4,
        Instr::Three {
            target,
            left,
            right,
            ..
        } => target.number < 4 && left.number < 4 && right.number < 4,
        Instr::Two { target, other, .. } => target.number < 4 && other.number < 4,
        Instr::Movs { target, source } => target.number < 4 && source.number < 4,
        Instr::ShiftLeft { target, source, .. } => target.number < 4 && source.number < 4,
        Instr::ShiftRight { target, source, .. } => target.number < 4 && source.number < 4,
        Instr::ThreeNumber { target, source, .. } => target.number < 4 && source.number < 4,
        Instr::TwoNumber { target, .. } => target.number < 4,
        Instr::Add { registers } => registers.target.number < 4 && registers.source.number < 4,
        Instr::Extend { target, source, .. } => target.number < 4 && source.number < 4,
        Instr::Reverse { target, source, .. } => target.number < 4 && source.number < 4,
        _ => false,
    }
}

fn window_instr(halfword: u16) -> Option<Ready> {
    let instr = decode(halfword, 0)?;
    if in_window(&instr) && names_first_four(&instr) {
        Some(Ready { instr })
    } else {
        None
    }
}

fn next(random: u32) -> u32 {
    let random = random ^ (random << 13);
    let random = random ^ (random >> 17);
    random ^ (random << 5)
}

fn random_instrs(alloc: Global) -> Result<Vec<Ready>, AllocError> {
    let mut list = Vec::new(alloc);
    let mut random = 1;
    for _ in 0..65536_u32 {
        random = next(random);
        if let Some(instr) = window_instr((random % 65536) as u16) {
            list.push(instr)?;
        }
    }
    Ok(list)
}

fn run(list: &[Ready], mut state: WState) -> WState {
    for ready in list {
        state = step(&ready.instr, state);
    }
    state
}

fn main(rt: HostRuntime) -> anyhow::Result<()> {
    let list = random_instrs(rt.alloc())?;
    let start = Instant::now(&rt)?;
    let mut state = WState {
        r: [1, 2, 3, 4],
        nzcv: 0,
    };
    let mut random = 1;
    for _ in 0..2_000_u32 {
        random = next(random);
        state.r[0] = random;
        state = run(&list, state);
    }
    let milliseconds = start.elapsed(&rt)?.as_millis();
    println!(rt; "{} {:?} {}", list.len(), state.r, state.nzcv)?;
    eprintln!(rt; "{milliseconds}")?;
    Ok(())
}
