//! Times a million steps of the proved machine on the listing on standard input. In Rattle; machine_steps.sh appends digest.rs and builds it.
#![tactic(auto)]

use label_layout::layout;
use listing_parser::parse;
use std::alloc::Global;
use std::io::Read;
use std::time::Instant;
use thumb_machine::{Answers, Bytes, Event, Machine, Naming, Stage, State};

const STEPS: u32 = 1_000_000;

/// Registers are zero except sp 0x20001000 and lr 0xffffffff; the place is 0.
fn start(alloc: Global) -> State {
    State {
        r: [0; 13],
        sp: 0x2000_1000,
        lr: 0xffff_ffff,
        nzcv: 0,
        bytes: Bytes::new(Vec::new(alloc)),
        place: 0,
    }
}

/// The machine of a listing laid out from 0.
fn machine_of(alloc: Global, text: &[u8]) -> anyhow::Result<Machine> {
    let listing = parse(alloc, text)?;
    let laid = layout(alloc, &listing, 0)?;
    let naming = Naming::laid(alloc, &listing, &laid)?;
    let machine = Machine::new(alloc, &listing, &naming, &start(alloc))?;
    Ok(machine)
}

/// Takes the steps, and counts those after which the run continues.
fn count_going(machine: &mut Machine, answers: &mut Answers) -> anyhow::Result<u32> {
    let mut going = 0u32;
    for _ in 0..STEPS {
        if machine.step(answers)? == Stage::Going {
            going = going.wrapping_add(1);
        }
    }
    Ok(going)
}

fn main(rt: HostRuntime) -> anyhow::Result<()> {
    let mut text = Vec::new(rt.alloc());
    rt.stdin().read_to_end(&mut text)?;
    let mut machine = machine_of(rt.alloc(), &text)?;
    let mut answers = Answers::new(Vec::new(rt.alloc()));
    let began = Instant::now(&rt)?;
    let going = count_going(&mut machine, &mut answers)?;
    let milliseconds = began.elapsed(&rt)?.as_millis();
    let digest = digest_of(machine.events());
    println!(rt; "{going} {} {digest:08x}", machine.events().len())?;
    eprintln!(rt; "{milliseconds}")?;
    Ok(())
}
