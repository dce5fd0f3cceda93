//! Tidies a listing in plain Rust, following the definition: while a change is possible, the first is made, and all is recomputed. Input and output are those
//! of plain.rs.

#[path = "../listing_lines/plain/instruction.rs"]
mod instruction;
#[path = "../listing_lines/plain/layout.rs"]
mod layout;
#[path = "../listing_lines/plain/line.rs"]
mod line;
#[path = "../listing_lines/plain/listing.rs"]
mod listing;
#[path = "../listing_lines/plain/operands.rs"]
mod operands;
#[path = "../plain_flows.rs"]
mod plain_flows;
#[path = "../listing_lines/plain/words.rs"]
mod words;

mod shared;

use crate::instruction::Instr;
use crate::layout::layout;
use crate::line::{line, Line, Statement};
use crate::listing::{Listing, Meaning};
use crate::plain_flows::{Flows, Next};
use crate::shared::{own_text, refusal, run, Setting};

/// The statement of a place.
fn statement(listing: &Listing, place: usize) -> &Statement {
    &listing.lines[listing.spots[place].0 as usize].statement
}

/// For each place whether it has an unreachable instruction that isn't a call.
fn idle(listing: &Listing) -> Vec<bool> {
    let flows = Flows::of(listing);
    let mut is_reached = flows.is_point;
    let mut stack: Vec<usize> = (0..is_reached.len()).filter(|place| is_reached[*place]).collect();
    while let Some(place) = stack.pop() {
        let ways = flows.ways.get(place).copied().flatten();
        for way in ways.iter().flat_map(|ways| [Some(ways.first), ways.second]).flatten() {
            if let Next::Place(next) = way.next {
                if !std::mem::replace(&mut is_reached[next], true) {
                    stack.push(next);
                }
            }
        }
    }
    let is_call = |place: usize| matches!(statement(listing, place), Statement::Runs { instr: Instr::Blx { .. } | Instr::Call, .. });
    (0..flows.ways.len()).map(|place| flows.ways[place].is_some() && !is_reached[place] && !is_call(place)).collect()
}

/// The place of a label, and the line whose statement mentions it.
type Aim = (usize, usize);

fn is_op(listing: &Listing, place: usize) -> bool {
    place < listing.spots.len() && matches!(statement(listing, place), Statement::Runs { .. })
}

/// The code label to which the branch at a place goes.
fn aim(listing: &Listing, place: usize, with_condition: bool) -> Option<Aim> {
    let Statement::Runs { instr, mention: Some(mention) } = statement(listing, place) else { return None };
    if !(matches!(instr, Instr::Branch) || with_condition && matches!(instr, Instr::BranchIf(_))) {
        return None;
    }
    let Some(Meaning::Label(label)) = listing.names.get(&mention.name) else { return None };
    let to = listing.passed[*label] as usize;
    is_op(listing, to).then_some((to, listing.spots[place].0 as usize))
}

/// The end of the chain that begins at a place.
fn end(listing: &Listing, place: usize) -> Option<Aim> {
    let mut end = aim(listing, place, false)?;
    for _ in 0..listing.spots.len() {
        match aim(listing, end.0, false) {
            None => return Some(end),
            Some(next) => end = next,
        }
    }
    None
}

fn copied(given: &Line) -> Line {
    line(&given.text).expect("a line")
}

/// The listing with another line, or none, in place of the instruction at a place.
fn with(listing: &Listing, place: usize, new: Option<Vec<u8>>) -> Listing {
    let changed = listing.spots[place].0 as usize;
    let mut lines = Vec::new();
    for (number, given) in listing.lines.iter().enumerate() {
        if number != changed {
            lines.push(copied(given));
            continue;
        }
        if !given.names.is_empty() {
            let mut text = given.text[..given.front].to_vec();
            text.push(b'\n');
            lines.push(line(&text).expect("labels"));
        }
        lines.extend(new.iter().map(|text| line(text).expect("a branch")));
    }
    Listing::of(lines).unwrap_or_else(|_| unreachable!())
}

fn are_labels_kept(old: &Listing, new: &Listing) -> bool {
    let is_code = |listing: &Listing, name: &Vec<u8>| match listing.names.get(name) {
        Some(Meaning::Label(line)) => is_op(listing, listing.passed[*line] as usize),
        _ => false,
    };
    old.names.keys().all(|name| !is_code(old, name) || is_code(new, name))
}

fn is_fit(old: &Listing, new: &Listing, setting: &Setting) -> bool {
    let length = |line: &Line| line.text.strip_suffix(b"\n").unwrap_or(&line.text).len();
    are_labels_kept(old, new)
        && layout(new, setting.base).is_ok()
        && new.lines.len() <= setting.lines
        && new.lines.iter().all(|line| length(line) <= setting.longest)
}

/// The listing after the change that is tried first at a place.
fn changed_at(listing: &Listing, is_idle: bool, place: usize, setting: &Setting) -> Option<Listing> {
    let fit = |new: Listing| is_fit(listing, &new, setting).then_some(new);
    let to = aim(listing, place, true);
    let to_next = to.filter(|(to, _)| *to == place + 1).and_then(|_| fit(with(listing, place, None)));
    let to_end = || {
        let (_, named) = end(listing, to?.0)?;
        fit(with(listing, place, Some(own_text(listing, listing.spots[place].0, named as u32))))
    };
    let without = || is_idle.then(|| with(listing, place, None)).and_then(fit);
    to_next.or_else(to_end).or_else(without)
}

fn changed(listing: &Listing, setting: &Setting) -> Option<Listing> {
    let is_idle = idle(listing);
    (0..listing.spots.len()).find_map(|place| changed_at(listing, is_idle[place], place, setting))
}

fn tidied(mut listing: Listing, setting: &Setting) -> Result<(Listing, u64), String> {
    if let Some(refusal) = refusal(&listing, setting.base) {
        return Err(refusal);
    }
    let mut changes = 0;
    while let Some(new) = changed(&listing, setting) {
        listing = new;
        changes += 1;
    }
    Ok((listing, changes))
}

fn main() -> std::io::Result<()> {
    run(tidied)
}
