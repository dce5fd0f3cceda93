//! Rewrites a listing by a table in plain Rust, by the rules of the proved crates. Standard input has the table, which isn't audited, followed by the listing;
//! the new listing goes to standard output. Prints on standard error the microseconds of rewriting, those of reading both, rewriting and printing, how many
//! windows were replaced, and how many instructions there were before and after.

#[path = "../listing_lines/plain/instruction.rs"]
mod instruction;
#[path = "../growth/kept.rs"]
#[allow(dead_code)]
mod kept;
#[path = "../listing_lines/plain/layout.rs"]
mod layout;
#[path = "../listing_lines/plain/line.rs"]
mod line;
#[path = "../listing_lines/plain/listing.rs"]
mod listing;
mod live;
#[path = "../listing_lines/plain/operands.rs"]
mod operands;
#[path = "../plain_costs.rs"]
mod plain_costs;
#[path = "../plain_flows.rs"]
mod plain_flows;
#[path = "../plain_rules.rs"]
mod plain_rules;
#[path = "../plain_tables.rs"]
mod plain_tables;
#[path = "../plain_windows.rs"]
mod plain_windows;
mod reach;
#[path = "../listing_lines/plain/words.rs"]
mod words;

use crate::kept::Due;
use crate::layout::{layout, Fault, LayoutError};
use crate::listing::{parse, print, Listing, MOST_LINES};
use crate::live::Live;
use crate::plain_rules::{instruction_count, left_of, longer, parted, under, with_byte, Rule, Rules, LONGEST};
use crate::plain_tables::read_table;
use crate::plain_windows::{rows, Naming, WindowInstr};
use crate::reach::Reach;
use std::borrow::Cow;
use std::hint::black_box;
use std::io::{self, Read, Write};
use std::time::Instant;

/// The place after the last one.
const END: u32 = u32::MAX;

/// A window of instructions, by their places, and the registers that the names r0, r1 and so on denote, with their count.
#[derive(Clone, Copy)]
struct Window {
    places: [u32; LONGEST],
    count: usize,
    order: [u8; 8],
    named: u8,
}

impl Window {
    /// With the least scratch register that is free for a rule, if the rule needs one.
    fn with_scratch(mut self, rule: &Rule, live: u32) -> Option<Window> {
        if rule.needs_scratch {
            let named = &self.order[..usize::from(self.named)];
            let free = (0..8).find(|register| !named.contains(register) && live >> register & 1 == 0)?;
            self.order[usize::from(self.named)] = free;
        }
        Some(self)
    }
}

/// A listing that is being rewritten. Places are those of the given listing: a window's new instructions take its first ones, and its others are removed.
struct Rewriter<'a> {
    rules: &'a Rules,
    listing: &'a Listing,
    live: Live,
    reach: Reach,
    /// The instruction of each place, and whether nothing before it ends a window.
    rows: Vec<(Option<WindowInstr>, bool)>,
    is_labelled: Vec<bool>,
    next: Vec<u32>,
    previous: Vec<u32>,
    first: u32,
    is_gone: Vec<bool>,
    /// The line of each instruction, and whether a line's own instruction is removed.
    home: Vec<u32>,
    is_changed: Vec<bool>,
    /// How many lines the listing has.
    lines: usize,
    /// All places from this one on are yet to be visited.
    at: u32,
    /// The earlier places that are to be visited again.
    again: Due,
    /// The places where an entry would apply if there were a line less.
    waiting: Due,
    /// The least place where only the layout prevents an entry.
    held: u32,
    replaced: u64,
}

impl<'a> Rewriter<'a> {
    fn of(rules: &'a Rules, listing: &'a Listing, reach: Reach) -> Rewriter<'a> {
        let count = listing.spots.len();
        let mut is_labelled = vec![false; count + 1];
        for (line, place) in listing.lines.iter().zip(&listing.passed) {
            is_labelled[*place as usize] |= !line.names.is_empty();
        }
        let mut next: Vec<u32> = (1..=count as u32).collect();
        if let Some(last) = next.last_mut() {
            *last = END;
        }
        Rewriter {
            rules,
            listing,
            live: Live::of(listing),
            reach,
            rows: rows(listing),
            is_labelled,
            next,
            previous: (0..count as u32).map(|place| place.wrapping_sub(1)).collect(),
            first: if count > 0 { 0 } else { END },
            is_gone: vec![false; count],
            home: listing.spots.iter().map(|(line, _)| *line).collect(),
            is_changed: vec![false; listing.lines.len()],
            lines: listing.lines.len(),
            at: if count > 0 { 0 } else { END },
            again: Due::none(count),
            waiting: Due::none(count),
            held: END,
            replaced: 0,
        }
    }

    /// Whether code labels stay code when `count` instructions replace a window.
    fn are_labels_kept(&self, window: &Window, count: usize) -> bool {
        let behind = self.next[window.places[window.count - 1] as usize];
        count > 0 || !self.is_labelled[window.places[0] as usize] || behind != END && self.live.is_op(behind as usize)
    }

    /// How many lines the listing has once `new` instructions have replaced a window: a label in the line of the first one gets a line of its own.
    fn lines_with(&self, window: &Window, new: usize) -> usize {
        let line = self.home[window.places[0] as usize] as usize;
        let is_parted = !self.is_changed[line] && !self.listing.lines[line].names.is_empty();
        self.lines + new + usize::from(is_parted) - window.count
    }

    /// Whether the listing has room for these lines.
    fn has_room(&mut self, window: &Window, new: usize) -> bool {
        let has_room = self.lines_with(window, new) <= MOST_LINES;
        if !has_room {
            self.waiting.put(window.places[0] as usize);
        }
        has_room
    }

    /// Whether no mention is out of reach once `new` instructions have replaced a window. If so the layout is changed accordingly.
    fn is_reached(&mut self, window: &Window, new: usize) -> bool {
        if new == window.count || self.reach.is_steady() {
            return true;
        }
        let line = self.home[window.places[0] as usize];
        let is_kept = self.reach.gives_way(line as usize, 2 * (window.count - new) as u32);
        if !is_kept {
            self.held = self.held.min(window.places[0]);
        }
        is_kept
    }

    /// The window with the registers under which an entry applies to it, if it does.
    fn applied(&mut self, rule: &Rule, window: &Window) -> Option<Window> {
        let after = self.live.after(window.places[window.count - 1] as usize);
        if after & under(&window.order, rule.dead) != 0 {
            return None;
        }
        let window = window.with_scratch(rule, after)?;
        let new = rule.right.len();
        let applies = self.are_labels_kept(&window, new) && self.has_room(&window, new) && self.is_reached(&window, new);
        applies.then_some(window)
    }

    /// The first entry that applies to a window of this key, and the window with its registers.
    fn first_entry(&mut self, key: u128, window: &Window) -> Option<(Window, Cow<'a, Rule>)> {
        let rules = self.rules;
        rules.by_left.get(&key)?.iter().find_map(|rule| Some((self.applied(rule, window)?, Cow::Borrowed(rule))))
    }

    /// The first family that applies to a window of this key, which ignores 8-bit numbers.
    fn first_family(&mut self, key: u128, instrs: &[WindowInstr], window: &Window) -> Option<(Window, Cow<'a, Rule>)> {
        let rules = self.rules;
        rules.by_blinded.get(&key)?.iter().find_map(|family| {
            let rule = family.instance(instrs)?;
            Some((self.applied(&rule, window)?, Cow::Owned(rule)))
        })
    }

    /// The best rule at a place: of those that apply there the one with the longest left side, an entry before a family, then the lowest number.
    fn best(&mut self, place: u32) -> Option<(Window, Cow<'a, Rule>)> {
        let rules = self.rules;
        let mut window = Window { places: [0; LONGEST], count: 0, order: [0; 8], named: 0 };
        let mut keys = [(0, 0, 0); LONGEST];
        let mut instrs = [WindowInstr { form: 0, registers: [0; 3], count: 0, number: 0 }; LONGEST];
        let has_families = !rules.by_blinded.is_empty();
        let mut naming = Naming::new();
        let (mut at, mut key, mut blinded) = (place, 0, 0);
        while at != END && window.count < rules.longest {
            let (Some(instr), is_joined) = self.rows[at as usize] else { break };
            if !is_joined && window.count > 0 {
                break;
            }
            let named = naming.named(&instr);
            if naming.count > 4 {
                break;
            }
            key = longer(key, &named);
            if has_families {
                blinded = longer(blinded, &with_byte(&named, 0));
                instrs[window.count] = named;
            }
            keys[window.count] = (key, blinded, naming.count);
            window.places[window.count] = at;
            window.count += 1;
            at = self.next[at as usize];
        }
        window.order = naming.order;
        while window.count > 0 {
            let (key, blinded, named) = keys[window.count - 1];
            window.named = named as u8;
            if let Some(applied) = self.first_entry(key, &window) {
                return Some(applied);
            }
            if has_families {
                if let Some(applied) = self.first_family(blinded, &instrs[..window.count], &window) {
                    return Some(applied);
                }
            }
            window.count -= 1;
        }
        None
    }

    /// Removes a place.
    fn leave(&mut self, place: u32) {
        let (before, behind) = (self.previous[place as usize], self.next[place as usize]);
        self.is_gone[place as usize] = true;
        self.again.take(place as usize);
        self.waiting.take(place as usize);
        if before == END { self.first = behind } else { self.next[before as usize] = behind }
        if behind != END {
            self.previous[behind as usize] = before;
            self.rows[behind as usize].1 &= self.rows[place as usize].1;
            self.is_labelled[behind as usize] |= self.is_labelled[place as usize];
        }
    }

    /// Puts an entry's right side in place of a window.
    fn replace(&mut self, window: &Window, rule: &Rule) {
        let places = window.places.map(|place| place as usize);
        let places = &places[..window.count];
        let new = rule.right.len();
        let home = self.home[places[0]];
        self.lines = self.lines_with(window, new);
        let mut effects = [(0, 0); LONGEST];
        for (n, ((instr, uses, writes), place)) in rule.right.iter().zip(places).enumerate() {
            effects[n] = (under(&window.order, *uses), under(&window.order, *writes));
            self.rows[*place].0 = Some(instr.with(|name| window.order[usize::from(name)]));
        }
        for place in places {
            self.is_changed[self.home[*place] as usize] = true;
            self.home[*place] = home;
        }
        self.live.replace(places, &effects[..new]);
        for place in &places[new..] {
            self.leave(*place as u32);
        }
        self.replaced += 1;
        self.look_around(&places[..new], places[0]);
        if new < window.count {
            self.at = self.at.min(std::mem::replace(&mut self.held, END));
        }
        self.at = self.kept(self.at);
    }

    /// A place, or the next kept one if it is removed.
    fn kept(&self, mut place: u32) -> u32 {
        while place != END && self.is_gone[place as usize] {
            place = self.next[place as usize];
        }
        place
    }

    /// Marks for another visit the places from which a window reaches the new instructions, the first of which is at `first`, or ends where fewer items are
    /// live than before.
    fn look_around(&mut self, new: &[usize], first: usize) {
        self.look_again(first);
        for place in new {
            if (*place as u32) < self.at {
                self.again.put(*place);
            }
        }
        let shrunk = std::mem::take(&mut self.live.shrunk);
        shrunk.iter().for_each(|place| self.look_again(*place));
        self.live.shrunk = shrunk;
    }

    /// Marks for another visit the places from which a window reaches a place, which may be removed.
    fn look_again(&mut self, place: usize) {
        let mut at = place as u32;
        for _ in 0..self.rules.longest {
            while at != END && self.is_gone[at as usize] {
                at = self.previous[at as usize];
            }
            if at == END {
                return;
            }
            if at < self.at {
                self.again.put(at as usize);
            }
            if !self.rows[at as usize].1 {
                return;
            }
            at = self.previous[at as usize];
        }
    }

    /// The least place that is to be visited.
    fn least(&self) -> Option<u32> {
        let waiting = if self.lines < MOST_LINES { self.waiting.least() } else { None };
        let before = self.again.least().into_iter().chain(waiting).min();
        Some(before.map_or(self.at, |place| self.at.min(place as u32))).filter(|place| *place != END)
    }

    fn rewrite(&mut self) {
        while let Some(place) = self.least() {
            if place < self.at {
                self.again.take(place as usize);
                self.waiting.take(place as usize);
            }
            match self.best(place) {
                Some((window, rule)) => self.replace(&window, &rule),
                None if place == self.at => self.at = self.next[place as usize],
                None => {}
            }
        }
    }

    fn left(self) -> Left {
        let Rewriter { rows, next, first, home, is_changed, .. } = self;
        Left { rows, next, first, home, is_changed }
    }
}

/// The remains of a listing that was rewritten.
struct Left {
    rows: Vec<(Option<WindowInstr>, bool)>,
    next: Vec<u32>,
    first: u32,
    home: Vec<u32>,
    is_changed: Vec<bool>,
}

impl Left {
    /// The listing of the remaining lines of the given one.
    fn listing(&self, given: Listing) -> Listing {
        let place = |at: u32| (at != END).then_some(at);
        let kept = std::iter::successors(place(self.first), |at| place(self.next[*at as usize]));
        left_of(given, kept.map(|at| (self.home[at as usize], self.rows[at as usize].0)), &self.is_changed)
    }
}

/// Whether the listing can be laid out from 0; or the refusal.
fn refusal(listing: &Listing, reach: &Reach) -> Option<String> {
    if reach.is_steady() {
        return None;
    }
    match layout(listing, 0) {
        Ok(_) => None,
        Err(LayoutError::Line { number, fault: Fault::Range(distance) }) => Some(format!("refused listing {number} 4 {distance}")),
        Err(LayoutError::Line { number, fault: Fault::Align(address) }) => Some(format!("refused listing {number} 5 {address}")),
        Err(LayoutError::Memory) => Some(String::from("memory")),
    }
}

fn main() -> io::Result<()> {
    let mut text = Vec::new();
    io::stdin().read_to_end(&mut text)?;
    let (table, text) = parted(&text);
    let start = Instant::now();
    let Ok(table) = read_table(table) else {
        eprintln!("no table");
        return Ok(());
    };
    let Ok(listing) = parse(text) else {
        eprintln!("no listing");
        return Ok(());
    };
    let before = instruction_count(&listing);
    let begun = Instant::now();
    let rules = Rules::of(&table);
    let reach = Reach::of(&listing, 0);
    if let Some(refusal) = refusal(&listing, &reach) {
        eprintln!("{refusal}");
        return Ok(());
    }
    let mut rewriter = Rewriter::of(&rules, &listing, reach);
    rewriter.rewrite();
    let replaced = rewriter.replaced;
    let left = rewriter.left();
    let listing = black_box(left.listing(listing));
    let rewriting = begun.elapsed().as_micros();
    let text = black_box(print(&listing));
    let all = start.elapsed().as_micros();
    io::stdout().write_all(&text)?;
    eprintln!("{rewriting} {all} {replaced} {before} {}", instruction_count(&listing));
    Ok(())
}
