//! Rewrites a listing by a table in plain Rust, with the least known growth of time for hostile listings: live items on a flow graph over the places of the
//! given listing, the next place by a set of due places, entries grouped by their left sides, a layout by blocks, and refused windows by the position
//! of the distance that was out of reach. Input and output are those of rewriting/plain.rs.

#[path = "../listing_lines/plain/instruction.rs"]
mod instruction;
#[path = "../listing_lines/plain/layout.rs"]
mod layout;
#[path = "../listing_lines/plain/line.rs"]
mod line;
#[path = "../listing_lines/plain/listing.rs"]
mod listing;
#[path = "../listing_lines/plain/operands.rs"]
mod operands;
#[path = "../plain_costs.rs"]
mod plain_costs;
#[path = "../plain_flows.rs"]
mod plain_flows;
#[path = "../plain_rules.rs"]
mod plain_rules;
#[path = "../plain_tables.rs"]
mod plain_tables;
#[path = "../plain_windows.rs"]
mod plain_windows;
#[path = "../rewriting/reach.rs"]
mod reach;
#[path = "../listing_lines/plain/words.rs"]
mod words;

mod blocks;
mod graph;
mod kept;
mod refusals;

use crate::blocks::Blocks;
use crate::graph::Graph;
use crate::kept::{Due, Kept, NONE};
use crate::layout::{layout, Fault, LayoutError};
use crate::listing::{parse, print, Listing, MOST_LINES};
use crate::plain_rules::{instruction_count, left_of, longer, parted, under, Rule, Rules, LONGEST};
use crate::plain_tables::read_table;
use crate::plain_windows::{rows, Naming, WindowInstr};
use crate::reach::is_steady;
use crate::refusals::{Refusals, Refused};
use std::hint::black_box;
use std::io::{self, Read, Write};
use std::time::Instant;

/// A window of instructions, by their places, and the registers that the names r0, r1 and so on denote.
struct Window {
    places: [usize; LONGEST],
    count: usize,
    order: [u8; 8],
}

impl Window {
    fn places(&self) -> &[usize] {
        &self.places[..self.count]
    }
}

/// A kept layout, and the windows that it refused.
struct Ground {
    blocks: Blocks,
    refusals: Refusals,
}

/// A listing that is being rewritten. A window's new instructions take its first places, and its others are removed.
struct Rewriter<'a> {
    rules: &'a Rules,
    graph: Graph,
    ground: Option<Ground>,
    due: Due,
    /// The instruction of each place, and whether nothing before it ends a window.
    rows: Vec<(Option<WindowInstr>, bool)>,
    is_labelled: Vec<bool>,
    /// The line of each instruction, and whether a line's own instruction is removed.
    home: Vec<u32>,
    is_changed: Vec<bool>,
    /// Whether each line has a label, how many lines the listing has, and the places where an entry would apply if there were a line less.
    is_headed: Vec<bool>,
    lines: usize,
    waiting: Due,
    refused: Vec<Refused>,
    replaced: u64,
}

/// Marks the places before one at which a window that reaches it may begin.
fn put_due(due: &mut Due, kept: &Kept, rows: &[(Option<WindowInstr>, bool)], longest: usize, place: usize) {
    let mut at = kept.previous[place];
    for _ in 0..longest {
        if at == NONE || rows[at].0.is_none() {
            return;
        }
        due.put(at);
        if !rows[at].1 {
            return;
        }
        at = kept.previous[at];
    }
}

impl<'a> Rewriter<'a> {
    fn of(rules: &'a Rules, listing: &Listing, ground: Option<Ground>) -> Rewriter<'a> {
        let count = listing.spots.len();
        let mut is_labelled = vec![false; count + 1];
        for (line, place) in listing.lines.iter().zip(&listing.passed) {
            is_labelled[*place as usize] |= !line.names.is_empty();
        }
        let mut due = Due::none(count);
        let mut rows = rows(listing);
        (0..count).filter(|place| rows[*place].0.is_some()).for_each(|place| due.put(place));
        rows.push((None, false));
        Rewriter {
            rules,
            graph: Graph::of(listing),
            ground,
            due,
            rows,
            is_labelled,
            home: listing.spots.iter().map(|(line, _)| *line).collect(),
            is_changed: vec![false; listing.lines.len()],
            is_headed: listing.lines.iter().map(|line| !line.names.is_empty()).collect(),
            lines: listing.lines.len(),
            waiting: Due::none(count),
            refused: Vec::new(),
            replaced: 0,
        }
    }

    /// Whether code labels stay code when `count` instructions replace a window.
    fn are_labels_kept(&self, window: &Window, count: usize) -> bool {
        let [first, .., last] = [window.places[0], window.places[window.count - 1]];
        count > 0 || !self.is_labelled[first] || self.graph.is_op(self.graph.kept.next[last])
    }

    /// How many lines the listing has once `new` instructions have replaced a window: a label in the line of the first one gets a line of its own.
    fn lines_with(&self, window: &Window, new: usize) -> usize {
        let line = self.home[window.places[0]] as usize;
        let is_parted = !self.is_changed[line] && self.is_headed[line];
        self.lines + new + usize::from(is_parted) - window.count
    }

    /// Whether the listing has room for these lines.
    fn has_room(&mut self, window: &Window, new: usize) -> bool {
        let has_room = self.lines_with(window, new) <= MOST_LINES;
        if !has_room {
            self.waiting.put(window.places[0]);
        }
        has_room
    }

    /// Whether no mention is out of reach once `new` instructions have replaced a window. If so the layout is changed accordingly.
    fn is_reached(&mut self, window: &Window, new: usize) -> bool {
        let Some(ground) = self.ground.as_mut().filter(|_| new < window.count) else { return true };
        let block = ground.blocks.of_line(self.home[window.places[0]] as usize);
        match ground.blocks.gives_way(block, 2 * (window.count - new) as u32) {
            Ok(()) => true,
            Err(refused) => {
                self.refused.push(refused);
                false
            }
        }
    }

    fn applies(&mut self, rule: &Rule, window: &Window) -> bool {
        let behind = self.graph.kept.next[window.places[window.count - 1]];
        self.graph.live_at(behind) & under(&window.order, rule.dead) == 0
            && self.are_labels_kept(window, rule.right.len())
            && self.has_room(window, rule.right.len())
            && self.is_reached(window, rule.right.len())
    }

    /// The best entry at a place: of those that apply there the lowest with the longest left side.
    fn best(&mut self, place: usize) -> Option<(Window, &'a Rule)> {
        let rules = self.rules;
        let mut window = Window { places: [0; LONGEST], count: 0, order: [0; 8] };
        let mut keys = [0; LONGEST];
        let mut naming = Naming::new();
        let (mut at, mut key) = (place, 0);
        while window.count < rules.longest {
            let (Some(instr), is_joined) = self.rows[at] else { break };
            if !is_joined && window.count > 0 {
                break;
            }
            let named = naming.named(&instr);
            if naming.count > 4 {
                break;
            }
            key = longer(key, &named);
            keys[window.count] = key;
            window.places[window.count] = at;
            window.count += 1;
            at = self.graph.kept.next[at];
        }
        window.order = naming.order;
        while window.count > 0 {
            if let Some(found) = rules.by_left.get(&keys[window.count - 1]) {
                let mut refused = [false; LONGEST];
                for rule in found {
                    // the layout depends on lengths only
                    if !refused[rule.right.len()] {
                        let before = self.refused.len();
                        if self.applies(rule, &window) {
                            return Some((window, rule));
                        }
                        refused[rule.right.len()] = self.refused.len() > before;
                    }
                }
            }
            window.count -= 1;
        }
        None
    }

    /// Puts an entry's right side in place of a window.
    fn replace(&mut self, window: &Window, rule: &Rule) {
        let places = window.places();
        let home = self.home[places[0]];
        self.lines = self.lines_with(window, rule.right.len());
        let mut effects = [(0, 0); LONGEST];
        for (n, ((instr, uses, writes), place)) in rule.right.iter().zip(places).enumerate() {
            effects[n] = (under(&window.order, *uses), under(&window.order, *writes));
            self.rows[*place].0 = Some(instr.with(|name| window.order[usize::from(name)]));
        }
        let (first, behind) = (places[0], self.graph.kept.next[places[window.count - 1]]);
        for place in places {
            self.is_changed[self.home[*place] as usize] = true;
            self.home[*place] = home;
        }
        if rule.right.is_empty() {
            self.rows[behind].1 &= self.rows[first].1;
            self.is_labelled[behind] |= self.is_labelled[first];
        }
        let longest = self.rules.longest;
        let Rewriter { graph, due, rows, .. } = self;
        graph.replace(places, &effects[..rule.right.len()], |place, kept| put_due(due, kept, rows, longest, place));
        for (n, place) in places.iter().enumerate() {
            if n < rule.right.len() {
                due.put(*place);
            } else {
                due.take(*place);
                self.waiting.take(*place);
            }
        }
        put_due(due, &graph.kept, rows, longest, if rule.right.is_empty() { behind } else { first });
        if rule.right.len() < places.len() {
            self.put_refused();
        }
        self.replaced += 1;
    }

    /// Marks the places where a change was refused because of distances in which something moved.
    fn put_refused(&mut self) {
        let Rewriter { ground: Some(Ground { blocks, refusals }), graph, due, .. } = self else { return };
        for block in &blocks.changed {
            refusals.take(*block, |place| {
                if graph.kept.is_kept(place) {
                    due.put(place);
                }
            });
        }
    }

    /// The least place that is due, or that waits for a line if there is room.
    fn least(&self) -> Option<usize> {
        let waiting = if self.lines < MOST_LINES { self.waiting.least() } else { None };
        self.due.least().into_iter().chain(waiting).min()
    }

    fn rewrite(&mut self) {
        while let Some(place) = self.least() {
            self.refused.clear();
            self.waiting.take(place);
            match self.best(place) {
                Some((window, rule)) => self.replace(&window, rule),
                None => {
                    self.due.take(place);
                    if let Some(Ground { refusals, .. }) = &mut self.ground {
                        self.refused.iter().for_each(|refused| refusals.put(refused, place));
                    }
                }
            }
        }
    }

    /// The listing of the remaining lines of the given one.
    fn left(self, given: Listing) -> Listing {
        let kept = (0..self.graph.kept.end()).filter(|place| self.graph.kept.is_kept(*place));
        left_of(given, kept.map(|place| (self.home[place], self.rows[place].0)), &self.is_changed)
    }
}

/// The refusal of a listing that can't be laid out from 0.
fn refusal(listing: &Listing) -> Option<String> {
    match layout(listing, 0) {
        Ok(_) => None,
        Err(LayoutError::Line { number, fault: Fault::Range(distance) }) => Some(format!("refused listing {number} 4 {distance}")),
        Err(LayoutError::Line { number, fault: Fault::Align(address) }) => Some(format!("refused listing {number} 5 {address}")),
        Err(LayoutError::Memory) => Some(String::from("memory")),
    }
}

fn main() -> io::Result<()> {
    let mut text = Vec::new();
    io::stdin().read_to_end(&mut text)?;
    let (table, text) = parted(&text);
    let start = Instant::now();
    let Ok(table) = read_table(table) else {
        eprintln!("no table");
        return Ok(());
    };
    let Ok(listing) = parse(text) else {
        eprintln!("no listing");
        return Ok(());
    };
    let before = instruction_count(&listing);
    let begun = Instant::now();
    let rules = Rules::of(&table);
    let is_steady = is_steady(&listing, 0);
    if let Some(refusal) = if is_steady { None } else { refusal(&listing) } {
        eprintln!("{refusal}");
        return Ok(());
    }
    let ground = (!is_steady).then(|| {
        let blocks = Blocks::of(&listing, 0);
        Ground { refusals: Refusals::none(blocks.count()), blocks }
    });
    let mut rewriter = Rewriter::of(&rules, &listing, ground);
    rewriter.rewrite();
    let replaced = rewriter.replaced;
    let listing = black_box(rewriter.left(listing));
    let rewriting = begun.elapsed().as_micros();
    let text = black_box(print(&listing));
    let all = start.elapsed().as_micros();
    io::stdout().write_all(&text)?;
    eprintln!("{rewriting} {all} {replaced} {before} {}", instruction_count(&listing));
    Ok(())
}
