//! Tidies a listing in plain Rust, with the least known growth of time. Standard input has the listing, and the tidied one goes to standard output. Prints on
//! standard error the microseconds of tidying, those of reading, tidying and printing, how many changes there were, and how many instructions there were before
//! and after; or why the listing is refused. Use: plain [BASE [LINES [BYTES]]], the address from which the listing is laid out (0), and the limits.
//!
//! Each place at which a change is possible is due, or waits for lines while the listing has as many as it may have. So the least of these places is the next
//! to check, and if nothing is possible it is no longer due. It becomes due again only by a change of what it was refused for; nothing else can make a change
//! possible:
//!
//! - A reason for a change arises only by a removal. Then the place before has another next place. The chains that reach the labels of a removed branch have
//!   other ends if it was the last one and the next place's branch doesn't continue, or the other way round. What is reached never changes, and a branch that
//!   gets the end of its chain as its label changes no other end.
//! - A branch out of reach of its chain's end has to come nearer by a number of bytes: this is noted, and lowered by all removals near it.
//! - What can't be removed because a mention would get out of reach is due again when bytes between that mention and its target are removed, when it is
//!   removed or changes, or when an alignment from there up to its target moves.
//! - Labels stay code labels, and only a branch that gets another label adds lines or makes them longer: so the limits can only stop that.

#[path = "../listing_lines/plain/instruction.rs"]
mod instruction;
#[path = "../growth/kept.rs"]
mod kept;
#[path = "../listing_lines/plain/layout.rs"]
mod layout;
#[path = "../listing_lines/plain/line.rs"]
mod line;
#[path = "../listing_lines/plain/listing.rs"]
mod listing;
#[path = "../listing_lines/plain/operands.rs"]
mod operands;
#[path = "../growth/refusals.rs"]
mod refusals;
#[path = "../listing_lines/plain/words.rs"]
mod words;

mod chains;
mod widest;
mod mentioned;
mod rooms;
mod shared;

use crate::chains::{Aim, Chains};
use crate::widest::{Widest, Refusal, WINDOW};
use crate::kept::{Due, Kept, NONE};
use crate::layout::size;
use crate::line::{line, Line, Statement};
use crate::listing::{Listing, Meaning};
use crate::mentioned::{idle, mentioned};
use crate::refusals::Refusals;
use crate::rooms::Rooms;
use crate::shared::{own_length, own_text, refusal, run, Setting};

/// Branches are checked again within this many bytes of the old and new ends of a chain. An alignment may lie between.
const NEAR: u32 = WINDOW + 1024;

struct Tidier<'a> {
    listing: &'a Listing,
    setting: &'a Setting,
    kept: Kept,
    /// The places where a change may be possible, and those where only the number of lines prevents one.
    due: Due,
    wait_for_lines: Due,
    is_idle: Vec<bool>,
    chains: Chains<'a>,
    widest: Widest,
    /// By how many bytes at least the branch of each block misses the end of its chain, if that is near.
    misses: Rooms,
    /// The instructions that can't be removed, by the blocks and the alignments whose sizes prevent it.
    by_bytes: Refusals,
    by_paddings: Refusals,
    is_retargeted: Vec<bool>,
    lines: usize,
    changes: u64,
}

impl<'a> Tidier<'a> {
    fn of(listing: &'a Listing, setting: &'a Setting) -> Tidier<'a> {
        let count = listing.spots.len();
        let mut kept = Kept::all(count);
        let mentioned = mentioned(listing);
        let chains = Chains::of(listing, &mentioned, &mut kept);
        let widest = Widest::of(listing, &mentioned, setting.base);
        let is_idle = idle(listing);
        let mut due = Due::none(count);
        (0..count).filter(|place| is_idle[*place] || chains.aim(*place).is_some()).for_each(|place| due.put(place));
        Tidier {
            listing,
            setting,
            kept,
            due,
            wait_for_lines: Due::none(count),
            is_idle,
            chains,
            misses: Rooms::none(widest.count()),
            by_bytes: Refusals::none(widest.count()),
            by_paddings: Refusals::none(widest.count()),
            widest,
            is_retargeted: vec![false; count],
            lines: listing.lines.len(),
            changes: 0,
        }
    }

    fn line(&self, place: usize) -> u32 {
        self.listing.spots[place].0
    }

    /// Whether a place's line has labels, which stay when what follows them changes.
    fn has_labels(&self, place: usize) -> bool {
        !self.is_retargeted[place] && !self.listing.lines[self.line(place) as usize].names.is_empty()
    }

    /// Makes all branches due within reach of a block's first and last byte, with a margin.
    fn put_near(&mut self, block: usize) {
        let (from, to) = self.widest.around(block, NEAR);
        for place in (from..to).filter_map(|block| self.widest.place(block)) {
            if self.chains.aim(place).is_some() {
                self.due.put(place);
            }
        }
    }

    /// Makes the branches due that may come into reach of the ends of their chains by the coming removal.
    fn put_missed(&mut self) {
        if self.misses.is_empty() {
            return;
        }
        for (block, by) in &self.widest.shorter {
            let (from, to) = self.widest.around(*block, WINDOW);
            self.misses.lower(from, to, *by as i32);
        }
        while let Some(block) = self.misses.first_below(1) {
            self.misses.take(block);
            self.widest.place(block).into_iter().for_each(|place| self.due.put(place));
        }
    }

    /// Makes due again what was refused and may become possible by a change of a block's bytes, or else of an alignment's padding.
    fn put_refused(&mut self, block: usize, is_padding: bool) {
        let Tidier { kept, due, by_bytes, by_paddings, .. } = self;
        let refusals = if is_padding { by_paddings } else { by_bytes };
        refusals.take(block, |place| {
            if kept.is_kept(place) {
                due.put(place);
            }
        });
    }

    /// The ends of chains change if a branch is removed at which one ended and the next one continues, or the other way round: those that reached its labels.
    fn leave(&mut self, place: usize, block: usize) {
        let next = self.kept.next[place];
        let change_ends = self.chains.has_callers(place) && self.chains.is_hop(place) != self.chains.is_hop(next);
        let few = if change_ends { self.chains.few_before(place) } else { Some(Vec::new()) };
        if change_ends {
            self.chains.forget(place);
        }
        self.chains.leave(&mut self.kept, place);
        self.kept.leave(place);
        match few {
            // the removed branch may have led to what reached it
            Some(few) => few.into_iter().filter(|place| self.kept.is_kept(*place)).for_each(|place| self.due.put(place)),
            None => {
                self.put_near(block);
                if let Some(end) = self.chains.end(&mut self.kept, next) {
                    self.put_near(self.widest.block(end.line));
                }
            }
        }
    }

    /// Removes the instruction of a place, if the layout allows it.
    fn remove(&mut self, place: usize) -> bool {
        let line = self.line(place);
        let block = self.widest.block(line);
        let bytes = size(&self.listing.lines[line as usize].statement, 0) as u32;
        if let Err(Refusal { bytes, paddings }) = self.widest.may_go(place, line, bytes) {
            self.by_bytes.put(&bytes, place);
            self.by_paddings.put(&paddings, place);
            return false;
        }
        self.put_missed();
        self.widest.settle();
        self.lines -= usize::from(!self.has_labels(place));
        self.due.take(place);
        let before = self.kept.previous[place];
        if before != NONE && self.chains.aim(before).is_some() {
            self.due.put(before);
        }
        self.leave(place, block);
        self.put_refused(block, false);
        self.widest.unmentioned.into_iter().for_each(|label| self.put_refused(label, false));
        for n in 0..self.widest.moved.len() {
            self.put_refused(self.widest.moved[n], true);
        }
        true
    }

    /// Changes a branch's label to its chain's end, if that is in reach and within the limits.
    fn retarget(&mut self, place: usize, end: Aim) -> bool {
        let block = self.widest.block(self.line(place));
        if let Some(by) = self.widest.miss(block, end.line) {
            self.misses.put(block, by);
            return false;
        }
        if own_length(self.listing, self.line(place), end.named) > self.setting.longest {
            return false;
        }
        if self.has_labels(place) {
            if self.lines >= self.setting.lines {
                self.wait_for_lines.put(place);
                return false;
            }
            self.lines += 1;
        }
        self.is_retargeted[place] = true;
        self.chains.retarget(&mut self.kept, place, end);
        self.widest.retarget(block, end.line);
        self.due.put(place);
        self.put_refused(block, false);
        true
    }

    /// Makes the change that is tried first at a place, among the possible ones.
    fn change(&mut self, place: usize) -> bool {
        self.wait_for_lines.take(place);
        let mut is_tried = false;
        if let Some(aim) = self.chains.aim(place) {
            self.misses.take(self.widest.block(self.line(place)));
            let to = self.chains.place(&mut self.kept, aim);
            is_tried = to == self.kept.next[place];
            if is_tried && self.remove(place) {
                return true;
            }
            if let Some(end) = self.chains.end(&mut self.kept, to) {
                if self.retarget(place, end) {
                    return true;
                }
            }
        }
        self.is_idle[place] && !is_tried && self.remove(place)
    }

    /// The least place at which a change may be possible.
    fn least(&self) -> Option<usize> {
        let waits = if self.lines < self.setting.lines { self.wait_for_lines.least() } else { None };
        self.due.least().into_iter().chain(waits).min()
    }

    fn tidy(&mut self) {
        while let Some(place) = self.least() {
            if self.change(place) {
                self.changes += 1;
            } else {
                self.due.take(place);
            }
        }
    }

    /// The lines whose instructions changed, each with its new branch, if it has one.
    fn changed(&self) -> Vec<(usize, Option<Vec<u8>>)> {
        let is_changed = |place: &usize| self.is_retargeted[*place] || !self.kept.is_kept(*place);
        let branch = |place: usize| self.chains.aim(place).filter(|_| self.kept.is_kept(place)).map(|aim| own_text(self.listing, self.line(place), aim.named));
        (0..self.listing.spots.len()).filter(is_changed).map(|place| (self.line(place) as usize, branch(place))).collect()
    }
}

/// The listing with these branches in place of the instructions of some lines, whose labels stay.
fn left_of(listing: Listing, changed: Vec<(usize, Option<Vec<u8>>)>) -> Listing {
    let Listing { lines: given, mut names, .. } = listing;
    let mut lines = Vec::with_capacity(given.len());
    let mut numbers = Vec::with_capacity(given.len());
    let mut changed = changed.into_iter().peekable();
    for (number, mut one) in given.into_iter().enumerate() {
        numbers.push(lines.len());
        let Some((_, branch)) = changed.next_if(|(changed, _)| *changed == number) else {
            lines.push(one);
            continue;
        };
        if !one.names.is_empty() {
            one.text.truncate(one.front);
            one.text.push(b'\n');
            lines.push(Line { statement: Statement::Nothing, ..one });
        }
        lines.extend(branch.map(|text| line(&text).expect("a branch")));
    }
    for meaning in names.values_mut() {
        if let Meaning::Label(line) = meaning {
            *line = numbers[*line];
        }
    }
    Listing::with(lines, names)
}

fn tidied(listing: Listing, setting: &Setting) -> Result<(Listing, u64), String> {
    let mut tidier = Tidier::of(&listing, setting);
    if !tidier.widest.is_laid() {
        return Err(refusal(&listing, setting.base).unwrap_or_default());
    }
    tidier.tidy();
    let (changed, changes) = (tidier.changed(), tidier.changes);
    Ok((left_of(listing, changed), changes))
}

fn main() -> std::io::Result<()> {
    run(tidied)
}
