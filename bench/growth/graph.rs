//! Live items over the places of the given listing, whose control flow never changes except at a window. What is live is found by a worklist. For each place
//! also the items are kept that are read along forward edges only. These are recomputed after each change without clearing: where an item that is no longer
//! read at one place is among them, clearing ends.

use super::kept::{Kept, NONE};
use crate::listing::Listing;
use crate::plain_flows::{Flows, Next, Way, Ways};
use std::collections::BinaryHeap;

const ITEMS: usize = 19;

pub struct Graph {
    ways: Vec<Option<Ways>>,
    pub kept: Kept,
    /// The places with an edge to a place that isn't the next one: those of a place lie from its end to that of the next.
    callers: Vec<u32>,
    ends: Vec<u32>,
    /// The least place at or after each to which such an edge leads.
    aims: Vec<u32>,
    /// How many code points there are before each place.
    points_before: Vec<u32>,
    /// The places with an edge to any code point, and the items that pass through some of them.
    returns: Vec<usize>,
    passed: u32,
    /// What is live before each place, and what is read from it along forward edges.
    before: Vec<u32>,
    forward: Vec<u32>,
    /// In how many code points' sets each passed item is, and the items of at least one.
    live_points: [u32; ITEMS],
    forward_points: [u32; ITEMS],
    at_points: u32,
    stack: Vec<usize>,
    is_waiting: Vec<bool>,
    /// The places whose sets changed since a replacement began, with what was live there.
    touched: Vec<(usize, u32)>,
    is_touched: Vec<bool>,
}

fn all(ways: Ways) -> impl Iterator<Item = Way> {
    std::iter::once(ways.first).chain(ways.second)
}

fn uses(ways: Ways) -> u32 {
    ways.first.uses | ways.second.map_or(0, |way| way.uses)
}

fn items(bits: u32) -> impl Iterator<Item = usize> {
    (0..ITEMS).filter(move |item| bits >> item & 1 == 1)
}

fn count(counts: &mut [u32; ITEMS], old: u32, new: u32) {
    items(new & !old).for_each(|item| counts[item] += 1);
    items(old & !new).for_each(|item| counts[item] -= 1);
}

/// What a sequence of instructions reads before it writes it, and what it writes, where each continues to the next.
fn read_and_written(run: &[(u32, u32)]) -> (u32, u32) {
    run.iter().rev().fold((0, 0), |(read, written), (uses, writes)| (uses | read & !writes, written | writes))
}

impl Graph {
    pub fn of(listing: &Listing) -> Graph {
        let flows = Flows::of(listing);
        let count = flows.ways.len();
        let mut ways = flows.ways;
        ways.push(None);
        let jumps = |ways: &[Option<Ways>], put: &mut dyn FnMut(usize, usize)| {
            for (place, here) in ways.iter().enumerate() {
                for way in here.iter().flat_map(|here| all(*here)) {
                    if let Next::Place(to) = way.next {
                        if to != place + 1 {
                            put(place, to);
                        }
                    }
                }
            }
        };
        let mut ends = vec![0; count + 2];
        jumps(&ways, &mut |_, to| ends[to + 1] += 1);
        for place in 0..=count {
            ends[place + 1] += ends[place];
        }
        let mut callers = vec![0; ends[count + 1] as usize];
        let mut left = ends.clone();
        jumps(&ways, &mut |place, to| {
            callers[left[to] as usize] = place as u32;
            left[to] += 1;
        });
        let mut aims = vec![count as u32 + 1; count + 2];
        let mut points_before = vec![0; count + 2];
        for place in (0..=count).rev() {
            aims[place] = if ends[place] == ends[place + 1] { aims[place + 1] } else { place as u32 };
        }
        for place in 0..=count {
            points_before[place + 1] = points_before[place] + u32::from(flows.is_point[place]);
        }
        let returns: Vec<usize> = (0..count).filter(|place| ways[*place].is_some_and(|ways| ways.first.next == Next::Points)).collect();
        let passed = returns.iter().filter_map(|place| ways[*place]).fold(0, |passed, here| passed | !here.first.writes & !uses(here));
        let mut graph = Graph {
            ways,
            kept: Kept::all(count),
            callers,
            ends,
            aims,
            points_before,
            returns,
            passed,
            before: vec![0; count + 1],
            forward: vec![0; count + 1],
            live_points: [0; ITEMS],
            forward_points: [0; ITEMS],
            at_points: 0,
            stack: Vec::new(),
            is_waiting: vec![false; count + 1],
            touched: Vec::new(),
            is_touched: vec![false; count + 1],
        };
        graph.find();
        graph
    }

    /// What is live before the first kept place from a place on.
    pub fn live_at(&self, node: usize) -> u32 {
        self.before[node]
    }

    pub fn is_op(&self, place: usize) -> bool {
        self.ways[place].is_some()
    }

    fn is_point(&self, place: usize) -> bool {
        self.points_before[place + 1] > self.points_before[self.kept.start(place)]
    }

    fn put_live(&mut self, place: usize, live: u32) {
        let old = std::mem::replace(&mut self.before[place], live);
        if (old ^ live) & self.passed != 0 && self.is_point(place) {
            count(&mut self.live_points, old & self.passed, live & self.passed);
        }
    }

    fn put_forward(&mut self, place: usize, read: u32) {
        let old = std::mem::replace(&mut self.forward[place], read);
        if (old ^ read) & self.passed != 0 && self.is_point(place) {
            count(&mut self.forward_points, old & self.passed, read & self.passed);
        }
    }

    /// The passed items that are live at some code point.
    fn held_by_points(&self) -> u32 {
        items(self.passed).filter(|item| self.live_points[*item] > 0).fold(0, |held, item| held | 1 << item)
    }

    fn seen(&mut self, place: usize) -> u32 {
        let Some(here) = self.ways[place] else { return 0 };
        all(here).fold(0, |seen, way| {
            let there = match way.next {
                Next::Place(to) => self.before[self.kept.node(to)],
                Next::Points => self.at_points,
                Next::Out => 0,
            };
            seen | way.uses | there & !way.writes
        })
    }

    fn seen_forward(&mut self, place: usize) -> u32 {
        let Some(here) = self.ways[place] else { return 0 };
        all(here).fold(0, |seen, way| {
            let there = match way.next {
                Next::Place(to) if to > place => self.forward[self.kept.node(to)],
                _ => 0,
            };
            seen | way.uses | there & !way.writes
        })
    }

    /// Calls `put` for each place with an edge to one of these places, of which the last is kept.
    fn each_source(&self, start: usize, place: usize, mut put: impl FnMut(usize)) {
        let before = self.kept.previous[place];
        if before != NONE && self.ways[before].is_some_and(|ways| all(ways).any(|way| way.next == Next::Place(before + 1))) {
            put(before);
        }
        let mut at = self.aims[start] as usize;
        while at <= place {
            self.callers[self.ends[at] as usize..self.ends[at + 1] as usize].iter().for_each(|caller| put(*caller as usize));
            at = self.aims[at + 1] as usize;
        }
    }

    fn sources(&self, place: usize) -> Vec<usize> {
        let mut sources = Vec::new();
        self.each_source(self.kept.start(place), place, |source| sources.push(source));
        sources
    }

    fn wait(&mut self, place: usize) {
        if !self.is_waiting[place] {
            self.is_waiting[place] = true;
            self.stack.push(place);
        }
    }

    fn wait_for_sources(&mut self, place: usize) {
        let (mut stack, mut is_waiting) = (std::mem::take(&mut self.stack), std::mem::take(&mut self.is_waiting));
        self.each_source(self.kept.start(place), place, |source| {
            if !is_waiting[source] {
                is_waiting[source] = true;
                stack.push(source);
            }
        });
        (self.stack, self.is_waiting) = (stack, is_waiting);
    }

    fn wait_for_returns(&mut self) {
        for n in 0..self.returns.len() {
            self.wait(self.returns[n]);
        }
    }

    /// Computes what is live at first: one pass over forward edges, then a worklist of the places with other edges.
    fn find(&mut self) {
        for place in (0..self.kept.end()).rev() {
            let forward = self.seen_forward(place);
            self.put_forward(place, forward);
            let live = self.seen(place);
            self.put_live(place, live);
        }
        self.at_points = self.held_by_points();
        for place in 0..self.kept.end() {
            let is_other = |way: Way| match way.next {
                Next::Place(to) => to <= place,
                Next::Points => true,
                Next::Out => false,
            };
            if self.ways[place].is_some_and(|ways| all(ways).any(is_other)) {
                self.wait(place);
            }
        }
        self.grow();
        for (place, _) in std::mem::take(&mut self.touched) {
            self.is_touched[place] = false;
        }
    }

    fn grow(&mut self) {
        while let Some(place) = self.stack.pop() {
            self.is_waiting[place] = false;
            let old = self.before[place];
            let new = old | self.seen(place);
            if new != old {
                self.touch(place);
                self.put_live(place, new);
                self.wait_for_sources(place);
                if new & self.passed & !self.at_points != 0 && self.is_point(place) {
                    self.at_points |= new & self.passed;
                    self.wait_for_returns();
                }
            }
        }
    }

    fn touch(&mut self, place: usize) {
        if !self.is_touched[place] {
            self.is_touched[place] = true;
            self.touched.push((place, self.before[place]));
        }
    }

    /// Recomputes what is read along forward edges where the set of a place has changed: greatest places first.
    fn refresh_forward(&mut self, place: usize) {
        let mut waiting: BinaryHeap<usize> = self.sources(place).into_iter().filter(|source| *source < place).collect();
        let mut last = NONE;
        while let Some(place) = waiting.pop() {
            if place == last {
                continue;
            }
            last = place;
            let new = self.seen_forward(place);
            if new != self.forward[place] {
                self.put_forward(place, new);
                waiting.extend(self.sources(place).into_iter().filter(|source| *source < place));
            }
        }
    }

    /// Removes items from before each place that passes them on to places that lost them.
    fn clear(&mut self, window: &Window, lost: u32) {
        let mut cleared = vec![(window.first, lost)];
        while let Some((place, lost)) = cleared.pop() {
            for source in self.sources(place) {
                // the window as it was counts as one place
                if source == window.last {
                    self.lose(window.first, lost & !window.written & !window.read, &mut cleared);
                } else if let Some(ways) = self.ways[source] {
                    let start = self.kept.start(place);
                    let leads = |way: &Way| matches!(way.next, Next::Place(to) if start <= to && to <= place);
                    let passed = all(ways).filter(leads).fold(0, |passed, way| passed | lost & !way.writes);
                    self.lose(source, passed & !uses(ways), &mut cleared);
                }
            }
            let at_points = lost & self.at_points & self.passed;
            if at_points != 0 && self.is_point(place) {
                self.clear_points(at_points, &mut cleared);
            }
        }
    }

    /// Removes items from all code points, if none of them has it along forward edges.
    fn clear_points(&mut self, lost: u32, cleared: &mut Vec<(usize, u32)>) {
        let lost = items(lost).filter(|item| self.forward_points[*item] == 0).fold(0, |lost, item| lost | 1 << item);
        if lost == 0 {
            return;
        }
        self.at_points &= !lost;
        for n in 0..self.returns.len() {
            let place = self.returns[n];
            if let Some(ways) = self.ways[place] {
                self.lose(place, lost & !ways.first.writes & !uses(ways), cleared);
            }
        }
    }

    fn lose(&mut self, place: usize, items: u32, cleared: &mut Vec<(usize, u32)>) {
        let lost = items & self.before[place] & !self.forward[place];
        if lost != 0 {
            self.touch(place);
            self.put_live(place, self.before[place] & !lost);
            cleared.push((place, lost));
        }
    }

    /// Puts instructions with these reads and writes in place of a window's first ones, and removes the others. Calls `lost_at` for each kept place before
    /// which fewer items are live than before.
    pub fn replace(&mut self, places: &[usize], new: &[(u32, u32)], mut lost_at: impl FnMut(usize, &Kept)) {
        let (first, last) = (places[0], places[places.len() - 1]);
        let behind = self.kept.next[last];
        let old: Vec<(u32, u32)> = places.iter().filter_map(|place| self.ways[*place]).map(|ways| (ways.first.uses, ways.first.writes)).collect();
        let (read, written) = read_and_written(&old);
        let (new_read, new_written) = read_and_written(new);
        let forward = new_read | self.forward[behind] & !new_written;
        if forward != self.forward[first] {
            self.put_forward(first, forward);
            self.refresh_forward(first);
        }
        let was_live = self.before[first];
        self.touch(first);
        let lost = was_live & !new_read & (read | new_written & !written) & !forward;
        if lost != 0 {
            self.put_live(first, was_live & !lost);
            self.clear(&Window { first, last, read, written }, lost);
            self.at_points |= self.held_by_points();
        }
        self.put_in(places, new, behind);
        self.grow();
        for (place, old) in std::mem::take(&mut self.touched) {
            self.is_touched[place] = false;
            let place = self.kept.node(place);
            if old & !self.before[place] != 0 {
                lost_at(place, &self.kept);
            }
        }
    }

    /// Inserts the new instructions, with what is live before them, and queues what may lack something.
    fn put_in(&mut self, places: &[usize], new: &[(u32, u32)], behind: usize) {
        let first = places[0];
        let cleared = self.before[first];
        let (mut live, mut forward) = (self.before[behind], self.forward[behind]);
        for (n, place) in places.iter().enumerate().rev() {
            match new.get(n) {
                Some((uses, writes)) => {
                    live = uses | live & !writes;
                    forward = uses | forward & !writes;
                    let way = Way { uses: *uses, writes: *writes, next: Next::Place(place + 1) };
                    self.ways[*place] = Some(Ways { first: way, second: None });
                    self.put_live(*place, live);
                    self.put_forward(*place, forward);
                }
                None => self.leave(*place),
            }
        }
        for n in 0..self.touched.len() {
            let place = self.touched[n].0;
            if self.kept.is_kept(place) {
                self.wait(place);
            }
        }
        let head = if new.is_empty() { behind } else { first };
        if live & !cleared != 0 {
            self.wait_for_sources(head);
        }
        let new_at_points = self.held_by_points() & !self.at_points;
        if new_at_points != 0 {
            self.at_points |= new_at_points;
            self.wait_for_returns();
        }
    }

    /// Removes a place: what follows it represents it.
    fn leave(&mut self, place: usize) {
        let behind = self.kept.next[place];
        let (live, forward) = (self.before[behind], self.forward[behind]);
        self.put_live(place, 0);
        self.put_forward(place, 0);
        // the sets of what follows are counted again, as it may be a code point now
        self.put_live(behind, 0);
        self.put_forward(behind, 0);
        self.kept.leave(place);
        self.put_live(behind, live);
        self.put_forward(behind, forward);
    }
}

/// A window before its replacement.
struct Window {
    first: usize,
    last: usize,
    read: u32,
    written: u32,
}
