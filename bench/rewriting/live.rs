//! Live items that are updated while windows are replaced: only what may have shrunk is recomputed.

use crate::listing::Listing;
use crate::plain_flows::{Flows, Next, Way, Ways};

/// How far straight code is followed.
const AHEAD: usize = 64;

pub struct Live {
    flows: Flows,
    /// The places that reach each place by a branch or a call: those of a place lie between its end and that of the place before.
    jumpers: Vec<u32>,
    ends: Vec<u32>,
    /// The places that continue at a code point, and the code points.
    by_points: Vec<usize>,
    points: Vec<usize>,
    /// For each item a code point from which straight code reads it, if one is known.
    readers: [Option<usize>; 19],
    /// The places that were visited since a replacement, with what was live after them.
    touched: Vec<(usize, u32)>,
    is_touched: Vec<bool>,
    /// The places outside the window after which fewer items are live than before the last replacement.
    pub shrunk: Vec<usize>,
}

/// The items that are live before straight code if these are live after it.
fn before(ways: &[Way], after: u32) -> u32 {
    ways.iter().rev().fold(after, |live, way| way.uses | (live & !way.writes))
}

impl Live {
    pub fn of(listing: &Listing) -> Live {
        let mut flows = Flows::of(listing);
        flows.find();
        let count = flows.ways.len();
        let all_ways = || flows.ways.iter().enumerate().filter_map(|(place, ways)| ways.map(|ways| (place, ways)));
        let jumps = || all_ways().filter_map(|(place, ways)| match ways.first.next {
            Next::Place(next) if next != place + 1 && next < count => Some((place, next)),
            _ => None,
        });
        let mut ends = vec![0; count];
        jumps().for_each(|(_, next)| ends[next] += 1);
        let mut end = 0;
        for each in &mut ends {
            end += *each;
            *each = end;
        }
        let mut jumpers = vec![0; end as usize];
        let mut left = ends.clone();
        for (place, next) in jumps() {
            left[next] -= 1;
            jumpers[left[next] as usize] = place as u32;
        }
        let by_points = all_ways().filter(|(_, ways)| matches!(ways.first.next, Next::Points)).map(|(place, _)| place).collect();
        let points = (0..count).filter(|place| flows.is_point[*place]).collect();
        Live { flows, jumpers, ends, by_points, points, readers: [None; 19], touched: Vec::new(), is_touched: vec![false; count], shrunk: Vec::new() }
    }

    pub fn after(&self, place: usize) -> u32 {
        self.flows.after[place]
    }

    pub fn is_op(&self, place: usize) -> bool {
        self.flows.ways[place].is_some()
    }

    /// The items among these that are read from a place on before they are written, in code that is followed for a limited distance.
    fn read_ahead(&self, place: usize, items: u32) -> u32 {
        let (mut place, mut left, mut read) = (place, items, 0);
        for _ in 0..AHEAD {
            let Some(ways) = self.flows.ways.get(place).copied().flatten() else { break };
            read |= left & (ways.first.uses | ways.second.map_or(0, |way| way.uses));
            let onward = ways.second.unwrap_or(ways.first);
            left &= !(onward.writes | read);
            match onward.next {
                Next::Place(next) if left != 0 => place = next,
                _ => break,
            }
        }
        read
    }

    /// The items among these that straight code at some code point reads.
    fn read_at_points(&mut self, items: u32) -> u32 {
        let mut read = 0;
        for item in (0..19).filter(|item| items >> item & 1 == 1) {
            let reads = |place: &usize| self.read_ahead(*place, 1 << item) != 0;
            let reader = self.readers[item].filter(reads).or_else(|| self.points.iter().copied().find(reads));
            self.readers[item] = reader;
            read |= u32::from(reader.is_some()) << item;
        }
        read
    }

    fn touch(&mut self, place: usize) {
        if !self.is_touched[place] {
            self.is_touched[place] = true;
            self.touched.push((place, self.flows.after[place]));
        }
    }

    /// Appends the places that continue at a place to others.
    fn put_sources(&self, place: usize, sources: &mut Vec<usize>) {
        if place > 0 && self.flows.ways[place - 1].is_some() {
            sources.push(place - 1);
        }
        let from = if place > 0 { self.ends[place - 1] } else { 0 };
        sources.extend(self.jumpers[from as usize..self.ends[place] as usize].iter().map(|source| *source as usize));
    }

    /// Removes items from before a place with this successor, if it reads none of them.
    fn lose(&mut self, place: usize, onward: Next, items: u32, taken: &mut Vec<(usize, u32)>) {
        self.touch(place);
        let Some(Ways { first, second }) = self.flows.ways[place] else { return };
        let passed = |way: Way| if way.next == onward { items & !way.writes } else { 0 };
        let read = first.uses | second.map_or(0, |way| way.uses);
        let lost = (passed(first) | second.map_or(0, passed)) & !read & self.flows.before[place];
        if lost != 0 {
            self.flows.before[place] &= !lost;
            taken.push((place, lost));
        }
    }

    /// Removes items that were removed before a place wherever they are live because of it, up to where they are read.
    fn take(&mut self, place: usize, items: u32) {
        let mut taken = vec![(place, items)];
        let mut sources = Vec::new();
        while let Some((place, items)) = taken.pop() {
            self.put_sources(place, &mut sources);
            for source in sources.drain(..) {
                self.lose(source, Next::Place(place), items, &mut taken);
            }
            let held = if self.flows.is_point[place] { items & self.flows.points } else { 0 };
            let lost = held & !self.read_at_points(held);
            if lost != 0 {
                self.flows.points &= !lost;
                for n in 0..self.by_points.len() {
                    self.lose(self.by_points[n], Next::Points, lost, &mut taken);
                }
            }
        }
    }

    /// Recomputes the sets of places, and of those before them that grow because of them.
    fn grow(&mut self, mut places: Vec<usize>) {
        while let Some(place) = places.pop() {
            self.touch(place);
            let (before, after) = self.flows.seen(place);
            self.flows.after[place] = after;
            let new = self.flows.before[place] | before;
            if new != self.flows.before[place] {
                self.flows.before[place] = new;
                self.put_sources(place, &mut places);
                if self.flows.is_point[place] && new & !self.flows.points != 0 {
                    self.flows.points |= new;
                    places.extend_from_slice(&self.by_points);
                }
            }
        }
    }

    /// Puts instructions with these reads and writes in place of a window's first ones, and removes the others.
    pub fn replace(&mut self, window: &[usize], new: &[(u32, u32)]) {
        self.shrunk.clear();
        let (first, last) = (window[0], window[window.len() - 1]);
        let ways = |flows: &Flows| -> [Way; 5] {
            std::array::from_fn(|n| match window.get(n).and_then(|place| flows.ways[*place]) {
                Some(ways) => ways.first,
                None => Way { uses: 0, writes: 0, next: Next::Out },
            })
        };
        let old_ways = ways(&self.flows);
        for (n, place) in window.iter().enumerate() {
            let (uses, writes) = new.get(n).copied().unwrap_or((0, 0));
            self.flows.ways[*place] = Some(Ways { first: Way { uses, writes, next: Next::Place(place + 1) }, second: None });
        }
        let new_ways = ways(&self.flows);
        let after = self.flows.after[last];
        let old_before = self.flows.before[first];
        let mut new_before = before(&new_ways, after);
        let no_longer_read = before(&old_ways, 0) & !before(&new_ways, 0) & new_before;
        let lost = no_longer_read & !self.read_ahead(last + 1, no_longer_read) | (old_before & !new_before);
        new_before &= !lost;
        // the sets inside
        let mut live = after;
        for place in (first..=last).rev() {
            self.flows.after[place] = live;
            live = self.flows.ways[place].map_or(0, |ways| ways.first.uses | (live & !ways.first.writes));
            self.flows.before[place] = live;
        }
        self.flows.before[first] = new_before;
        if new_before == old_before {
            return;
        }
        if lost != 0 {
            self.touch(first);
            self.take(first, lost);
        }
        let mut places: Vec<usize> = self.touched.iter().map(|(place, _)| *place).collect();
        self.put_sources(first, &mut places);
        if self.flows.is_point[first] && new_before & !self.flows.points != 0 {
            self.flows.points |= new_before;
            places.extend_from_slice(&self.by_points);
        }
        self.grow(places);
        for (place, old) in std::mem::take(&mut self.touched) {
            self.is_touched[place] = false;
            if old & !self.flows.after[place] != 0 {
                self.shrunk.push(place);
            }
        }
    }
}
