//! Where branches go, and the ends of chains. A label is identified by its line, as those of one line are at one place and address. Each branch is in
//! the list of its target place; when a place is removed, its list joins that of the next one. The end of a chain is cached for each branch on the way to it.

use crate::instruction::Instr;
use crate::kept::Kept;
use crate::line::Statement;
use crate::listing::Listing;
use crate::mentioned::{code_label, Mentioned};

/// The line of a label, and one whose statement mentions it by its name.
#[derive(Clone, Copy)]
pub struct Aim {
    pub line: u32,
    pub named: u32,
}

/// The end of the chain that continues with a branch: not known, none as it is a cycle, or a label.
#[derive(Clone, Copy)]
enum End {
    Unknown,
    Round,
    At(Aim),
}

/// The list of the branches to one place.
#[derive(Clone, Copy)]
struct Links {
    next: u32,
    previous: u32,
}

const NO_LINK: u32 = u32::MAX;

/// The most branches with changed chain ends that are handled one by one. If there are more, those near the old and new ends are checked.
const FEW: usize = 256;

pub struct Chains<'a> {
    listing: &'a Listing,
    /// For each place the label of its branch, and whether that is unconditional.
    aims: Vec<Option<Aim>>,
    is_always: Vec<bool>,
    ends: Vec<End>,
    /// The first and the last branch to each place, and each branch's predecessor and successor in the list.
    callers: Vec<(u32, u32)>,
    links: Vec<Links>,
}

/// The label of a branch to a code label.
fn aim_of(listing: &Listing, mentioned: &[Mentioned], line: u32) -> Option<Aim> {
    match listing.lines[line as usize].statement {
        Statement::Runs { instr: Instr::Branch | Instr::BranchIf(_), .. } => code_label(listing, mentioned, line).map(|label| Aim { line: label, named: line }),
        _ => None,
    }
}

impl<'a> Chains<'a> {
    pub fn of(listing: &'a Listing, mentioned: &[Mentioned], kept: &mut Kept) -> Chains<'a> {
        let count = listing.spots.len();
        let is_always = |line: u32| matches!(listing.lines[line as usize].statement, Statement::Runs { instr: Instr::Branch, .. });
        let mut chains = Chains {
            listing,
            aims: listing.spots.iter().map(|(line, _)| aim_of(listing, mentioned, *line)).chain([None]).collect(),
            is_always: listing.spots.iter().map(|(line, _)| is_always(*line)).chain([false]).collect(),
            ends: vec![End::Unknown; count + 1],
            callers: vec![(NO_LINK, NO_LINK); count + 1],
            links: vec![Links { next: NO_LINK, previous: NO_LINK }; count + 1],
        };
        for place in 0..count {
            if let Some(aim) = chains.aims[place] {
                chains.link(kept, place, aim);
            }
        }
        chains
    }

    /// The label to which the branch at a place goes.
    pub fn aim(&self, place: usize) -> Option<Aim> {
        self.aims[place]
    }

    pub fn place(&self, kept: &mut Kept, aim: Aim) -> usize {
        kept.node(self.listing.passed[aim.line as usize] as usize)
    }

    /// Whether a chain continues at a place.
    pub fn is_hop(&self, place: usize) -> bool {
        self.is_always[place] && self.aims[place].is_some()
    }

    fn link(&mut self, kept: &mut Kept, place: usize, aim: Aim) {
        let to = self.place(kept, aim);
        let (first, last) = self.callers[to];
        self.links[place] = Links { next: first, previous: NO_LINK };
        if first == NO_LINK {
            self.callers[to] = (place as u32, place as u32);
        } else {
            self.links[first as usize].previous = place as u32;
            self.callers[to] = (place as u32, last);
        }
    }

    fn unlink(&mut self, kept: &mut Kept, place: usize, aim: Aim) {
        let to = self.place(kept, aim);
        let Links { next, previous } = self.links[place];
        match previous {
            NO_LINK => self.callers[to].0 = next,
            _ => self.links[previous as usize].next = next,
        }
        match next {
            NO_LINK => self.callers[to].1 = previous,
            _ => self.links[next as usize].previous = previous,
        }
    }

    pub fn has_callers(&self, place: usize) -> bool {
        self.callers[place].0 != NO_LINK
    }

    /// The end of the chain that begins at a label's place.
    pub fn end(&mut self, kept: &mut Kept, place: usize) -> Option<Aim> {
        let mut way = Vec::new();
        let mut at = place;
        let end = loop {
            match (self.aims[at], self.is_always[at], self.ends[at]) {
                (Some(aim), true, End::Unknown) => {
                    // a chain that comes here again is a cycle
                    self.ends[at] = End::Round;
                    way.push(at);
                    at = self.place(kept, aim);
                }
                (Some(_), true, end) => break end,
                _ => break way.last().and_then(|last: &usize| self.aims[*last]).map_or(End::Unknown, End::At),
            }
        };
        way.into_iter().for_each(|at| self.ends[at] = end);
        match end {
            End::At(aim) => Some(aim),
            End::Unknown | End::Round => None,
        }
    }

    /// Forgets the ends of all chains through a place. If a branch's end is known, so are those of the branches after it, so no others need a check.
    pub fn forget(&mut self, place: usize) {
        let mut stack = vec![place];
        while let Some(place) = stack.pop() {
            let mut caller = self.callers[place].0;
            while caller != NO_LINK {
                let at = caller as usize;
                if self.is_always[at] && !matches!(self.ends[at], End::Unknown) {
                    self.ends[at] = End::Unknown;
                    stack.push(at);
                }
                caller = self.links[at].next;
            }
        }
    }

    /// The branches whose chains pass through a place, if they are few.
    pub fn few_before(&self, place: usize) -> Option<Vec<usize>> {
        let mut found = Vec::new();
        let mut places = vec![place];
        while let Some(place) = places.pop() {
            let mut caller = self.callers[place].0;
            while caller != NO_LINK {
                if found.len() == FEW {
                    return None;
                }
                found.push(caller as usize);
                if self.is_always[caller as usize] {
                    places.push(caller as usize);
                }
                caller = self.links[caller as usize].next;
            }
        }
        Some(found)
    }

    /// Changes the label of a branch to the end of its chain.
    pub fn retarget(&mut self, kept: &mut Kept, place: usize, aim: Aim) {
        if let Some(old) = self.aims[place] {
            self.unlink(kept, place, old);
        }
        self.aims[place] = Some(aim);
        self.link(kept, place, aim);
    }

    /// Removes a place, before it is removed from the kept ones.
    pub fn leave(&mut self, kept: &mut Kept, place: usize) {
        if let Some(aim) = self.aims[place] {
            self.unlink(kept, place, aim);
        }
        let next = kept.next[place];
        let (first, last) = std::mem::replace(&mut self.callers[place], (NO_LINK, NO_LINK));
        if first != NO_LINK {
            let (next_first, next_last) = self.callers[next];
            if next_first != NO_LINK {
                self.links[last as usize].next = next_first;
                self.links[next_first as usize].previous = last;
            }
            self.callers[next] = (first, if next_first == NO_LINK { last } else { next_last });
        }
    }
}
