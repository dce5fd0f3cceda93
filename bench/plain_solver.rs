//! The solver in plain Rust, shared by the plain programs of the measures: it makes the same decisions, propagates in the same order and shortens what it
//! learns in the same way as the proved one, so that its log is equal.
// not every program needs all of it
#![allow(dead_code)]

const NONE: u32 = u32::MAX;

/// Clauses in one vector of words: the length, for each of two slots the watched literal and the link to the next watch, then the literals. A link is twice the
/// clause's index plus the slot.
struct Arena {
    words: Vec<u32>,
    heads: Vec<u32>,
}

fn place_of(link: u32) -> usize {
    (link / 2 + 1 + 2 * (link % 2)) as usize
}

impl Arena {
    fn literals(&self, at: u32) -> &[u32] {
        let start = at as usize + 5;
        &self.words[start..start + self.words[at as usize] as usize]
    }

    fn push(&mut self, literals: &[u32]) -> u32 {
        let at = self.words.len() as u32;
        self.words.extend([literals.len() as u32, NONE, NONE, NONE, NONE]);
        self.words.extend_from_slice(literals);
        at
    }

    fn watch(&mut self, link: u32, literal: u32) {
        let place = place_of(link);
        self.words[place] = literal;
        self.words[place + 1] = self.heads[literal as usize];
        self.heads[literal as usize] = link;
    }

    fn move_watch(&mut self, before: u32, link: u32, from: u32, to: u32) {
        let next = self.words[place_of(link) + 1];
        if before == NONE {
            self.heads[from as usize] = next;
        } else {
            self.words[place_of(before) + 1] = next;
        }
        self.watch(link, to);
    }
}

/// The true literals, each with the clause that implied it.
struct Trail {
    marks: Vec<bool>,
    literals: Vec<u32>,
    reasons: Vec<u32>,
    /// The index of each variable's literal.
    places: Vec<u32>,
}

impl Trail {
    fn is_true(&self, literal: u32) -> bool {
        self.marks[literal as usize]
    }

    fn is_false(&self, literal: u32) -> bool {
        self.marks[literal as usize ^ 1]
    }

    fn set(&mut self, literal: u32, reason: u32) {
        self.marks[literal as usize] = true;
        self.places[literal as usize / 2] = self.literals.len() as u32;
        self.literals.push(literal);
        self.reasons.push(reason);
    }

    fn back(&mut self, len: usize) {
        for literal in self.literals.drain(len..) {
            self.marks[literal as usize] = false;
        }
        self.reasons.truncate(len);
    }
}

/// Literals that were seen, with marks.
struct Seen {
    marks: Vec<bool>,
    literals: Vec<u32>,
}

impl Seen {
    fn clear(&mut self) {
        for literal in self.literals.drain(..) {
            self.marks[literal as usize] = false;
        }
    }

    /// Marks the true literals whose negations are in the clause.
    fn see(&mut self, clause: &[u32], trail: &Trail) {
        for literal in clause {
            let contrary = literal ^ 1;
            if trail.is_true(contrary) && !self.marks[contrary as usize] {
                self.marks[contrary as usize] = true;
                self.literals.push(contrary);
            }
        }
    }
}

struct Order {
    ranked: Vec<u32>,
    is_involved: Vec<bool>,
    by_number: bool,
    number_cost: u64,
    rank_cost: u64,
    next: usize,
    phases: Vec<bool>,
}

impl Order {
    fn begin(&mut self) {
        self.next = 0;
        self.by_number = self.number_cost < 2 * self.rank_cost;
    }

    fn propose(&mut self, trail: &Trail) -> Option<u32> {
        while self.next < self.ranked.len() {
            let variable = if self.by_number { self.next as u32 } else { self.ranked[self.next] };
            self.next += 1;
            let literal = 2 * variable + u32::from(self.phases[variable as usize]);
            if !trail.is_true(literal) && !trail.is_false(literal) {
                return Some(literal);
            }
        }
        None
    }

    fn note(&mut self, literals: &[u32], length: usize) {
        let cost = (length * length) as u64;
        if self.by_number {
            self.number_cost += cost;
        } else {
            self.rank_cost += cost;
        }
        for literal in literals {
            self.is_involved[*literal as usize / 2] = true;
        }
        let (mut first, others): (Vec<u32>, Vec<u32>) =
            self.ranked.iter().partition(|variable| self.is_involved[**variable as usize]);
        first.extend(others);
        self.ranked = first;
        for literal in literals {
            self.is_involved[*literal as usize / 2] = false;
        }
    }
}

pub struct Line {
    pub literals: Vec<u32>,
    pub hints: Vec<u32>,
}

struct Solver {
    arena: Arena,
    /// The clauses in the arena, with their numbers.
    refs: Vec<u32>,
    ids: Vec<u32>,
    /// How many literals were true before any decision when clauses were last dropped.
    swept: usize,
    trail: Trail,
    seen: Seen,
    order: Order,
}

enum Ending {
    Model,
    Refuted(Line),
    Taught(Line),
}

impl Solver {
    fn new(variables: usize) -> Solver {
        let literals = 2 * variables;
        Solver {
            arena: Arena { words: Vec::new(), heads: vec![NONE; literals] },
            refs: Vec::new(),
            ids: Vec::new(),
            swept: 0,
            trail: Trail { marks: vec![false; literals], literals: Vec::new(), reasons: Vec::new(), places: vec![0; variables] },
            seen: Seen { marks: vec![false; literals], literals: Vec::new() },
            order: Order {
                ranked: (0..variables as u32).rev().collect(),
                is_involved: vec![false; variables],
                by_number: false,
                number_cost: 0,
                rank_cost: 0,
                next: 0,
                phases: vec![true; variables],
            },
        }
    }

    /// Adds a clause; returns it if it is false.
    fn adopt(&mut self, literals: &[u32], id: u32) -> Option<u32> {
        let at = self.arena.push(literals);
        self.refs.push(at);
        self.ids.push(id);
        let first = literals[0];
        match literals.iter().find(|literal| **literal != first) {
            Some(second) => {
                self.arena.watch(2 * at, first);
                self.arena.watch(2 * at + 1, *second);
            }
            None if self.trail.is_true(first) => (),
            None if self.trail.is_false(first) => return Some(at),
            None => self.trail.set(first, at),
        }
        None
    }

    /// Drops the clauses that are true before any decision and aren't reasons, once they have more than half of the words of the proved solver's arena, in
    /// which a clause has six besides its literals.
    fn drop_true(&mut self) {
        let Solver { arena, refs, ids, trail, swept, .. } = self;
        if trail.literals.len() == *swept {
            return;
        }
        *swept = trail.literals.len();
        let place = |refs: &[u32], at: u32| refs.binary_search(&at).unwrap();
        let mut stays = vec![false; refs.len()];
        for reason in &trail.reasons {
            stays[place(refs, *reason)] = true;
        }
        let (mut words, mut dropped_words) = (0, 0);
        for (at, stays) in refs.iter().zip(&mut stays) {
            let literals = arena.literals(*at);
            *stays = *stays || !literals.iter().any(|literal| trail.is_true(*literal));
            *(if *stays { &mut words } else { &mut dropped_words }) += literals.len() + 6;
        }
        if dropped_words <= words {
            return;
        }
        let mut left = Arena { words: Vec::new(), heads: vec![NONE; arena.heads.len()] };
        let (mut kept, mut moved, mut names) = (Vec::new(), Vec::new(), Vec::new());
        for ((at, id), _) in refs.iter().zip(&*ids).zip(&stays).filter(|(_, stays)| **stays) {
            let copy = left.push(arena.literals(*at));
            for slot in 0..2 {
                let literal = arena.words[place_of(2 * at + slot)];
                if literal != NONE {
                    left.watch(2 * copy + slot, literal);
                }
            }
            kept.push(*at);
            moved.push(copy);
            names.push(*id);
        }
        for reason in &mut trail.reasons {
            *reason = moved[place(&kept, *reason)];
        }
        (*arena, *refs, *ids) = (left, moved, names);
    }

    fn propagate(&mut self, from: usize) -> Option<u32> {
        let mut head = from;
        let mut conflict = None;
        while conflict.is_none() && head < self.trail.literals.len() {
            let falsified = self.trail.literals[head] ^ 1;
            head += 1;
            conflict = self.walk(falsified);
        }
        conflict
    }

    /// Visits the watches of a literal that has become false.
    fn walk(&mut self, falsified: u32) -> Option<u32> {
        let Solver { arena, trail, .. } = self;
        let mut before = NONE;
        let mut next = arena.heads[falsified as usize];
        while next != NONE {
            let link = next;
            let at = link / 2;
            next = arena.words[place_of(link) + 1];
            let other = arena.words[place_of(link ^ 1)];
            if trail.is_true(other) {
                before = link;
                continue;
            }
            let free = arena.literals(at).iter().copied().find(|l| *l != other && !trail.is_false(*l));
            match free {
                Some(free) => arena.move_watch(before, link, falsified, free),
                None if trail.is_false(other) => return Some(at),
                None => {
                    trail.set(other, at);
                    before = link;
                }
            }
        }
        None
    }

    /// The literal of the first unique implication point, and the other literals.
    fn analyse(&mut self, low: usize, start: usize, conflict: u32) -> (u32, Vec<u32>) {
        let Solver { arena, trail, seen, .. } = self;
        seen.clear();
        let (mut at, mut open, mut clause) = (trail.literals.len(), 0, conflict);
        loop {
            // how many seen literals of this level are pending
            let count = seen.literals.len();
            seen.see(arena.literals(clause), trail);
            open += seen.literals[count..].iter().filter(|l| trail.places[**l as usize / 2] as usize >= start).count();
            at -= 1;
            while !seen.marks[trail.literals[at] as usize] {
                at -= 1;
            }
            if open == 1 {
                let lower = trail.literals[low..start].iter().filter(|l| seen.marks[**l as usize]);
                return (trail.literals[at] ^ 1, lower.map(|l| l ^ 1).collect());
            }
            open -= 1;
            clause = trail.reasons[at];
        }
    }

    /// Makes literals false, up to one that is true; returns whether there is one.
    fn assume(&mut self, literals: &[u32]) -> bool {
        for literal in literals {
            if self.trail.is_true(*literal) {
                return true;
            }
            if !self.trail.is_false(*literal) {
                self.trail.set(literal ^ 1, NONE);
            }
        }
        false
    }

    /// Those of the literals that are needed when `denied` are false as well.
    fn needed(&mut self, denied: &[u32], literals: &[u32]) -> Vec<u32> {
        let mark = self.trail.literals.len();
        let mut part = Vec::new();
        if !self.assume(denied) && self.propagate(mark).is_none() {
            if literals.len() <= 1 {
                part = literals.to_vec();
            } else {
                let (first, second) = literals.split_at(literals.len() / 2);
                part = self.needed(second, first);
                let rest = self.needed(&part, second);
                part.extend(rest);
            }
        }
        self.trail.back(mark);
        part
    }

    /// The line that adds the negations of the given literals, which make a clause false.
    fn derive(&mut self, givens: std::ops::Range<usize>, conflict: u32) -> Line {
        let Solver { arena, trail, seen, refs, ids, .. } = self;
        let hint_of = |at: u32| ids[refs.binary_search(&at).unwrap()];
        let literals = trail.literals[givens].iter().map(|l| l ^ 1).collect();
        seen.clear();
        seen.see(arena.literals(conflict), trail);
        let mut hints = vec![hint_of(conflict)];
        for (literal, reason) in trail.literals.iter().zip(&trail.reasons).rev() {
            if seen.marks[*literal as usize] && *reason != NONE {
                seen.see(arena.literals(*reason), trail);
                hints.push(hint_of(*reason));
            }
        }
        hints.reverse();
        Line { literals, hints }
    }

    /// The line of the clause learnt from a conflict.
    fn learn(&mut self, low: usize, start: usize, conflict: u32) -> Line {
        let (literal, others) = self.analyse(low, start, conflict);
        self.trail.back(low);
        let mut clause = vec![literal];
        clause.extend(self.needed(&[literal], &others));
        self.assume(&clause);
        let high = self.trail.literals.len();
        let conflict = self.propagate(low).unwrap();
        self.derive(low..high, conflict)
    }

    /// Searches from what is true before any decision.
    fn search(&mut self, conflict: Option<u32>) -> Ending {
        if let Some(at) = conflict.or_else(|| self.propagate(0)) {
            return Ending::Refuted(self.derive(0..0, at));
        }
        let low = self.trail.literals.len();
        self.order.begin();
        while let Some(literal) = self.order.propose(&self.trail) {
            let start = self.trail.literals.len();
            self.trail.set(literal, NONE);
            if let Some(conflict) = self.propagate(start) {
                for literal in &self.trail.literals {
                    self.order.phases[*literal as usize / 2] = literal % 2 == 1;
                }
                let line = self.learn(low, start, conflict);
                self.order.note(&self.seen.literals, line.literals.len());
                self.trail.back(low);
                return Ending::Taught(line);
            }
        }
        Ending::Model
    }
}

/// What a solver found.
pub enum Verdict {
    /// The values of the variables.
    Sat(Vec<bool>),
    Unsat(Vec<Line>),
    Spent(Vec<Line>),
}

/// The number of a literal in DIMACS.
pub fn number(literal: u32) -> i32 {
    let variable = (literal / 2) as i32 + 1;
    if literal % 2 == 0 { variable } else { -variable }
}

/// Whether clauses have a model, with at most `budget` learnt clauses. A literal is twice the variable, plus 1 if negative.
pub fn solve(variables: usize, clauses: &[Vec<u32>], budget: usize) -> Verdict {
    if clauses.iter().any(Vec::is_empty) {
        return Verdict::Unsat(Vec::new());
    }
    let mut solver = Solver::new(variables);
    let mut current = None;
    for (clause, id) in clauses.iter().zip(1..) {
        current = solver.adopt(clause, id).or(current);
    }
    let mut log = Vec::new();
    while log.len() < budget {
        match solver.search(current) {
            Ending::Model => return Verdict::Sat((0..variables as u32).map(|variable| solver.trail.is_true(2 * variable)).collect()),
            Ending::Refuted(line) => {
                log.push(line);
                return Verdict::Unsat(log);
            }
            Ending::Taught(line) => {
                solver.drop_true();
                current = solver.adopt(&line.literals, (clauses.len() + log.len() + 1) as u32);
                log.push(line);
            }
        }
    }
    Verdict::Spent(log)
}
