//! Whether clauses are new compared with those before them, in plain Rust, shared by the plain programs of the measures.

/// Clauses, each in the shortest of the lists of its literals.
#[derive(Default)]
struct Lists {
    lists: Vec<Vec<Vec<u32>>>,
    has_empty: bool,
    members: Vec<bool>,
}

impl Lists {
    fn keep(&mut self, clause: &[u32]) {
        let length = |literal: u32| self.lists.get(literal as usize).map_or(0, Vec::len);
        let Some(literal) = clause.iter().copied().min_by_key(|literal| length(*literal)) else {
            self.has_empty = true;
            return;
        };
        let at = literal as usize;
        if self.lists.len() <= at {
            self.lists.resize_with(at + 1, Vec::new);
        }
        self.lists[at].push(clause.to_vec());
    }

    fn is_part(&self, clause: &[u32]) -> bool {
        clause.iter().all(|literal| self.members.get(*literal as usize).copied().unwrap_or(false))
    }

    fn has_part(&self, literals: &[u32]) -> bool {
        let lists = literals.iter().filter_map(|literal| self.lists.get(*literal as usize));
        lists.flatten().any(|clause| self.is_part(clause))
    }

    fn is_new(&mut self, clause: &[u32]) -> bool {
        for literal in clause {
            let at = *literal as usize;
            if self.members.len() <= at {
                self.members.resize(at + 1, false);
            }
            self.members[at] = true;
        }
        let is_new = !self.has_empty && !self.has_part(clause);
        for literal in clause {
            self.members[*literal as usize] = false;
        }
        is_new
    }
}

/// Whether each of some clauses contains none of a formula's clauses and none before it.
pub fn are_new<'a>(formula: &[Vec<u32>], mut clauses: impl Iterator<Item = &'a [u32]>) -> bool {
    let mut lists = Lists::default();
    formula.iter().for_each(|clause| lists.keep(clause));
    clauses.all(|clause| {
        let is_new = lists.is_new(clause);
        lists.keep(clause);
        is_new
    })
}
