//! Audits the table on standard input in plain Rust, and prints how many entries it has, or why it is refused, in the command's words. Its states are compared
//! with the seed's. Each entry's proof is checked over the formula of its sides. The sequences below its right side that the first state doesn't distinguish
//! are looked up, lightest first, and run on the other states until one distinguishes them; then the logs of its open numbers are checked. Then each family's
//! proof is checked over its formula. Prints on standard error the microseconds of auditing and those of reading. With the word `trim` it writes the table with
//! trimmed proofs, and also prints the microseconds of trimming and writing.

#[path = "../plain_checker.rs"]
mod plain_checker;
#[path = "../plain_costs.rs"]
mod plain_costs;
#[path = "../plain_formulas.rs"]
mod plain_formulas;
#[path = "../plain_alphabet.rs"]
mod plain_alphabet;
#[path = "../plain_newness.rs"]
mod plain_newness;
#[path = "../plain_outcomes.rs"]
mod plain_outcomes;
#[path = "../plain_steps.rs"]
mod plain_steps;
#[path = "../plain_tables.rs"]
mod plain_tables;

use plain_checker::{Checker, code};
use plain_formulas::{Builder, family_formula, formula};
use plain_alphabet::{alphabet, seeded, text_of};
use plain_newness::are_new;
use plain_outcomes::{Outcomes, WIDEST, weight, width};
use plain_steps::{Instr, Mask, WState, differ, run};
use plain_tables::{Entry, Family, Line, Open, Operand, Table, read_table, write_instr, write_table};
use std::collections::HashMap;
use std::io::{self, Read, Write};
use std::time::Instant;

/// A checker that accepted all lines, and how many hints each needed, 0 for deletions; or the number of the first refused line, from 1.
fn checked(formula: Builder, lines: &[Line]) -> Result<(Checker, Vec<usize>), usize> {
    let mut checker = Checker::new(formula.clauses);
    let mut used = Vec::with_capacity(lines.len());
    for (place, line) in lines.iter().enumerate() {
        checker.used = 0;
        let answer = match line {
            Line::Addition { id, literals, hints } => checker.add(*id, codes(literals), hints),
            Line::Deletion { ids, .. } => checker.delete(ids),
        };
        answer.map_err(|_| place + 1)?;
        used.push(checker.used);
    }
    Ok((checker, used))
}

fn codes(literals: &[i32]) -> Vec<u32> {
    literals.iter().map(|literal| code(i64::from(*literal))).collect()
}

/// How many hints each line needs, if the proof refutes the formula; or why it doesn't. A proof without lines needs no checker.
fn refutation(formula: Builder, proof: &[Line]) -> Result<Vec<usize>, String> {
    if proof.is_empty() {
        return if formula.clauses.iter().any(Vec::is_empty) { Ok(Vec::new()) } else { Err(String::from("3")) };
    }
    let (checker, used) = checked(formula, proof).map_err(|line| format!("2 {line}"))?;
    if checker.refuted { Ok(used) } else { Err(String::from("3")) }
}

/// The lines on which the first empty clause depends, each with the hints that it needs.
fn trimmed(proof: &[Line], used: &[usize]) -> Vec<Line> {
    let is_empty = |line: &Line| matches!(line, Line::Addition { literals, .. } if literals.is_empty());
    let Some(end) = proof.iter().position(is_empty) else {
        return Vec::new();
    };
    let most = proof.iter().map(|line| match line { Line::Addition { id, .. } | Line::Deletion { id, .. } => *id }).max().unwrap_or(0);
    let mut is_named = vec![false; most as usize + 1];
    let mut kept = Vec::new();
    for (place, (line, used)) in proof.iter().zip(used).enumerate().take(end + 1).rev() {
        if let Line::Addition { id, literals, hints } = line {
            if place == end || is_named[*id as usize] {
                let hints = hints[..*used].to_vec();
                hints.iter().for_each(|hint| is_named[*hint as usize] = true);
                kept.push(Line::Addition { id: *id, literals: literals.clone(), hints });
            }
        }
    }
    kept.reverse();
    kept
}

fn mask_of(bits: u8) -> Mask {
    let flags = (bits >> 4).reverse_bits() >> 4;
    Mask { registers: std::array::from_fn(|register| bits >> register & 1 == 1), nzcv: flags }
}

/// How many registers a side names, if these are r0, r1 and so on by first appearance.
fn named_count(side: &[plain_tables::Instr]) -> Option<u8> {
    side.iter().flat_map(|instr| &instr.operands[..usize::from(instr.count)]).try_fold(0, |count, operand| match operand {
        Operand::Register(register) if *register > count => None,
        Operand::Register(register) => Some(count.max(register + 1)),
        Operand::Number(_) => Some(count),
    })
}

/// An entry's valid sides, how many registers its sequences have, and how much its right side weighs.
struct Sides {
    left: Vec<Instr>,
    right: Vec<Instr>,
    mask: Mask,
    k: usize,
    weight: u32,
}

/// Each state with what the left side leaves of it.
type Trials = Vec<(WState, WState)>;

struct Auditor<'a> {
    table: &'a Table,
    pool: Vec<u32>,
    /// The instructions over r0 to r3 and the pool, by their texts.
    instrs: HashMap<String, Instr>,
    states: Vec<WState>,
    /// One for each count of registers.
    outcomes: Vec<Outcomes>,
}

impl<'a> Auditor<'a> {
    fn new(table: &'a Table) -> Auditor<'a> {
        let pool: Vec<u32> = table.pool.iter().map(|number| u32::from(*number)).collect();
        let states: Vec<WState> = table.states.iter().map(|(r, nzcv)| WState { r: *r, nzcv: *nzcv }).collect();
        let first = states.first().copied().unwrap_or(WState { r: [0; 4], nzcv: 0 });
        let outcomes = (0..=4).map(|k| Outcomes::new(k, alphabet(k as u32, &pool), table.costs.as_ref(), &first)).collect();
        let instrs = alphabet(4, &pool).into_iter().map(|instr| (text_of(&instr), instr)).collect();
        Auditor { table, pool, instrs, states, outcomes }
    }

    /// A count of registers, with a scratch register if the table allows one and r0 to r3 have one left.
    fn with_scratch(&self, registers: u8) -> u8 {
        (registers + self.table.scratch).min(4)
    }

    /// Whether the table lists each of the seed's states at its place.
    fn judge_states(&self) -> Result<(), String> {
        let is_at = |place: usize, state: WState| self.states.get(place).is_some_and(|held| held.r == state.r && held.nzcv == state.nzcv);
        let bad = seeded(u64::from(self.table.seed)).into_iter().enumerate().position(|(place, state)| !is_at(place, state));
        bad.map_or(Ok(()), |place| Err(format!("states {}", place + 1)))
    }

    /// Whether the number of sequences that an entry may need is within the limit.
    fn judge_width(&self) -> Result<(), String> {
        let size = alphabet(u32::from(self.with_scratch(self.table.regs)), &self.pool).len();
        let width = width(size, usize::from(self.table.left), self.table.costs.as_ref());
        if width > WIDEST { Err(format!("wide {width}")) } else { Ok(()) }
    }

    /// A side's instructions, if they are in the alphabet of the given registers.
    fn side(&self, side: &[plain_tables::Instr], registers: u8) -> Option<Vec<Instr>> {
        let mut text = Vec::new();
        side.iter().for_each(|instr| write_instr(&mut text, "", instr));
        let mut operands = side.iter().flat_map(|instr| &instr.operands[..usize::from(instr.count)]);
        let are_few = operands.all(|operand| !matches!(operand, Operand::Register(register) if *register >= registers));
        let instr = |line: &str| self.instrs.get(line).copied().filter(|_| are_few);
        String::from_utf8(text).ok()?.lines().map(instr).collect()
    }

    /// The sides of an entry and its mask, if they are valid.
    fn sides(&self, entry: &Entry) -> Option<Sides> {
        let Table { regs, left: longest, .. } = self.table;
        let count = named_count(&entry.left).filter(|count| count <= regs)?;
        let k = self.with_scratch(count);
        let weight = self.table.weight(&entry.right);
        let has_form = entry.left.len() <= usize::from(*longest)
            && entry.right.len() <= entry.left.len()
            && weight <= self.table.weight(&entry.left)
            && u32::from(entry.mask & 0xf) >> count == 0;
        let (left, right) = (self.side(&entry.left, count)?, self.side(&entry.right, k)?);
        has_form.then(|| Sides { left, right, mask: mask_of(entry.mask), k: usize::from(k), weight })
    }

    /// The first sequence below an entry's right side, by weight and then by number, that isn't listed as open and that no state distinguishes.
    fn untold(&mut self, sides: &Sides, opens: &[Open], trials: &Trials) -> Option<u64> {
        let outcomes = &mut self.outcomes[sides.k];
        let numbers = outcomes.below(sides.left.len(), sides.weight, &trials[0].1, sides.mask);
        let is_told = |number: u32| {
            let sequence = outcomes.sequence(number as usize);
            trials[1..].iter().rev().any(|(state, end)| differ(end, &run(&sequence, *state), sides.mask))
        };
        let is_named = |number: u32| opens.binary_search_by_key(&u64::from(number), |open| open.number).is_ok();
        numbers.into_iter().find(|number| !is_named(*number) && !is_told(*number)).map(u64::from)
    }

    /// Whether a number is that of a sequence below the right side that no state distinguishes, and its log adds as many new non-empty clauses as the budget.
    fn is_rightly_open(&self, sides: &Sides, open: &Open, trials: &Trials) -> bool {
        let outcomes = &self.outcomes[sides.k];
        if open.number >= outcomes.count_below(sides.left.len() + 1) as u64 {
            return false;
        }
        let sequence = outcomes.sequence(open.number as usize);
        if weight(self.table.costs.as_ref(), &sequence) >= sides.weight || trials.iter().any(|(state, end)| differ(end, &run(&sequence, *state), sides.mask)) {
            return false;
        }
        let clauses: Vec<Vec<u32>> = open.log.iter().filter_map(|line| match line { Line::Addition { literals, .. } => Some(codes(literals)), _ => None }).collect();
        let formula = formula(&sides.left, &sequence, sides.mask, sides.k);
        clauses.len() == self.table.budget as usize
            && clauses.iter().all(|clause| !clause.is_empty())
            && are_new(&formula.clauses, clauses.iter().map(|clause| &clause[..]))
            && checked(formula, &open.log).is_ok()
    }

    /// How many hints each line of an accepted entry's proof needs; or why the entry is refused.
    fn judge_entry(&mut self, entry: &Entry) -> Result<Vec<usize>, String> {
        let sides = self.sides(entry).ok_or("1")?;
        // the formula of a side against itself contains the empty clause
        let is_unshortened = entry.proof.is_empty() && entry.left == entry.right;
        let used = if is_unshortened { Vec::new() } else { refutation(formula(&sides.left, &sides.right, sides.mask, sides.k), &entry.proof)? };
        let trials: Trials = self.states.iter().map(|state| (*state, run(&sides.left, *state))).collect();
        if let Some(number) = self.untold(&sides, &entry.opens, &trials) {
            return Err(format!("4 {number}"));
        }
        match entry.opens.iter().find(|open| !self.is_rightly_open(&sides, open, &trials)) {
            Some(open) => Err(format!("5 {}", open.number)),
            None => Ok(used),
        }
    }

    /// The same for a family.
    fn judge_family(&self, family: &Family) -> Result<Vec<usize>, String> {
        let Family { entry, number, low, high, .. } = *family;
        let entry = (entry as usize).checked_sub(1).and_then(|place| self.table.entries.get(place)).ok_or("1")?;
        let Sides { left, right, mask, k, .. } = self.sides(entry).ok_or("1")?;
        let is_hole = |instr: &Instr| matches!(instr, Instr::TwoNumber { number: held, .. } if *held == number);
        if !self.pool.contains(&number) || low > number || number > high || high > 255 || !left.iter().any(is_hole) {
            return Err(String::from("1"));
        }
        refutation(family_formula(&left, &right, number, low, high, mask, k), &family.proof)
    }

    /// How many hints each line of each proof needs, for entries and families; or why the table is refused.
    fn judge(&mut self) -> Result<[Vec<Vec<usize>>; 2], String> {
        self.judge_states()?;
        self.judge_width()?;
        let table = self.table;
        let entries = table.entries.iter().zip(1..).map(|(entry, number)| self.judge_entry(entry).map_err(|kind| format!("entry {number} {kind}")));
        let entries = entries.collect::<Result<_, _>>()?;
        let families = table.families.iter().zip(1..).map(|(family, number)| self.judge_family(family).map_err(|kind| format!("family {number} {kind}")));
        Ok([entries, families.collect::<Result<_, _>>()?])
    }
}

/// Trims all proofs by the hints that they need.
fn trim(table: &mut Table, used: &[Vec<Vec<usize>>; 2]) {
    let [by_entries, by_families] = used;
    table.entries.iter_mut().zip(by_entries).for_each(|(entry, used)| entry.proof = trimmed(&entry.proof, used));
    table.families.iter_mut().zip(by_families).for_each(|(family, used)| family.proof = trimmed(&family.proof, used));
}

fn main() -> io::Result<()> {
    let mut text = Vec::new();
    io::stdin().read_to_end(&mut text)?;
    let start = Instant::now();
    let mut table = match read_table(&text) {
        Ok(table) => table,
        Err(line) => {
            println!("refused table {line}");
            return Ok(());
        }
    };
    let reading = start.elapsed().as_micros();
    let start = Instant::now();
    let verdict = Auditor::new(&table).judge();
    let auditing = start.elapsed().as_micros();
    let start = Instant::now();
    match verdict {
        Ok(used) if std::env::args().nth(1).as_deref() == Some("trim") => {
            trim(&mut table, &used);
            io::stdout().write_all(&write_table(&table))?;
            eprintln!("{auditing} {reading} {}", start.elapsed().as_micros());
            return Ok(());
        }
        Ok(_) => println!("entries {}", table.entries.len()),
        Err(why) => println!("refused {why}"),
    }
    eprintln!("{auditing} {reading}");
    Ok(())
}
