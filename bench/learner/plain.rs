//! Learns a table in plain Rust, by the same rules: reads a table from standard input, uses its header, and the left sides and masks of its entries as windows,
//! and writes the table that is learnt from them, with costs if the header has them. Prints on standard error the milliseconds of learning, the number of
//! windows, and the milliseconds of outcomes, of running states, of formulas and of the solver. With the name of a folder, each formula given to the solver is
//! written there in DIMACS, under a name that begins with the number of conflicts that it took.

#[path = "../plain_costs.rs"]
mod plain_costs;
#[path = "../plain_formulas.rs"]
mod plain_formulas;
#[path = "../plain_alphabet.rs"]
mod plain_alphabet;
#[path = "../plain_outcomes.rs"]
mod plain_outcomes;
#[path = "../plain_solver.rs"]
mod plain_solver;
#[path = "../plain_steps.rs"]
mod plain_steps;

use plain_costs::Costs;
use plain_formulas::{Builder, formula};
use plain_alphabet::{alphabet, seeded, text_of};
use plain_outcomes::{Outcomes, WIDEST, weight, width};
use plain_solver::{Line, Verdict, number, solve};
use plain_steps::{Instr, Mask, WState, differ, run, tells};
use std::collections::HashMap;
use std::fmt::Write as _;
use std::io::{self, Read, Write as _};
use std::time::{Duration, Instant};

const TEXT_LIMIT: usize = 67_108_864;
const STATE_LINE: usize = 44;

struct Settings {
    regs: u32,
    left: usize,
    seed: u64,
    budget: usize,
    pool: Vec<u32>,
    scratch: u32,
    costs: Option<Costs>,
}

struct Window {
    left: Vec<Instr>,
    mask: Mask,
    k: u32,
}

struct Open {
    number: u64,
    log: String,
}

struct Entry {
    left: Vec<Instr>,
    right: Vec<Instr>,
    mask: Mask,
    k: u32,
    proof: String,
    opens: Vec<Open>,
}

#[derive(Default)]
struct Shares {
    index: Duration,
    states: Duration,
    formulas: Duration,
    solver: Duration,
}

fn mask_text(mask: Mask) -> String {
    let registers = (0..4).filter(|register| mask.registers[*register]).map(|register| format!(" r{register}"));
    let flags = [(8, " n"), (4, " z"), (2, " c"), (1, " v")].into_iter().filter(|(bit, _)| mask.nzcv & bit != 0);
    registers.chain(flags.map(|(_, name)| name.to_string())).collect()
}

fn log_text(log: &[Line], clauses: usize) -> String {
    let mut text = String::new();
    for (line, id) in log.iter().zip(clauses + 1..) {
        write!(text, "{id} ").unwrap();
        for literal in &line.literals {
            write!(text, "{} ", number(*literal)).unwrap();
        }
        text.push_str("0 ");
        for hint in &line.hints {
            write!(text, "{hint} ").unwrap();
        }
        text.push_str("0\n");
    }
    text
}

fn open_text(open: &Open) -> String {
    format!("open {}\n{}", open.number, open.log)
}

fn entry_text(entry: &Entry) -> String {
    let mut text = String::from("entry\n");
    entry.left.iter().for_each(|instr| writeln!(text, "left {}", text_of(instr)).unwrap());
    entry.right.iter().for_each(|instr| writeln!(text, "right {}", text_of(instr)).unwrap());
    writeln!(text, "mask{}\nproof", mask_text(entry.mask)).unwrap();
    text.push_str(&entry.proof);
    entry.opens.iter().for_each(|open| text.push_str(&open_text(open)));
    text
}

fn header_text(settings: &Settings) -> String {
    let pool: String = settings.pool.iter().map(|n| format!(" {n}")).collect();
    let Settings { regs, left, seed, budget, scratch, .. } = settings;
    let version = if settings.costs.is_some() { 4 } else { 2 };
    let costs = settings.costs.map_or(String::new(), |costs| format!("costs{}\n", costs.map(|cost| format!(" {cost}")).concat()));
    format!("peep {version}\nregs {regs}\nleft {left}\nseed {seed}\nbudget {budget}\npool{pool}\nscratch {scratch}\n{costs}")
}

fn state_text(state: &WState) -> String {
    let [a, b, c, d] = state.r;
    format!("state {a:08x} {b:08x} {c:08x} {d:08x} {:x}\n", state.nzcv)
}

fn state_of(values: &[bool], k: usize) -> WState {
    let word = |register: usize| (0..32).map(|i| u32::from(values[32 * register + i]) << i).sum();
    let mut state = WState { r: [0; 4], nzcv: 0 };
    (0..k).for_each(|register| state.r[register] = word(register));
    state.nzcv = (0..4).map(|i| u8::from(values[32 * k + i]) << (3 - i)).sum();
    state
}

/// Writes a formula of the solver in DIMACS.
fn write_formula(folder: &str, place: u32, formula: &Builder, verdict: &Verdict) {
    let conflicts = match verdict {
        Verdict::Sat(_) => 0,
        Verdict::Unsat(log) | Verdict::Spent(log) => log.len(),
    };
    let mut text = format!("p cnf {} {}\n", formula.variables, formula.clauses.len());
    for clause in &formula.clauses {
        clause.iter().for_each(|literal| write!(text, "{} ", number(*literal)).unwrap());
        text.push_str("0\n");
    }
    std::fs::write(format!("{folder}/{conflicts:05}_{place}.cnf"), text).unwrap();
}

struct Learner {
    settings: Settings,
    states: Vec<WState>,
    entries: Vec<Entry>,
    bytes: usize,
    outcomes: Vec<Outcomes>,
    shares: Shares,
    folder: Option<String>,
    asked: u32,
}

impl Learner {
    fn new(settings: Settings) -> Learner {
        let states = seeded(settings.seed);
        let outcomes = (0..=4).map(|k| Outcomes::new(k, alphabet(k as u32, &settings.pool), settings.costs.as_ref(), &states[0])).collect();
        let bytes = header_text(&settings).len() + states.len() * STATE_LINE + "end\n".len();
        Learner { settings, states, entries: Vec::new(), bytes, outcomes, shares: Shares::default(), folder: std::env::args().nth(1), asked: 0 }
    }

    /// The sequences below the window that the first state doesn't distinguish from it, lightest first.
    fn candidates(&mut self, window: &Window) -> Vec<u32> {
        let end = run(&window.left, self.states[0]);
        let weight = weight(self.settings.costs.as_ref(), &window.left);
        self.outcomes[window.k as usize].below(window.left.len(), weight, &end, window.mask)
    }

    fn search(&mut self, window: Window, numbers: &[u32]) -> Entry {
        let Window { left, mask, k } = window;
        let mut opens: Vec<Open> = Vec::new();
        let mut found = None;
        let mut trials: Vec<(WState, WState)> = self.states.iter().map(|state| (*state, run(&left, *state))).collect();
        let mut start = Instant::now();
        for number in numbers.iter().map(|number| u64::from(*number)) {
            let right = self.outcomes[k as usize].sequence(number as usize);
            if trials[1..].iter().rev().any(|(state, end)| differ(end, &run(&right, *state), mask)) {
                continue;
            }
            self.shares.states += start.elapsed();
            start = Instant::now();
            let formula = formula(&left, &right, mask, k as usize);
            self.shares.formulas += start.elapsed();
            start = Instant::now();
            let verdict = solve(formula.variables as usize, &formula.clauses, self.settings.budget);
            self.shares.solver += start.elapsed();
            if let Some(folder) = &self.folder {
                self.asked += 1;
                write_formula(folder, self.asked, &formula, &verdict);
            }
            match verdict {
                Verdict::Sat(values) => {
                    let state = state_of(&values, k as usize);
                    trials.push((state, run(&left, state)));
                    self.states.push(state);
                }
                Verdict::Spent(log) => opens.push(Open { number, log: log_text(&log, formula.clauses.len()) }),
                Verdict::Unsat(log) => {
                    found = Some((right, log_text(&log, formula.clauses.len())));
                    start = Instant::now();
                    break;
                }
            }
            start = Instant::now();
        }
        let (right, proof) = found.unwrap_or_else(|| (left.clone(), String::new()));
        let weight = |sequence: &[Instr]| weight(self.settings.costs.as_ref(), sequence);
        opens.retain(|open| weight(&self.outcomes[k as usize].sequence(open.number as usize)) < weight(&right));
        opens.sort_by_key(|open| open.number);
        self.shares.states += start.elapsed();
        Entry { left, right, mask, k, proof, opens }
    }

    /// Drops the open numbers that a state from an index on distinguishes.
    fn drop_told(&mut self, from: usize) {
        let start = Instant::now();
        let Learner { states, entries, outcomes, bytes, .. } = self;
        let found = &states[from..];
        for entry in entries {
            let Entry { left, mask, k, opens, .. } = entry;
            opens.retain(|open| {
                let sequence = outcomes[*k as usize].sequence(open.number as usize);
                let told = found.iter().any(|state| tells(*state, left, &sequence, *mask));
                if told {
                    *bytes -= open_text(open).len();
                }
                !told
            });
        }
        self.shares.states += start.elapsed();
    }

    fn learn(&mut self, window: Window) {
        let before = self.states.len();
        let start = Instant::now();
        let numbers = self.candidates(&window);
        self.shares.index += start.elapsed();
        let entry = self.search(window, &numbers);
        self.bytes += entry_text(&entry).len() + STATE_LINE * (self.states.len() - before);
        self.entries.push(entry);
        if self.states.len() > before {
            self.drop_told(before);
        }
    }

    fn text(&self) -> String {
        let states: String = self.states.iter().map(state_text).collect();
        let entries: String = self.entries.iter().map(entry_text).collect();
        header_text(&self.settings) + &states + &entries + "end\n"
    }
}

/// How many registers a window names, which are those from r0 on.
fn register_count(texts: &[&str]) -> u32 {
    let mut count = 0;
    for text in texts {
        for word in text.split(' ').map(|word| word.trim_end_matches(',')) {
            if let Some(Ok(register)) = word.strip_prefix('r').map(str::parse::<u32>) {
                count = count.max(register + 1);
            }
        }
    }
    count
}

fn mask_of(tail: &str) -> Mask {
    let mut mask = Mask { registers: [false; 4], nzcv: 0 };
    for item in tail.split_whitespace() {
        match item {
            "n" => mask.nzcv |= 8,
            "z" => mask.nzcv |= 4,
            "c" => mask.nzcv |= 2,
            "v" => mask.nzcv |= 1,
            register => mask.registers[register[1..].parse::<usize>().unwrap()] = true,
        }
    }
    mask
}

/// The settings and the windows of a table.
fn read(text: &str) -> (Settings, Vec<Window>) {
    let mut settings = Settings { regs: 0, left: 0, seed: 0, budget: 0, pool: Vec::new(), scratch: 0, costs: None };
    let mut instrs = HashMap::new();
    let mut windows = Vec::new();
    let mut left: Vec<&str> = Vec::new();
    let mut in_header = true;
    for line in text.lines() {
        let (word, tail) = line.split_once(' ').unwrap_or((line, ""));
        match word {
            "entry" => {
                in_header = false;
                left.clear();
            }
            "regs" => settings.regs = tail.parse().unwrap(),
            "left" if in_header => settings.left = tail.parse().unwrap(),
            "seed" => settings.seed = tail.parse().unwrap(),
            "budget" => settings.budget = tail.parse().unwrap(),
            "pool" => {
                settings.pool = tail.split(' ').map(|n| n.parse().unwrap()).collect();
                instrs = alphabet(settings.regs, &settings.pool).into_iter().map(|instr| (text_of(&instr), instr)).collect();
            }
            "scratch" => settings.scratch = tail.parse().unwrap(),
            "costs" => {
                let costs: Vec<u8> = tail.split(' ').map(|cost| cost.parse().unwrap()).collect();
                settings.costs = Some(costs.try_into().unwrap());
            }
            "left" => left.push(tail),
            "mask" => {
                let k = (register_count(&left) + settings.scratch).min(4);
                windows.push(Window { left: left.iter().map(|text| instrs[*text]).collect(), mask: mask_of(tail), k });
            }
            _ => {}
        }
    }
    (settings, windows)
}

fn main() -> io::Result<()> {
    let mut text = String::new();
    io::stdin().read_to_string(&mut text)?;
    let (settings, windows) = read(&text);
    let instrs = alphabet((settings.regs + settings.scratch).min(4), &settings.pool);
    let width = width(instrs.len(), settings.left, settings.costs.as_ref());
    if width > WIDEST {
        eprintln!("refused wide {width}");
        return Ok(());
    }
    let count = windows.len();
    let start = Instant::now();
    let mut learner = Learner::new(settings);
    for window in windows {
        learner.learn(window);
        if learner.bytes > TEXT_LIMIT {
            eprintln!("the table's text has {} bytes", learner.bytes);
            return Ok(());
        }
    }
    let milliseconds = start.elapsed().as_millis();
    let text = learner.text();
    assert_eq!(text.len(), learner.bytes);
    io::stdout().write_all(text.as_bytes())?;
    let Shares { index, states, formulas, solver } = learner.shares;
    let shares: Vec<String> = [index, states, formulas, solver].iter().map(|share| share.as_millis().to_string()).collect();
    eprintln!("{milliseconds} {count} {}", shares.join(" "));
    Ok(())
}
