// The formula of two sides of three products each, by the same rules in plain Rust.
use std::collections::HashMap;
use std::time::Instant;

#[derive(Clone, Copy, PartialEq, Eq, PartialOrd, Ord, Hash)]
struct Literal {
    variable: u32,
    negative: bool,
}

#[derive(Clone, Copy, PartialEq, Eq)]
enum Bit {
    Constant(bool),
    Signed(Literal),
}

#[derive(PartialEq, Eq, Hash)]
enum Gate {
    And(Literal, Literal),
    Xor(u32, u32),
}

type Word = [Bit; 32];

const FALSE: Bit = Bit::Constant(false);

impl Literal {
    fn contrary(self) -> Literal {
        Literal { variable: self.variable, negative: !self.negative }
    }

    fn number(self) -> i32 {
        let number = self.variable as i32 + 1;
        if self.negative { -number } else { number }
    }
}

impl Bit {
    fn not(self) -> Bit {
        match self {
            Bit::Constant(value) => Bit::Constant(!value),
            Bit::Signed(literal) => Bit::Signed(literal.contrary()),
        }
    }
}

#[derive(Default)]
struct Builder {
    variables: u32,
    clauses: Vec<Vec<i32>>,
    gates: HashMap<Gate, u32>,
}

fn positive(variable: u32) -> Literal {
    Literal { variable, negative: false }
}

impl Builder {
    fn input(&mut self) -> Bit {
        self.variables += 1;
        Bit::Signed(positive(self.variables - 1))
    }

    fn push(&mut self, literals: &[Literal]) {
        self.clauses.push(literals.iter().map(|literal| literal.number()).collect());
    }

    fn gate(&mut self, gate: Gate) -> Bit {
        if let Some(found) = self.gates.get(&gate) {
            return Bit::Signed(positive(*found));
        }
        let output = self.variables;
        self.variables += 1;
        let (yes, no) = (positive(output), positive(output).contrary());
        match gate {
            Gate::And(a, b) => {
                self.push(&[no, a]);
                self.push(&[no, b]);
                self.push(&[yes, a.contrary(), b.contrary()]);
            }
            Gate::Xor(x, y) => {
                let (x, y) = (positive(x), positive(y));
                self.push(&[no, x, y]);
                self.push(&[no, x.contrary(), y.contrary()]);
                self.push(&[yes, x.contrary(), y]);
                self.push(&[yes, x, y.contrary()]);
            }
        }
        self.gates.insert(gate, output);
        Bit::Signed(yes)
    }

    fn and(&mut self, a: Bit, b: Bit) -> Bit {
        match (a, b) {
            (Bit::Constant(false), _) | (_, Bit::Constant(false)) => FALSE,
            (Bit::Constant(true), _) => b,
            (_, Bit::Constant(true)) => a,
            (Bit::Signed(x), Bit::Signed(y)) if x == y => a,
            (Bit::Signed(x), Bit::Signed(y)) if x == y.contrary() => FALSE,
            (Bit::Signed(x), Bit::Signed(y)) => self.gate(Gate::And(x.min(y), x.max(y))),
        }
    }

    fn or(&mut self, a: Bit, b: Bit) -> Bit {
        self.and(a.not(), b.not()).not()
    }

    fn xor(&mut self, a: Bit, b: Bit) -> Bit {
        match (a, b) {
            (Bit::Constant(value), other) | (other, Bit::Constant(value)) => {
                if value { other.not() } else { other }
            }
            (Bit::Signed(x), Bit::Signed(y)) => {
                let differ = x.negative != y.negative;
                if x.variable == y.variable {
                    return Bit::Constant(differ);
                }
                let gate = self.gate(Gate::Xor(x.variable.min(y.variable), x.variable.max(y.variable)));
                if differ { gate.not() } else { gate }
            }
        }
    }

    fn add(&mut self, x: &Word, y: &Word) -> Word {
        let mut value = [FALSE; 32];
        let (mut carry, mut before) = (FALSE, FALSE);
        for i in 0..32 {
            let p = self.xor(x[i], y[i]);
            value[i] = self.xor(p, carry);
            let g = self.and(x[i], y[i]);
            let h = self.and(p, carry);
            before = carry;
            carry = self.or(g, h);
        }
        self.xor(before, carry);
        value
    }

    fn product(&mut self, x: &Word, y: &Word) -> Word {
        let mut sum = [FALSE; 32];
        for j in 0..32 {
            let mut row = [FALSE; 32];
            for i in j..32 {
                row[i] = self.and(x[i - j], y[j]);
            }
            sum = self.add(&sum, &row);
        }
        sum
    }

    fn none(&mut self, bits: &Word) -> Bit {
        bits.iter().fold(Bit::Constant(true), |z, bit| self.and(z, bit.not()))
    }

    fn clause(&mut self, bits: &[Bit]) {
        let mut clause = Vec::new();
        for bit in bits {
            match bit {
                Bit::Constant(true) => return,
                Bit::Constant(false) => {}
                Bit::Signed(literal) if clause.contains(&literal.contrary()) => return,
                Bit::Signed(literal) if clause.contains(literal) => {}
                Bit::Signed(literal) => clause.push(*literal),
            }
        }
        self.push(&clause);
    }
}

#[derive(Clone)]
struct Bits {
    registers: Vec<Word>,
    n: Bit,
    z: Bit,
}

fn form(builder: &mut Builder, bits: &mut Bits, sequence: &[(usize, usize)]) {
    for &(target, other) in sequence {
        let (x, y) = (bits.registers[target], bits.registers[other]);
        let value = builder.product(&x, &y);
        bits.z = builder.none(&value);
        bits.n = value[31];
        bits.registers[target] = value;
    }
}

fn formula(left: &[(usize, usize)], right: &[(usize, usize)]) -> Builder {
    let mut builder = Builder::default();
    let mut registers = Vec::new();
    for _ in 0..3 {
        registers.push(std::array::from_fn(|_| builder.input()));
    }
    let (n, z) = (builder.input(), builder.input());
    builder.input();
    builder.input();
    let mut l = Bits { registers, n, z };
    let mut r = l.clone();
    form(&mut builder, &mut l, left);
    form(&mut builder, &mut r, right);
    let mut found = Vec::new();
    for register in 0..3 {
        for i in 0..32 {
            found.push(builder.xor(l.registers[register][i], r.registers[register][i]));
        }
    }
    found.push(builder.xor(l.n, r.n));
    found.push(builder.xor(l.z, r.z));
    builder.clause(&found);
    builder
}

fn digest(clauses: &[Vec<i32>]) -> u32 {
    let mut digest: u32 = 0;
    for clause in clauses {
        digest = digest.rotate_left(3) ^ 1;
        for literal in clause {
            digest = digest.rotate_left(5) ^ (*literal as u32);
        }
    }
    digest
}

fn main() {
    let start = Instant::now();
    for _ in 0..20 {
        let found = formula(&[(0, 1), (1, 2), (2, 0)], &[(1, 2), (0, 1), (2, 0)]);
        println!("{} {} {}", found.variables, found.clauses.len(), digest(&found.clauses));
    }
    eprintln!("{}", start.elapsed().as_millis());
}
