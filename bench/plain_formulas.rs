//! The formula that two sequences leave something different, in plain Rust, shared by the plain programs of the measures.
// not every program needs all of it
#![allow(dead_code)]

use crate::plain_steps::{ByteOperation, Extension, Instr, Mask, Operation, Reversal, Shift, Sum};
use std::collections::HashMap;

/// A variable or its negation: twice the variable, plus 1 if negated.
type Literal = u32;

#[derive(Clone, Copy, PartialEq, Eq)]
enum Bit {
    Constant(bool),
    Signed(Literal),
}

#[derive(PartialEq, Eq, Hash)]
enum Gate {
    And(Literal, Literal),
    Xor(Literal, Literal),
    Ite(Literal, Literal, Literal),
}

type Word = [Bit; 32];

const FALSE: Bit = Bit::Constant(false);
const TRUE: Bit = Bit::Constant(true);

impl Bit {
    fn not(self) -> Bit {
        match self {
            Bit::Constant(value) => Bit::Constant(!value),
            Bit::Signed(literal) => Bit::Signed(literal ^ 1),
        }
    }

    fn not_if(self, negated: bool) -> Bit {
        if negated { self.not() } else { self }
    }
}

#[derive(Default)]
pub struct Builder {
    pub variables: u32,
    pub clauses: Vec<Vec<Literal>>,
    gates: HashMap<Gate, Literal>,
}

impl Builder {
    fn input(&mut self) -> Bit {
        self.variables += 1;
        Bit::Signed(2 * (self.variables - 1))
    }

    fn gate(&mut self, gate: Gate) -> Bit {
        if let Some(found) = self.gates.get(&gate) {
            return Bit::Signed(*found);
        }
        let yes = 2 * self.variables;
        let no = yes + 1;
        self.variables += 1;
        match gate {
            Gate::And(a, b) => self.clauses.extend([vec![no, a], vec![no, b], vec![yes, a ^ 1, b ^ 1]]),
            Gate::Xor(x, y) => self.clauses.extend([vec![no, x, y], vec![no, x ^ 1, y ^ 1], vec![yes, x ^ 1, y], vec![yes, x, y ^ 1]]),
            Gate::Ite(c, t, e) => self.clauses.extend([vec![no, c ^ 1, t], vec![no, c, e], vec![yes, c ^ 1, t ^ 1], vec![yes, c, e ^ 1]]),
        }
        self.gates.insert(gate, yes);
        Bit::Signed(yes)
    }

    fn and(&mut self, a: Bit, b: Bit) -> Bit {
        match (a, b) {
            (FALSE, _) | (_, FALSE) => FALSE,
            (TRUE, other) | (other, TRUE) => other,
            (Bit::Signed(x), Bit::Signed(y)) if x == y => a,
            (Bit::Signed(x), Bit::Signed(y)) if x == y ^ 1 => FALSE,
            (Bit::Signed(x), Bit::Signed(y)) => self.gate(Gate::And(x.min(y), x.max(y))),
        }
    }

    fn or(&mut self, a: Bit, b: Bit) -> Bit {
        self.and(a.not(), b.not()).not()
    }

    fn xor(&mut self, a: Bit, b: Bit) -> Bit {
        match (a, b) {
            (Bit::Constant(value), other) | (other, Bit::Constant(value)) => other.not_if(value),
            (Bit::Signed(x), Bit::Signed(y)) => {
                let differ = (x ^ y) & 1 == 1;
                let (x, y) = (x & !1, y & !1);
                if x == y {
                    return Bit::Constant(differ);
                }
                self.gate(Gate::Xor(x.min(y), x.max(y))).not_if(differ)
            }
        }
    }

    fn ite(&mut self, c: Bit, t: Bit, e: Bit) -> Bit {
        let condition = match c {
            TRUE => return t,
            FALSE => return e,
            Bit::Signed(condition) => condition,
        };
        if t == e {
            return t;
        }
        match (t, e) {
            (TRUE, _) => self.or(c, e),
            (FALSE, _) => self.and(c.not(), e),
            (_, TRUE) => self.or(c.not(), t),
            (_, FALSE) => self.and(c, t),
            (Bit::Signed(x), Bit::Signed(y)) if x == y ^ 1 => self.xor(c, e),
            (Bit::Signed(x), Bit::Signed(y)) if condition & 1 == 1 => self.gate(Gate::Ite(condition ^ 1, y, x)),
            (Bit::Signed(x), Bit::Signed(y)) => self.gate(Gate::Ite(condition, x, y)),
        }
    }

    fn some_of(&mut self, bits: &[Bit]) {
        let mut clause = Vec::new();
        for bit in bits {
            match *bit {
                TRUE => return,
                FALSE => {}
                Bit::Signed(literal) if clause.contains(&(literal ^ 1)) => return,
                Bit::Signed(literal) if clause.contains(&literal) => {}
                Bit::Signed(literal) => clause.push(literal),
            }
        }
        self.clauses.push(clause);
    }

    fn each(&mut self, gate: fn(&mut Builder, Bit, Bit) -> Bit, x: &Word, y: &Word) -> Word {
        std::array::from_fn(|i| gate(self, x[i], y[i]))
    }

    fn choose(&mut self, a: Bit, y: &Word, x: &Word) -> Word {
        std::array::from_fn(|i| self.ite(a, y[i], x[i]))
    }

    /// The bits of a sum, and its flags C and V.
    fn add(&mut self, x: &Word, y: &Word, c: Bit) -> (Word, Bit, Bit) {
        let mut value = [FALSE; 32];
        let (mut carry, mut before) = (c, c);
        for i in 0..32 {
            let p = self.xor(x[i], y[i]);
            value[i] = self.xor(p, carry);
            let g = self.and(x[i], y[i]);
            let h = self.and(p, carry);
            before = carry;
            carry = self.or(g, h);
        }
        let overflow = self.xor(before, carry);
        (value, carry, overflow)
    }

    fn product(&mut self, x: &Word, y: &Word) -> Word {
        let mut sum = [FALSE; 32];
        for j in 0..32 {
            let row = self.each(Builder::and, &moved(Shift::Lsl, j, x), &[y[j]; 32]);
            sum = self.add(&sum, &row, FALSE).0;
        }
        sum
    }

    /// LSL, LSR or ASR by the low byte of a word: its bits and C.
    fn shifted(&mut self, kind: Shift, x: &Word, amount: &Word, c: Bit) -> (Word, Bit) {
        let (mut value, mut carry) = (*x, c);
        for j in 0..6 {
            let n = 1 << j;
            let (bits, out) = (moved(kind, n, &value), moved_out(kind, n, &value));
            value = self.choose(amount[j], &bits, &value);
            carry = self.ite(amount[j], out, carry);
        }
        let far = self.or(amount[6], amount[7]);
        let rest = fill(kind, &value);
        value = self.choose(far, &[rest; 32], &value);
        (value, self.ite(far, rest, carry))
    }

    fn rotated(&mut self, x: &Word, amount: &Word, c: Bit) -> (Word, Bit) {
        let mut value = *x;
        for j in 0..5 {
            value = self.choose(amount[j], &moved(Shift::Ror, 1 << j, &value), &value);
        }
        let some = amount[..8].iter().fold(FALSE, |some, bit| self.or(some, *bit));
        (value, self.ite(some, value[31], c))
    }
}

fn constant(number: u32) -> Word {
    std::array::from_fn(|i| Bit::Constant(number >> i & 1 == 1))
}

fn inverted(x: &Word) -> Word {
    x.map(Bit::not)
}

fn fill(kind: Shift, x: &Word) -> Bit {
    if matches!(kind, Shift::Asr) { x[31] } else { FALSE }
}

fn moved(kind: Shift, n: usize, x: &Word) -> Word {
    let rest = fill(kind, x);
    std::array::from_fn(|i| match kind {
        Shift::Lsl => if i >= n { x[i - n] } else { rest },
        Shift::Ror => x[(i + n) % 32],
        _ => if i + n < 32 { x[i + n] } else { rest },
    })
}

fn moved_out(kind: Shift, n: usize, x: &Word) -> Bit {
    if matches!(kind, Shift::Lsl) { x[32 - n] } else { x[n - 1] }
}

/// The registers and flags as bits, and the 8-bit number that is variable, if there is one.
#[derive(Clone)]
struct Bits {
    symbol: Option<(u32, Word)>,
    registers: Vec<Word>,
    n: Bit,
    z: Bit,
    c: Bit,
    v: Bit,
}

impl Bits {
    fn get(&self, register: u32) -> Word {
        self.registers[register as usize]
    }

    fn set(&mut self, register: u32, value: Word) {
        self.registers[register as usize] = value;
    }

    /// Sets N and Z for a value.
    fn test(&mut self, b: &mut Builder, value: &Word) {
        self.z = value.iter().fold(TRUE, |z, bit| b.and(z, bit.not()));
        self.n = value[31];
    }

    fn set_tested(&mut self, b: &mut Builder, target: u32, value: Word) {
        self.test(b, &value);
        self.set(target, value);
    }

    fn set_shifted(&mut self, b: &mut Builder, target: u32, (value, c): (Word, Bit)) {
        self.set_tested(b, target, value);
        self.c = c;
    }

    /// A sum, with the flags set.
    fn sum(&mut self, b: &mut Builder, x: &Word, y: &Word, c: Bit) -> Word {
        let (value, carry, overflow) = b.add(x, y, c);
        self.test(b, &value);
        self.c = carry;
        self.v = overflow;
        value
    }

    fn three(&mut self, b: &mut Builder, sum: Sum, x: &Word, y: &Word) -> Word {
        match sum {
            Sum::Add => self.sum(b, x, y, FALSE),
            Sum::Sub => self.sum(b, x, &inverted(y), TRUE),
        }
    }

    fn two(&mut self, b: &mut Builder, operation: Operation, target: u32, x: &Word, y: &Word) {
        let c = self.c;
        let value = match operation {
            Operation::And => b.each(Builder::and, x, y),
            Operation::Eor => b.each(Builder::xor, x, y),
            Operation::Orr => b.each(Builder::or, x, y),
            Operation::Bic => b.each(Builder::and, x, &inverted(y)),
            Operation::Mvn => inverted(y),
            Operation::Mul => b.product(x, y),
            Operation::Lsl | Operation::Lsr | Operation::Asr => {
                let kind = match operation {
                    Operation::Lsl => Shift::Lsl,
                    Operation::Lsr => Shift::Lsr,
                    _ => Shift::Asr,
                };
                let shifted = b.shifted(kind, x, y, c);
                return self.set_shifted(b, target, shifted);
            }
            Operation::Ror => {
                let rotated = b.rotated(x, y, c);
                return self.set_shifted(b, target, rotated);
            }
            Operation::Tst => {
                let value = b.each(Builder::and, x, y);
                return self.test(b, &value);
            }
            Operation::Cmp => {
                self.three(b, Sum::Sub, x, y);
                return;
            }
            Operation::Cmn => {
                self.three(b, Sum::Add, x, y);
                return;
            }
            Operation::Adc | Operation::Sbc | Operation::Rsb => {
                let value = match operation {
                    Operation::Adc => self.sum(b, x, y, c),
                    Operation::Sbc => self.sum(b, x, &inverted(y), c),
                    _ => self.sum(b, &inverted(y), &[FALSE; 32], TRUE),
                };
                return self.set(target, value);
            }
        };
        self.set_tested(b, target, value);
    }

    fn form(&mut self, b: &mut Builder, instr: &Instr) {
        match *instr {
            Instr::Mov { target, source } => self.set(target, self.get(source)),
            Instr::Movs { target, source } => self.set_tested(b, target, self.get(source)),
            Instr::Add { target, source } => {
                let value = b.add(&self.get(target), &self.get(source), FALSE).0;
                self.set(target, value);
            }
            Instr::Three { sum, target, left, right } => {
                let value = self.three(b, sum, &self.get(left), &self.get(right));
                self.set(target, value);
            }
            Instr::ThreeNumber { sum, target, source, number } => {
                let value = self.three(b, sum, &self.get(source), &constant(number));
                self.set(target, value);
            }
            Instr::Shift { kind, target, source, amount } => {
                let x = self.get(source);
                self.set_shifted(b, target, (moved(kind, amount as usize, &x), moved_out(kind, amount as usize, &x)));
            }
            Instr::TwoNumber { operation, target, number } => {
                let number = match self.symbol {
                    Some((symbol, word)) if symbol == number => word,
                    _ => constant(number),
                };
                match operation {
                    ByteOperation::Mov => self.set_tested(b, target, number),
                    ByteOperation::Cmp => {
                        self.three(b, Sum::Sub, &self.get(target), &number);
                    }
                    ByteOperation::Add | ByteOperation::Sub => {
                        let sum = if matches!(operation, ByteOperation::Add) { Sum::Add } else { Sum::Sub };
                        let value = self.three(b, sum, &self.get(target), &number);
                        self.set(target, value);
                    }
                }
            }
            Instr::Two { operation, target, other } => self.two(b, operation, target, &self.get(target), &self.get(other)),
            Instr::Extend { extension, target, source } => {
                let x = self.get(source);
                let (count, rest) = match extension {
                    Extension::Sxth => (16, x[15]),
                    Extension::Sxtb => (8, x[7]),
                    Extension::Uxth => (16, FALSE),
                    Extension::Uxtb => (8, FALSE),
                };
                self.set(target, std::array::from_fn(|i| if i < count { x[i] } else { rest }));
            }
            Instr::Reverse { reversal, target, source } => {
                let x = self.get(source);
                let value = std::array::from_fn(|i| match reversal {
                    Reversal::Rev => x[i % 8 + 24 - i / 8 * 8],
                    Reversal::Rev16 => x[i ^ 8],
                    Reversal::Revsh => if i < 16 { x[i ^ 8] } else { x[7] },
                });
                self.set(target, value);
            }
        }
    }
}

/// A clause for each 1 bit of the lower bound of a number: this bit, or one of the higher bits that are 0 in the bound.
fn at_least(b: &mut Builder, bits: &[Bit; 8], least: u32) {
    for j in (0..8).rev().filter(|j| least >> j & 1 == 1) {
        let higher = (j + 1..8).rev().filter(|i| least >> i & 1 == 0).map(|i| bits[i]);
        let clause: Vec<Bit> = std::iter::once(bits[j]).chain(higher).collect();
        b.some_of(&clause);
    }
}

/// The clauses that what two sequences leave differs under the mask.
fn add_difference(b: &mut Builder, start: Bits, left: &[Instr], right: &[Instr], mask: Mask) {
    let (mut l, mut r) = (start.clone(), start);
    left.iter().for_each(|instr| l.form(b, instr));
    right.iter().for_each(|instr| r.form(b, instr));
    let mut found = Vec::new();
    for register in (0..l.registers.len()).filter(|register| mask.registers[*register]) {
        found.extend(b.each(Builder::xor, &l.registers[register], &r.registers[register]));
    }
    let flags = [(8, l.n, r.n), (4, l.z, r.z), (2, l.c, r.c), (1, l.v, r.v)];
    for (bit, x, y) in flags {
        if mask.nzcv & bit != 0 {
            found.push(b.xor(x, y));
        }
    }
    b.some_of(&found);
}

/// A start state of the first `k` registers.
fn start(b: &mut Builder, k: usize) -> Bits {
    let registers = (0..k).map(|_| std::array::from_fn(|_| b.input())).collect();
    Bits { symbol: None, registers, n: b.input(), z: b.input(), c: b.input(), v: b.input() }
}

/// The formula that two sequences of the first `k` registers differ under the mask.
pub fn formula(left: &[Instr], right: &[Instr], mask: Mask, k: usize) -> Builder {
    let mut b = Builder::default();
    let start = start(&mut b, k);
    add_difference(&mut b, start, left, right, mask);
    b
}

/// The same with a value of a range in place of an 8-bit number.
pub fn family_formula(left: &[Instr], right: &[Instr], number: u32, low: u32, high: u32, mask: Mask, k: usize) -> Builder {
    let mut b = Builder::default();
    let mut start = start(&mut b, k);
    let bits: [Bit; 8] = std::array::from_fn(|_| b.input());
    at_least(&mut b, &bits, low);
    at_least(&mut b, &bits.map(Bit::not), 255 - high);
    start.symbol = Some((number, std::array::from_fn(|i| if i < 8 { bits[i] } else { FALSE })));
    add_difference(&mut b, start, left, right, mask);
    b
}
