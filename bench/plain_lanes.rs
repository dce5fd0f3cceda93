//! Eight states side by side in plain Rust, their steps, and the prints of all sequences along the tree of their prefixes.

use crate::plain_steps::{ByteOperation, Extension, Instr, Mask, Operation, Reversal, Shift, Sum, WState};

type Words = [u32; 8];

/// A lane of `n`, `c` or `v` has the flag N, C or V as its bit 31; a lane of `z` is zero if Z is set.
#[derive(Clone, Copy)]
pub struct Lanes {
    r: [Words; 4],
    n: Words,
    z: Words,
    c: Words,
    v: Words,
}

#[inline(always)]
fn one(a: Words, f: impl Fn(u32) -> u32) -> Words {
    let mut out = [0; 8];
    for i in 0..8 {
        out[i] = f(a[i]);
    }
    out
}

#[inline(always)]
fn both(a: Words, b: Words, f: impl Fn(u32, u32) -> u32) -> Words {
    let mut out = [0; 8];
    for i in 0..8 {
        out[i] = f(a[i], b[i]);
    }
    out
}

/// Values with their carries out in bit 31.
#[derive(Clone, Copy)]
struct Moved {
    value: Words,
    c: Words,
}

#[derive(Clone, Copy)]
struct Sums {
    value: Words,
    c: Words,
    v: Words,
}

const TRUE: Words = [0x8000_0000; 8];

#[inline(always)]
fn add_with_carry(x: Words, y: Words, c: Words) -> Sums {
    let mut sums = Sums { value: [0; 8], c: [0; 8], v: [0; 8] };
    for i in 0..8 {
        let value = x[i].wrapping_add(y[i]).wrapping_add(c[i] >> 31);
        sums.value[i] = value;
        sums.c[i] = x[i] & y[i] | (x[i] | y[i]) & !value;
        sums.v[i] = (x[i] ^ value) & (y[i] ^ value);
    }
    sums
}

/// A shift by a constant from 1 to 32.
#[inline(always)]
fn by_number(kind: Shift, x: Words, n: u32) -> Moved {
    match kind {
        Shift::Lsl => {
            let c = one(x, |x| x << (n - 1));
            Moved { value: one(c, |c| c << 1), c }
        }
        Shift::Lsr | Shift::Ror => {
            let out = one(x, |x| x >> (n - 1));
            Moved { value: one(out, |out| out >> 1), c: one(out, |out| out << 31) }
        }
        Shift::Asr => {
            let out = one(x, |x| (x as i32 >> (n - 1)) as u32);
            Moved { value: one(out, |out| (out as i32 >> 1) as u32), c: one(out, |out| out << 31) }
        }
    }
}

/// A shift by the low byte of a register.
#[inline(always)]
fn by_register(kind: Shift, x: Words, y: Words, c: Words) -> Moved {
    let mut moved = Moved { value: [0; 8], c: [0; 8] };
    for i in 0..8 {
        let n = y[i] & 0xff;
        let less = n.wrapping_sub(1);
        let (value, out) = match kind {
            Shift::Lsl => {
                let out = if less < 32 { x[i] << (less & 31) } else { 0 };
                (out << 1, out)
            }
            Shift::Lsr => {
                let out = if less < 32 { x[i] >> (less & 31) } else { 0 };
                (out >> 1, out << 31)
            }
            Shift::Asr => {
                let out = x[i] as i32 >> if less < 31 { less & 31 } else { 31 };
                ((out >> 1) as u32, (out as u32) << 31)
            }
            Shift::Ror => {
                let value = x[i].rotate_right(n & 31);
                (value, value)
            }
        };
        moved.value[i] = if n == 0 { x[i] } else { value };
        moved.c[i] = if n == 0 { c[i] } else { out };
    }
    moved
}

impl Lanes {
    /// The given states, filled up with zero states.
    pub fn of(states: &[WState]) -> Lanes {
        let mut lanes = Lanes { r: [[0; 8]; 4], n: [0; 8], z: [1; 8], c: [0; 8], v: [0; 8] };
        for (i, state) in states.iter().enumerate() {
            for register in 0..4 {
                lanes.r[register][i] = state.r[register];
            }
            let flags = u32::from(state.nzcv);
            lanes.n[i] = flags >> 3 << 31;
            lanes.z[i] = (flags >> 2 & 1) ^ 1;
            lanes.c[i] = flags >> 1 << 31;
            lanes.v[i] = flags << 31;
        }
        lanes
    }

    #[inline(always)]
    fn nzcv(&self) -> Words {
        let mut flags = [0; 8];
        for i in 0..8 {
            flags[i] = self.n[i] >> 31 << 3 | u32::from(self.z[i] == 0) << 2 | self.c[i] >> 31 << 1 | self.v[i] >> 31;
        }
        flags
    }

    #[inline(always)]
    fn get(&self, register: u32) -> Words {
        self.r[register as usize]
    }

    #[inline(always)]
    fn with_register(mut self, target: u32, value: Words) -> Lanes {
        self.r[target as usize] = value;
        self
    }

    #[inline(always)]
    fn tested(mut self, value: Words) -> Lanes {
        self.n = value;
        self.z = value;
        self
    }

    #[inline(always)]
    fn summed(mut self, sums: Sums) -> Lanes {
        self.c = sums.c;
        self.v = sums.v;
        self.tested(sums.value)
    }

    #[inline(always)]
    fn with_result(self, target: u32, value: Words) -> Lanes {
        self.tested(value).with_register(target, value)
    }

    #[inline(always)]
    fn with_sum(self, target: u32, sums: Sums) -> Lanes {
        self.summed(sums).with_register(target, sums.value)
    }

    #[inline(always)]
    fn with_shift(mut self, target: u32, moved: Moved) -> Lanes {
        self.c = moved.c;
        self.with_result(target, moved.value)
    }

    pub fn after(&self, instr: &Instr) -> Lanes {
        match *instr {
            Instr::Mov { target, source } => self.with_register(target, self.get(source)),
            Instr::Movs { target, source } => self.with_result(target, self.get(source)),
            Instr::Add { target, source } => self.with_register(target, both(self.get(target), self.get(source), u32::wrapping_add)),
            Instr::Three { sum, target, left, right } => self.with_sum(target, three(sum, self.get(left), self.get(right))),
            Instr::ThreeNumber { sum, target, source, number } => self.with_sum(target, three(sum, self.get(source), [number; 8])),
            Instr::Shift { kind, target, source, amount } => self.with_shift(target, by_number(kind, self.get(source), amount)),
            Instr::TwoNumber { operation, target, number } => self.byte(operation, target, [number; 8]),
            Instr::Two { operation, target, other } => self.two(operation, target, self.get(target), self.get(other)),
            Instr::Extend { extension, target, source } => {
                let x = self.get(source);
                let value = match extension {
                    Extension::Sxth => one(x, |x| x as i16 as u32),
                    Extension::Sxtb => one(x, |x| x as i8 as u32),
                    Extension::Uxth => one(x, |x| x & 0xffff),
                    Extension::Uxtb => one(x, |x| x & 0xff),
                };
                self.with_register(target, value)
            }
            Instr::Reverse { reversal, target, source } => {
                let x = self.get(source);
                let value = match reversal {
                    Reversal::Rev => one(x, u32::swap_bytes),
                    Reversal::Rev16 => one(x, |x| x.swap_bytes().rotate_right(16)),
                    Reversal::Revsh => one(x, |x| (x as u16).swap_bytes() as i16 as u32),
                };
                self.with_register(target, value)
            }
        }
    }

    #[inline(always)]
    fn byte(&self, operation: ByteOperation, target: u32, number: Words) -> Lanes {
        let x = self.get(target);
        match operation {
            ByteOperation::Mov => self.with_result(target, number),
            ByteOperation::Cmp => self.summed(three(Sum::Sub, x, number)),
            ByteOperation::Add => self.with_sum(target, three(Sum::Add, x, number)),
            ByteOperation::Sub => self.with_sum(target, three(Sum::Sub, x, number)),
        }
    }

    #[inline(always)]
    fn two(&self, operation: Operation, target: u32, x: Words, y: Words) -> Lanes {
        let c = self.c;
        let not_y = one(y, |y| !y);
        match operation {
            Operation::And => self.with_result(target, both(x, y, |x, y| x & y)),
            Operation::Eor => self.with_result(target, both(x, y, |x, y| x ^ y)),
            Operation::Lsl => self.with_shift(target, by_register(Shift::Lsl, x, y, c)),
            Operation::Lsr => self.with_shift(target, by_register(Shift::Lsr, x, y, c)),
            Operation::Asr => self.with_shift(target, by_register(Shift::Asr, x, y, c)),
            Operation::Adc => self.with_sum(target, add_with_carry(x, y, c)),
            Operation::Sbc => self.with_sum(target, add_with_carry(x, not_y, c)),
            Operation::Ror => self.with_shift(target, by_register(Shift::Ror, x, y, c)),
            Operation::Tst => self.tested(both(x, y, |x, y| x & y)),
            Operation::Rsb => self.with_sum(target, add_with_carry(not_y, [0; 8], TRUE)),
            Operation::Cmp => self.summed(add_with_carry(x, not_y, TRUE)),
            Operation::Cmn => self.summed(add_with_carry(x, y, [0; 8])),
            Operation::Orr => self.with_result(target, both(x, y, |x, y| x | y)),
            Operation::Mul => self.with_result(target, both(x, y, u32::wrapping_mul)),
            Operation::Bic => self.with_result(target, both(x, y, |x, y| x & !y)),
            Operation::Mvn => self.with_result(target, not_y),
        }
    }
}

#[inline(always)]
fn three(sum: Sum, x: Words, y: Words) -> Sums {
    match sum {
        Sum::Add => add_with_carry(x, y, [0; 8]),
        Sum::Sub => add_with_carry(x, one(y, |y| !y), TRUE),
    }
}

/// Up to eight states, and how many.
pub type Column = (Lanes, usize);

pub fn columns_of(states: &[WState]) -> Vec<Column> {
    states.chunks(8).map(|eight| (Lanes::of(eight), eight.len())).collect()
}

#[inline(always)]
fn mixed(print: u64, word: u32) -> u64 {
    (print.rotate_left(5) ^ u64::from(word)).wrapping_mul(0x9E37_79B9_7F4A_7C15)
}

/// Prints so far combined with more states, in turn, so that no computation waits for another.
#[inline(always)]
fn with_lanes<const N: usize>(mut prints: [u64; N], lanes: [&Lanes; N], count: usize, mask: Mask) -> [u64; N] {
    let flags = lanes.map(Lanes::nzcv);
    for i in 0..count {
        for register in 0..4 {
            if mask.registers[register] {
                for n in 0..N {
                    prints[n] = mixed(prints[n], lanes[n].r[register][i]);
                }
            }
        }
        for n in 0..N {
            prints[n] = mixed(prints[n], flags[n][i] & u32::from(mask.nzcv));
        }
    }
    prints
}

/// The print of what a sequence leaves.
pub fn print_of(sequence: &[Instr], columns: &[Column], mask: Mask) -> u64 {
    let mut print = [0];
    for (lanes, count) in columns {
        let after = sequence.iter().fold(*lanes, |lanes, instr| lanes.after(instr));
        print = with_lanes(print, [&after], *count, mask);
    }
    print[0]
}

/// The print of each sequence of at most `longest` instructions, in the order of their numbers.
pub fn prints_within(alphabet: &[Instr], columns: &[Column], mask: Mask, longest: usize) -> Vec<u64> {
    let mut prints = Vec::new();
    for length in 0..=longest {
        print_length(alphabet, columns, mask, length, &mut prints);
    }
    prints
}

fn print_length(alphabet: &[Instr], columns: &[Column], mask: Mask, length: usize, prints: &mut Vec<u64>) {
    match length {
        0 => prints.push(print_of(&[], columns, mask)),
        1 => print_instrs(alphabet, columns, mask, prints),
        _ => {
            for instr in alphabet {
                let after: Vec<Column> = columns.iter().map(|(lanes, count)| (lanes.after(instr), *count)).collect();
                print_length(alphabet, &after, mask, length - 1, prints);
            }
        }
    }
}

fn print_instrs(alphabet: &[Instr], columns: &[Column], mask: Mask, prints: &mut Vec<u64>) {
    let mut fours = alphabet.chunks_exact(4);
    for four in &mut fours {
        let mut four_prints = [0; 4];
        for (lanes, count) in columns {
            let after = [lanes.after(&four[0]), lanes.after(&four[1]), lanes.after(&four[2]), lanes.after(&four[3])];
            four_prints = with_lanes(four_prints, after.each_ref(), *count, mask);
        }
        prints.extend(four_prints);
    }
    for instr in fours.remainder() {
        prints.push(print_of(std::slice::from_ref(instr), columns, mask));
    }
}

/// The prints with their numbers, by print, then number.
pub fn index(prints: &[u64]) -> Vec<(u64, u64)> {
    let mut pairs: Vec<(u64, u64)> = prints.iter().zip(0..).map(|(print, number)| (*print, number)).collect();
    pairs.sort_by_key(|pair| pair.0);
    pairs
}
