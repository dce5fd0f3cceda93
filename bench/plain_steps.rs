//! The step of windows over r0 to r3 in plain Rust, shared by the plain programs of the measures.
// not every program needs all of it
#![allow(dead_code)]

#[derive(Clone, Copy)]
pub enum Sum {
    Add,
    Sub,
}

#[derive(Clone, Copy)]
pub enum Shift {
    Lsl,
    Lsr,
    Asr,
    Ror,
}

#[derive(Clone, Copy)]
pub enum Operation {
    And,
    Eor,
    Lsl,
    Lsr,
    Asr,
    Adc,
    Sbc,
    Ror,
    Tst,
    Rsb,
    Cmp,
    Cmn,
    Orr,
    Mul,
    Bic,
    Mvn,
}

#[derive(Clone, Copy)]
pub enum ByteOperation {
    Mov,
    Cmp,
    Add,
    Sub,
}

#[derive(Clone, Copy)]
pub enum Extension {
    Sxth,
    Sxtb,
    Uxth,
    Uxtb,
}

#[derive(Clone, Copy)]
pub enum Reversal {
    Rev,
    Rev16,
    Revsh,
}

#[derive(Clone, Copy)]
pub enum Instr {
    Mov { target: u32, source: u32 },
    Three { sum: Sum, target: u32, left: u32, right: u32 },
    Two { operation: Operation, target: u32, other: u32 },
    Movs { target: u32, source: u32 },
    Shift { kind: Shift, target: u32, source: u32, amount: u32 },
    ThreeNumber { sum: Sum, target: u32, source: u32, number: u32 },
    TwoNumber { operation: ByteOperation, target: u32, number: u32 },
    Add { target: u32, source: u32 },
    Extend { extension: Extension, target: u32, source: u32 },
    Reverse { reversal: Reversal, target: u32, source: u32 },
}

#[derive(Clone, Copy)]
pub struct WState {
    pub r: [u32; 4],
    pub nzcv: u8,
}

fn flags(value: u32, c: bool, v: bool) -> u8 {
    u8::from(value >> 31 == 1) << 3 | u8::from(value == 0) << 2 | u8::from(c) << 1 | u8::from(v)
}

impl WState {
    fn get(&self, register: u32) -> u32 {
        self.r[register as usize]
    }

    fn carry(&self) -> bool {
        self.nzcv & 2 != 0
    }

    fn overflow(&self) -> bool {
        self.nzcv & 1 != 0
    }

    fn with_register(mut self, target: u32, value: u32) -> WState {
        self.r[target as usize] = value;
        self
    }

    fn tested(mut self, value: u32) -> WState {
        self.nzcv = flags(value, self.carry(), self.overflow());
        self
    }

    fn compared(mut self, x: u32, y: u32, c: bool) -> WState {
        let sum = u64::from(x) + u64::from(y) + u64::from(c);
        let value = sum as u32;
        self.nzcv = flags(value, sum >> 32 == 1, ((x ^ value) & (y ^ value)) >> 31 == 1);
        self
    }

    fn with_result(self, target: u32, value: u32) -> WState {
        self.tested(value).with_register(target, value)
    }

    fn with_sum(self, target: u32, x: u32, y: u32, c: bool) -> WState {
        self.compared(x, y, c)
            .with_register(target, x.wrapping_add(y).wrapping_add(u32::from(c)))
    }

    fn with_shift(mut self, target: u32, kind: Shift, x: u32, n: u32, c: bool) -> WState {
        let (value, out) = shift_c(kind, x, n, c);
        self.nzcv = flags(value, out, self.overflow());
        self.with_register(target, value)
    }
}

fn shift_c(kind: Shift, x: u32, n: u32, c: bool) -> (u32, bool) {
    if n == 0 {
        return (x, c);
    }
    match kind {
        Shift::Lsl if n < 32 => (x << n, x >> (32 - n) & 1 == 1),
        Shift::Lsl => (0, n == 32 && x & 1 == 1),
        Shift::Lsr if n < 32 => (x >> n, x >> (n - 1) & 1 == 1),
        Shift::Lsr => (0, n == 32 && x >> 31 == 1),
        Shift::Asr if n < 32 => (((x as i32) >> n) as u32, x >> (n - 1) & 1 == 1),
        Shift::Asr => (((x as i32) >> 31) as u32, x >> 31 == 1),
        Shift::Ror => {
            let value = x.rotate_right(n);
            (value, value >> 31 == 1)
        }
    }
}

fn three(sum: Sum, target: u32, x: u32, y: u32, state: WState) -> WState {
    match sum {
        Sum::Add => state.with_sum(target, x, y, false),
        Sum::Sub => state.with_sum(target, x, !y, true),
    }
}

fn two(operation: Operation, target: u32, x: u32, y: u32, state: WState) -> WState {
    let c = state.carry();
    match operation {
        Operation::And => state.with_result(target, x & y),
        Operation::Eor => state.with_result(target, x ^ y),
        Operation::Lsl => state.with_shift(target, Shift::Lsl, x, y & 0xff, c),
        Operation::Lsr => state.with_shift(target, Shift::Lsr, x, y & 0xff, c),
        Operation::Asr => state.with_shift(target, Shift::Asr, x, y & 0xff, c),
        Operation::Adc => state.with_sum(target, x, y, c),
        Operation::Sbc => state.with_sum(target, x, !y, c),
        Operation::Ror => state.with_shift(target, Shift::Ror, x, y & 0xff, c),
        Operation::Tst => state.tested(x & y),
        Operation::Rsb => state.with_sum(target, !y, 0, true),
        Operation::Cmp => state.compared(x, !y, true),
        Operation::Cmn => state.compared(x, y, false),
        Operation::Orr => state.with_result(target, x | y),
        Operation::Mul => state.with_result(target, x.wrapping_mul(y)),
        Operation::Bic => state.with_result(target, x & !y),
        Operation::Mvn => state.with_result(target, !y),
    }
}

fn byte(operation: ByteOperation, target: u32, x: u32, number: u32, state: WState) -> WState {
    match operation {
        ByteOperation::Mov => state.with_result(target, number),
        ByteOperation::Cmp => state.compared(x, !number, true),
        ByteOperation::Add => state.with_sum(target, x, number, false),
        ByteOperation::Sub => state.with_sum(target, x, !number, true),
    }
}

fn extended(extension: Extension, x: u32) -> u32 {
    match extension {
        Extension::Sxth => x as i16 as u32,
        Extension::Sxtb => x as i8 as u32,
        Extension::Uxth => x as u16 as u32,
        Extension::Uxtb => x as u8 as u32,
    }
}

fn reversed(reversal: Reversal, x: u32) -> u32 {
    match reversal {
        Reversal::Rev => x.swap_bytes(),
        Reversal::Rev16 => x.swap_bytes().rotate_right(16),
        Reversal::Revsh => (x as u16).swap_bytes() as i16 as u32,
    }
}

pub fn step(instr: &Instr, state: WState) -> WState {
    match *instr {
        Instr::Mov { target, source } => state.with_register(target, state.get(source)),
        Instr::Three { sum, target, left, right } => three(sum, target, state.get(left), state.get(right), state),
        Instr::Two { operation, target, other } => two(operation, target, state.get(target), state.get(other), state),
        Instr::Movs { target, source } => state.with_result(target, state.get(source)),
        Instr::Shift { kind, target, source, amount } => state.with_shift(target, kind, state.get(source), amount, false),
        Instr::ThreeNumber { sum, target, source, number } => three(sum, target, state.get(source), number, state),
        Instr::TwoNumber { operation, target, number } => byte(operation, target, state.get(target), number, state),
        Instr::Add { target, source } => {
            state.with_register(target, state.get(target).wrapping_add(state.get(source)))
        }
        Instr::Extend { extension, target, source } => {
            state.with_register(target, extended(extension, state.get(source)))
        }
        Instr::Reverse { reversal, target, source } => {
            state.with_register(target, reversed(reversal, state.get(source)))
        }
    }
}

/// Which registers and flags count.
#[derive(Clone, Copy, PartialEq, Eq)]
pub struct Mask {
    pub registers: [bool; 4],
    pub nzcv: u8,
}

pub fn run(sequence: &[Instr], state: WState) -> WState {
    sequence.iter().fold(state, |state, instr| step(instr, state))
}

/// Whether two states differ in what counts.
pub fn differ(a: &WState, b: &WState, mask: Mask) -> bool {
    (a.nzcv ^ b.nzcv) & mask.nzcv != 0 || (0..4).any(|register| mask.registers[register] && a.r[register] != b.r[register])
}

/// Whether two sequences leave something different in a state.
pub fn tells(state: WState, left: &[Instr], right: &[Instr], mask: Mask) -> bool {
    differ(&run(left, state), &run(right, state), mask)
}
