//! Times the same steps in plain Rust.

use std::collections::HashMap;
use std::time::Instant;

const STEPS: u32 = 1_000_000;

/// Where devices begin.
const DEVICES: u32 = 0x4000_0000;

#[derive(Clone, Copy)]
enum Access {
    Word,
    Half,
    Byte,
}

#[allow(dead_code)]
#[derive(Clone, Copy)]
enum Condition {
    Eq,
    Ne,
    Cs,
    Cc,
    Mi,
    Pl,
    Vs,
    Vc,
    Hi,
    Ls,
    Ge,
    Lt,
    Gt,
    Le,
}

#[derive(Clone, Copy)]
enum Index {
    Number(u32),
    Register(usize),
}

/// The content of a place.
#[derive(Clone, Copy)]
enum Row {
    Literal { target: usize, word: u32 },
    Load { access: Access, target: usize, base: usize, index: Index },
    Store { access: Access, source: usize, base: usize, index: Index },
    Move { target: usize, number: u32 },
    Add { target: usize, source: usize, index: Index },
    Compare { source: usize, index: Index },
    ExtendByte { target: usize, source: usize },
    Branch { at: usize },
    BranchIf { condition: Condition, at: usize },
    Data,
}

/// The observable events of a run, as in the proved machine.
#[allow(dead_code)]
enum Event {
    Load { address: u32, size: u32 },
    Store { address: u32, size: u32, value: u32 },
    Call { word: u32, arguments: [u32; 5] },
    Sys { code: u32, values: [u32; 6], length: u32 },
    Left { word: u32, registers: [u32; 14] },
    Fault { address: u32 },
    Astray { word: u32 },
    Fell,
}

struct Machine {
    rows: Vec<Row>,
    registers: [u32; 15],
    n: bool,
    z: bool,
    c: bool,
    v: bool,
    memory: HashMap<u32, u8>,
    answers: Vec<u32>,
    given: usize,
    events: Vec<Event>,
    place: usize,
    ended: bool,
}

impl Access {
    fn size(self) -> u32 {
        match self {
            Access::Word => 4,
            Access::Half => 2,
            Access::Byte => 1,
        }
    }
}

impl Machine {
    fn index(&self, index: Index) -> u32 {
        match index {
            Index::Number(number) => number,
            Index::Register(register) => self.registers[register],
        }
    }

    fn holds(&self, condition: Condition) -> bool {
        match condition {
            Condition::Eq => self.z,
            Condition::Ne => !self.z,
            Condition::Cs => self.c,
            Condition::Cc => !self.c,
            Condition::Mi => self.n,
            Condition::Pl => !self.n,
            Condition::Vs => self.v,
            Condition::Vc => !self.v,
            Condition::Hi => self.c && !self.z,
            Condition::Ls => !self.c || self.z,
            Condition::Ge => self.n == self.v,
            Condition::Lt => self.n != self.v,
            Condition::Gt => !self.z && self.n == self.v,
            Condition::Le => self.z || self.n != self.v,
        }
    }

    fn add_with_carry(&mut self, x: u32, y: u32, carry: bool) -> u32 {
        let sum = u64::from(x) + u64::from(y) + u64::from(carry);
        let value = sum as u32;
        self.n = value >> 31 == 1;
        self.z = value == 0;
        self.c = sum >> 32 == 1;
        self.v = ((x ^ value) & (y ^ value)) >> 31 == 1;
        value
    }

    fn end(&mut self, event: Event) {
        self.events.push(event);
        self.ended = true;
    }

    fn value(&self, address: u32, size: u32) -> u32 {
        let mut value = 0;
        for i in 0..size {
            let byte = self.memory.get(&(address + i)).copied().unwrap_or(0);
            value |= u32::from(byte) << (8 * i);
        }
        value
    }

    fn load(&mut self, access: Access, target: usize, address: u32) {
        let size = access.size();
        if address % size != 0 {
            return self.end(Event::Fault { address });
        }
        let value = if address >= DEVICES {
            let Some(word) = self.answers.get(self.given).copied() else {
                return;
            };
            self.given += 1;
            if size == 4 { word } else { word & ((1 << (8 * size)) - 1) }
        } else {
            self.value(address, size)
        };
        self.registers[target] = value;
        self.events.push(Event::Load { address, size });
        self.place += 1;
    }

    fn store(&mut self, access: Access, source: usize, address: u32) {
        let size = access.size();
        if address % size != 0 {
            return self.end(Event::Fault { address });
        }
        let word = self.registers[source];
        let value = if size == 4 { word } else { word & ((1 << (8 * size)) - 1) };
        if address < DEVICES {
            for i in 0..size {
                self.memory.insert(address + i, (value >> (8 * i)) as u8);
            }
        }
        self.events.push(Event::Store { address, size, value });
        self.place += 1;
    }

    /// Takes a step, and returns whether the run continues.
    fn step(&mut self) -> bool {
        if self.ended {
            return false;
        }
        match self.rows.get(self.place).copied() {
            None | Some(Row::Data) => self.end(Event::Fell),
            Some(Row::Literal { target, word }) => {
                self.registers[target] = word;
                self.place += 1;
            }
            Some(Row::Load { access, target, base, index }) => {
                let address = self.registers[base].wrapping_add(self.index(index));
                self.load(access, target, address);
            }
            Some(Row::Store { access, source, base, index }) => {
                let address = self.registers[base].wrapping_add(self.index(index));
                self.store(access, source, address);
            }
            Some(Row::Move { target, number }) => {
                self.registers[target] = number;
                self.n = number >> 31 == 1;
                self.z = number == 0;
                self.place += 1;
            }
            Some(Row::Add { target, source, index }) => {
                let other = self.index(index);
                self.registers[target] = self.add_with_carry(self.registers[source], other, false);
                self.place += 1;
            }
            Some(Row::Compare { source, index }) => {
                let other = self.index(index);
                self.add_with_carry(self.registers[source], !other, true);
                self.place += 1;
            }
            Some(Row::ExtendByte { target, source }) => {
                self.registers[target] = self.registers[source] & 0xff;
                self.place += 1;
            }
            Some(Row::Branch { at }) => self.place = at,
            Some(Row::BranchIf { condition, at }) => {
                self.place = if self.holds(condition) { at } else { self.place + 1 };
            }
        }
        !self.ended
    }
}

/// The rows of the same loop.
fn rows() -> Vec<Row> {
    vec![
        Row::Literal { target: 0, word: 0x2000_0000 },
        Row::Move { target: 1, number: 0 },
        Row::Load { access: Access::Word, target: 2, base: 0, index: Index::Number(0) },
        Row::Add { target: 2, source: 2, index: Index::Number(1) },
        Row::Store { access: Access::Word, source: 2, base: 0, index: Index::Number(0) },
        Row::ExtendByte { target: 3, source: 2 },
        Row::Load { access: Access::Byte, target: 4, base: 0, index: Index::Register(3) },
        Row::Add { target: 4, source: 4, index: Index::Register(2) },
        Row::Store { access: Access::Byte, source: 4, base: 0, index: Index::Register(3) },
        Row::Store { access: Access::Half, source: 4, base: 0, index: Index::Number(6) },
        Row::Load { access: Access::Half, target: 5, base: 0, index: Index::Number(6) },
        Row::Compare { source: 5, index: Index::Number(200) },
        Row::BranchIf { condition: Condition::Hi, at: 15 },
        Row::Store { access: Access::Word, source: 5, base: 0, index: Index::Number(8) },
        Row::Add { target: 1, source: 1, index: Index::Number(1) },
        Row::Branch { at: 2 },
        Row::Data,
    ]
}

fn main() {
    let mut machine = Machine {
        rows: rows(),
        registers: [0; 15],
        n: false,
        z: false,
        c: false,
        v: false,
        memory: HashMap::new(),
        answers: Vec::new(),
        given: 0,
        events: Vec::new(),
        place: 0,
        ended: false,
    };
    machine.registers[13] = 0x2000_1000;
    machine.registers[14] = 0xffff_ffff;
    let began = Instant::now();
    let mut going = 0;
    for _ in 0..STEPS {
        if machine.step() {
            going += 1;
        }
    }
    let milliseconds = began.elapsed().as_millis();
    println!("{going} {} {:08x}", machine.events.len(), digest_of(&machine.events));
    eprintln!("{milliseconds}");
}
