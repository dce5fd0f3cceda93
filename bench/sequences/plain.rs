//! Walks through the sequences of an alphabet in the proved crate's order.
use std::time::Instant;

#[derive(Clone, Copy)]
enum Instr {
    Three { op: u8, d: u8, n: u8, m: u8 },
    Number { op: u8, d: u8, n: u8, i: u8 },
    Byte { op: u8, d: u8, i: u8 },
    Shift { op: u8, d: u8, m: u8, i: u8 },
    Two { op: u8, d: u8, m: u8 },
    Movs { d: u8, m: u8 },
    Mov { d: u8, m: u8 },
    Add { d: u8, m: u8 },
    Extend { op: u8, d: u8, m: u8 },
    Reverse { op: u8, d: u8, m: u8 },
}

fn encode(instr: &Instr) -> u16 {
    let f = |x: u8, at: u16| u16::from(x) << at;
    match *instr {
        Instr::Three { op, d, n, m } => 0x1800 | f(op, 9) | f(m, 6) | f(n, 3) | f(d, 0),
        Instr::Number { op, d, n, i } => 0x1c00 | f(op, 9) | f(i, 6) | f(n, 3) | f(d, 0),
        Instr::Byte { op, d, i } => 0x2000 | f(op, 11) | f(d, 8) | f(i, 0),
        Instr::Shift { op, d, m, i } => f(op, 11) | f(i % 32, 6) | f(m, 3) | f(d, 0),
        Instr::Two { op, d, m } => 0x4000 | f(op, 6) | f(m, 3) | f(d, 0),
        Instr::Movs { d, m } => f(m, 3) | f(d, 0),
        Instr::Mov { d, m } => 0x4600 | f(m, 3) | f(d, 0),
        Instr::Add { d, m } => 0x4400 | f(m, 3) | f(d, 0),
        Instr::Extend { op, d, m } => 0xb200 | f(op, 6) | f(m, 3) | f(d, 0),
        Instr::Reverse { op, d, m } => 0xba00 | f(op, 6) | f(m, 3) | f(d, 0),
    }
}

/// The registers and numbers of an instruction, packed into one number.
fn numbers(instr: &Instr) -> u64 {
    let of = |first: u8, second: u8, third: u8| u64::from(first) << 16 | u64::from(second) << 8 | u64::from(third);
    match *instr {
        Instr::Three { d, n, m, .. } => of(d, n, m),
        Instr::Number { d, n, i, .. } => of(d, n, i),
        Instr::Byte { d, i, .. } => of(d, i, 0),
        Instr::Shift { d, m, i, .. } => of(d, m, i),
        Instr::Two { d, m, .. } | Instr::Extend { d, m, .. } | Instr::Reverse { d, m, .. } => of(d, m, 0),
        Instr::Movs { d, m } | Instr::Mov { d, m } | Instr::Add { d, m } => of(d, m, 0),
    }
}

fn alphabet(k: u8, pool: &[u8]) -> Vec<Instr> {
    let mut all = Vec::new();
    let pairs = |all: &mut Vec<Instr>, make: &dyn Fn(u8, u8) -> Instr| {
        for d in 0..k {
            for m in 0..k {
                all.push(make(d, m));
            }
        }
    };
    for op in 0..2 {
        for d in 0..k {
            for n in 0..k {
                for m in 0..k {
                    all.push(Instr::Three { op, d, n, m });
                }
            }
        }
    }
    for op in 0..2 {
        for d in 0..k {
            for n in (0..k).filter(|n| *n != d) {
                for &i in pool.iter().filter(|i| **i < 8) {
                    all.push(Instr::Number { op, d, n, i });
                }
            }
        }
    }
    for op in 0..4 {
        for d in 0..k {
            for &i in pool {
                all.push(Instr::Byte { op, d, i });
            }
        }
    }
    for op in 0..3 {
        let most = if op == 0 { 31 } else { 32 };
        for d in 0..k {
            for m in 0..k {
                for &i in pool.iter().filter(|i| 1 <= **i && **i <= most) {
                    all.push(Instr::Shift { op, d, m, i });
                }
            }
        }
    }
    for op in 0..16 {
        pairs(&mut all, &|d, m| Instr::Two { op, d, m });
    }
    pairs(&mut all, &|d, m| Instr::Movs { d, m });
    pairs(&mut all, &|d, m| Instr::Mov { d, m });
    pairs(&mut all, &|d, m| Instr::Add { d, m });
    for op in 0..4 {
        pairs(&mut all, &|d, m| Instr::Extend { op, d, m });
    }
    for op in [0, 1, 3] {
        pairs(&mut all, &|d, m| Instr::Reverse { op, d, m });
    }
    all
}

/// Advances to the next sequence: the digits are its instructions, and the last one counts fastest.
fn next(places: &mut Vec<usize>, word: &mut Vec<Instr>, instrs: &[Instr]) {
    for at in (0..places.len()).rev() {
        places[at] += 1;
        if places[at] < instrs.len() {
            word[at] = instrs[places[at]];
            return;
        }
        places[at] = 0;
        word[at] = instrs[0];
    }
    places.push(0);
    word.push(instrs[0]);
}

fn main() {
    let instrs = alphabet(3, &[0, 1, 2, 4, 8, 16, 24, 31, 255]);
    let start = Instant::now();
    let (mut places, mut word) = (Vec::new(), Vec::new());
    let mut sum = 0u64;
    for _ in 0..5_000_000 {
        let last = word.last().map_or(0, numbers);
        sum = sum.rotate_left(5) ^ last ^ (word.len() as u64).rotate_left(16);
        next(&mut places, &mut word, &instrs);
    }
    eprintln!("{} ms", start.elapsed().as_millis());
    let codes = instrs.iter().fold(0u64, |codes, instr| codes.rotate_left(5) ^ u64::from(encode(instr)));
    println!("{codes:016x} {sum:016x}");
}
