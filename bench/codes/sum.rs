
const TURNS: u32 = 1000;

/// The sum of the codes of all first halfwords, each decoded and encoded again, TURNS times.
fn sum_of_codes() -> u64 {
    let mut sum = 0u64;
    for _ in 0..TURNS {
        for first in 0..=65535u16 {
            if let Some(instr) = decode(first, 0xF800) {
                sum = sum.wrapping_add(match encode(&instr) {
                    Code::One(a) => a as u64,
                    Code::Two(a, b) => a as u64 + b as u64,
                });
            }
        }
    }
    sum
}
