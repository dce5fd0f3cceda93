//! Operands of instructions.

use crate::words::*;

/// An operand of an instruction.
#[derive(Clone, Copy)]
pub enum Operand<'a> {
    Register(u8),
    /// a register and `!`
    Base(u8),
    Number(u32),
    Name(&'a [u8]),
    Sum(&'a [u8], u32),
    /// `[base, index]`
    Indexed(u8, u8),
    /// `[base, #offset]` or `[base]`
    Offset(u8, u32),
    /// registers in braces, a bit each
    List(u16),
}

use self::Operand::{Base, Indexed, List, Name, Number, Offset, Register};

fn operand_of(word: &[u8]) -> Option<Operand<'_>> {
    if let [b'#', digits @ ..] = word {
        return number(digits).map(Number);
    }
    let (front, after) = split(word, |b| !matches!(b, b'!' | b'+' | b'-'));
    match (register(front), after) {
        (Some(register), []) => Some(Register(register)),
        (Some(register), b"!") => Some(Base(register)),
        (None, []) if is_spelled_as_name(front) => Some(Name(front)),
        (None, [b'+', digits @ ..]) if is_spelled_as_name(front) => number(digits).map(|n| Operand::Sum(front, n)),
        _ => None,
    }
}

/// An operand in brackets, after the opening one, and the bytes after it.
fn place(bytes: &[u8]) -> Option<(Operand<'_>, &[u8])> {
    let (Token::Word(word), after) = token(bytes)? else { return None };
    let base = register(word)?;
    match token(after)? {
        (Token::Mark(b']'), after) => Some((Offset(base, 0), after)),
        (Token::Mark(b','), after) => {
            let (Token::Word(word), after) = token(after)? else { return None };
            let operand = match operand_of(word)? {
                Register(index) => Indexed(base, index),
                Number(offset) => Offset(base, offset),
                _ => return None,
            };
            match token(after)? {
                (Token::Mark(b']'), after) => Some((operand, after)),
                _ => None,
            }
        }
        _ => None,
    }
}

/// The bits of a register or a range of registers.
fn bits(word: &[u8]) -> Option<u16> {
    let (front, after) = split(word, |b| b != b'-');
    let least = register(front)?;
    match after {
        [] => Some(1 << least),
        [_, to @ ..] => {
            let most = register(to)?;
            (least < most && most < 8).then(|| (2 << most) - (1 << least))
        }
    }
}

/// A list, after the opening brace, and the bytes after it.
fn list(mut bytes: &[u8]) -> Option<(Operand<'_>, &[u8])> {
    let mut all = 0;
    loop {
        let (Token::Word(word), after) = token(bytes)? else { return None };
        let more = bits(word)?;
        if all & more != 0 {
            return None;
        }
        all |= more;
        match token(after)? {
            (Token::Mark(b','), after) => bytes = after,
            (Token::Mark(b'}'), after) => return Some((List(all), after)),
            _ => return None,
        }
    }
}

/// The most operands of an instruction.
const MOST_OPERANDS: usize = 3;

/// The operands between commas, and their count.
pub fn operands(mut bytes: &[u8]) -> Option<([Operand<'_>; MOST_OPERANDS], usize)> {
    let mut all = [Number(0); MOST_OPERANDS];
    let mut count = 0;
    while let Some((first, after)) = token(bytes) {
        let (operand, after) = match first {
            Token::Word(word) => (operand_of(word)?, after),
            Token::Mark(b'[') => place(after)?,
            Token::Mark(b'{') => list(after)?,
            Token::Mark(_) => return None,
        };
        *all.get_mut(count)? = operand;
        count += 1;
        match token(after) {
            None => break,
            // an operand has to follow
            Some((Token::Mark(b','), after)) if !without_blanks(after).is_empty() => bytes = after,
            _ => return None,
        }
    }
    Some((all, count))
}
