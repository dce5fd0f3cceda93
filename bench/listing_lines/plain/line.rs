//! Lines: labels, a statement and a comment.

use crate::instruction::{instruction, Instr};
use crate::words::*;

/// A name with a number added, modulo 2^32.
pub struct Mention {
    pub name: Vec<u8>,
    pub plus: u32,
}

#[allow(dead_code)]
pub enum Value {
    Number(u32),
    OfName(Mention),
}

pub enum Statement {
    Nothing,
    Runs { instr: Instr, mention: Option<Mention> },
    Words(Vec<Value>),
    Aligns { size: u32, most: u32 },
    Sets { name: Vec<u8>, address: u32 },
}

/// What a line says about functions: that the next label is one, or that a name is.
pub enum Mark {
    Nothing,
    Next,
    Named(Vec<u8>),
}

#[allow(dead_code)]
pub struct Line {
    pub names: Vec<Vec<u8>>,
    pub statement: Statement,
    pub mark: Mark,
    /// Its bytes, with its newline if it has one.
    pub text: Vec<u8>,
    /// How many bytes it has up to its last label's colon, inclusive.
    pub front: usize,
}

fn runs(bytes: &[u8]) -> Option<Statement> {
    let (instr, mention) = instruction(bytes)?;
    let mention = mention.map(|(name, plus)| Mention { name: name.to_vec(), plus });
    Some(Statement::Runs { instr, mention })
}

fn value(word: &[u8]) -> Option<Value> {
    match word {
        [b'-', digits @ ..] => number(digits).map(|n| Value::Number(n.wrapping_neg())),
        [b'0'..=b'9', ..] => number(word).map(Value::Number),
        _ => {
            let (name, after) = split(word, is_name_byte);
            let plus = match after {
                [] => 0,
                [b'+', digits @ ..] => number(digits)?,
                [b'-', digits @ ..] => number(digits)?.wrapping_neg(),
                _ => return None,
            };
            is_name(name).then(|| Value::OfName(Mention { name: name.to_vec(), plus }))
        }
    }
}

fn words(mut bytes: &[u8]) -> Option<Statement> {
    let mut values = Vec::new();
    loop {
        let (Token::Word(word), after) = token(bytes)? else { return None };
        values.push(value(word)?);
        match token(after) {
            None => return Some(Statement::Words(values)),
            Some((Token::Mark(b','), after)) => bytes = after,
            Some(_) => return None,
        }
    }
}

/// One word and nothing else.
fn only_word(bytes: &[u8]) -> Option<&[u8]> {
    match token(bytes)? {
        (Token::Word(word), after) if token(after).is_none() => Some(word),
        _ => None,
    }
}

/// The bytes after a comma.
fn after_comma(bytes: &[u8]) -> Option<&[u8]> {
    match token(bytes)? {
        (Token::Mark(b','), after) => Some(after),
        _ => None,
    }
}

/// A word, a comma and a word.
fn pair(bytes: &[u8]) -> Option<(&[u8], &[u8])> {
    let (Token::Word(first), after) = token(bytes)? else { return None };
    Some((first, only_word(after_comma(after)?)?))
}

/// `n` or `n,,k`; `zero` is what 0 means.
fn alignment(zero: u32, bytes: &[u8]) -> Option<Statement> {
    let (Token::Word(exponent), after) = token(bytes)? else { return None };
    let size = match number(exponent)? {
        0 => zero,
        exponent @ 1..=8 => 1 << exponent,
        _ => return None,
    };
    let most = match token(after) {
        None => size,
        Some(_) => number(only_word(after_comma(after_comma(after)?)?)?)?,
    };
    Some(Statement::Aligns { size, most })
}

fn setting(bytes: &[u8]) -> Option<Statement> {
    let (name, address) = pair(bytes)?;
    let address = number(address)?;
    is_name(name).then(|| Statement::Sets { name: name.to_vec(), address })
}

fn typing(bytes: &[u8]) -> Mark {
    match pair(bytes) {
        Some((name, b"%function")) if is_name(name) => Mark::Named(name.to_vec()),
        _ => Mark::Nothing,
    }
}

fn is_code_section(bytes: &[u8]) -> bool {
    let (name, _) = split(without_blanks(bytes), is_name_byte);
    name == b".text" || name.starts_with(b".text.")
}

fn directive(bytes: &[u8]) -> Option<(Statement, Mark)> {
    let (word, after) = split(bytes, |b| !is_blank(b));
    let is_kept = match word {
        b".word" => return Some((words(after)?, Mark::Nothing)),
        b".align" => return Some((alignment(4, after)?, Mark::Nothing)),
        b".p2align" => return Some((alignment(1, after)?, Mark::Nothing)),
        b".set" | b".equ" => return Some((setting(after)?, Mark::Nothing)),
        b".type" => return Some((Statement::Nothing, typing(after))),
        b".thumb_func" => return token(after).is_none().then_some((Statement::Nothing, Mark::Next)),
        b".thumb" | b".text" => token(after).is_none(),
        b".syntax" => only_word(after) == Some(b"unified"),
        b".code" => only_word(after) == Some(b"16"),
        b".section" => is_code_section(after),
        b".cpu" | b".arch" | b".fpu" | b".eabi_attribute" | b".file" | b".loc" | b".ident" | b".global" | b".globl" | b".weak" | b".hidden"
        | b".extern" | b".size" | b".comm" | b".local" | b".force_thumb" => true,
        _ => word.starts_with(b".cfi_"),
    };
    is_kept.then_some((Statement::Nothing, Mark::Nothing))
}

fn statement(bytes: &[u8]) -> Option<(Statement, Mark)> {
    let bytes = without_blanks(bytes);
    match bytes.first() {
        None => Some((Statement::Nothing, Mark::Nothing)),
        Some(b'.') => directive(bytes),
        Some(_) => Some((runs(bytes)?, Mark::Nothing)),
    }
}

/// A line's bytes without its comment.
fn code(bytes: &[u8]) -> &[u8] {
    match without_blanks(bytes) {
        [b'#', ..] => &[],
        _ => split(bytes, |b| b != b'@').0,
    }
}

/// The labels at the front, and the bytes after the last one's colon.
fn labels(mut bytes: &[u8]) -> (Vec<Vec<u8>>, &[u8]) {
    let mut names = Vec::new();
    loop {
        let (name, after) = split(without_blanks(bytes), is_name_byte);
        match after {
            [b':', after @ ..] if is_name(name) => {
                names.push(name.to_vec());
                bytes = after;
            }
            _ => return (names, bytes),
        }
    }
}

/// The line of a text with its newline, if it has one.
pub fn line(text: &[u8]) -> Option<Line> {
    let body = match text {
        [body @ .., b'\r', b'\n'] | [body @ .., b'\n'] => body,
        _ => text,
    };
    let code = code(body);
    let (names, after) = labels(code);
    let (statement, mark) = statement(after)?;
    Some(Line { names, statement, mark, text: text.to_vec(), front: code.len() - after.len() })
}
