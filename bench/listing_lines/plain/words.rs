//! Words, marks, names and numerals.

pub fn is_blank(byte: u8) -> bool {
    byte == b' ' || byte == b'\t'
}

pub fn without_blanks(bytes: &[u8]) -> &[u8] {
    &bytes[bytes.iter().take_while(|b| is_blank(**b)).count()..]
}

/// The bytes before the first that doesn't satisfy the condition, and the rest.
pub fn split(bytes: &[u8], holds: impl Fn(u8) -> bool) -> (&[u8], &[u8]) {
    bytes.split_at(bytes.iter().position(|b| !holds(*b)).unwrap_or(bytes.len()))
}

pub fn is_name_byte(byte: u8) -> bool {
    byte.is_ascii_alphanumeric() || matches!(byte, b'_' | b'.' | b'$')
}

pub fn register(word: &[u8]) -> Option<u8> {
    match *word {
        [b'r' | b'R', digit @ b'0'..=b'9'] => Some(digit - b'0'),
        [b'r' | b'R', b'1', digit @ b'0'..=b'4'] => Some(10 + digit - b'0'),
        [first, second] => match &[first.to_ascii_lowercase(), second.to_ascii_lowercase()] {
            b"sb" => Some(9),
            b"sl" => Some(10),
            b"fp" => Some(11),
            b"ip" => Some(12),
            b"sp" => Some(13),
            b"lr" => Some(14),
            b"pc" => Some(15),
            _ => None,
        },
        _ => None,
    }
}

/// Whether the bytes as a whole are a name or a register.
pub fn is_spelled_as_name(word: &[u8]) -> bool {
    word.first().is_some_and(|b| !b.is_ascii_digit()) && word.iter().all(|b| is_name_byte(*b))
}

pub fn is_name(word: &[u8]) -> bool {
    is_spelled_as_name(word) && register(word).is_none()
}

pub fn number(word: &[u8]) -> Option<u32> {
    let (digits, radix) = match word {
        [] | [b'0', b'x'] => return None,
        [b'0', b'x', digits @ ..] => (digits, 16),
        [b'0', _, ..] => return None,
        _ => (word, 10),
    };
    digits.iter().try_fold(0u32, |n, d| n.checked_mul(radix)?.checked_add(char::from(*d).to_digit(radix)?))
}

#[derive(Clone, Copy)]
pub enum Token<'a> {
    Word(&'a [u8]),
    Mark(u8),
}

fn is_mark(byte: u8) -> bool {
    matches!(byte, b',' | b'[' | b']' | b'{' | b'}')
}

pub fn token(bytes: &[u8]) -> Option<(Token<'_>, &[u8])> {
    let bytes = without_blanks(bytes);
    match bytes {
        [] => None,
        [mark, after @ ..] if is_mark(*mark) => Some((Token::Mark(*mark), after)),
        _ => {
            let (word, after) = split(bytes, |b| !is_blank(b) && !is_mark(b));
            Some((Token::Word(word), after))
        }
    }
}
