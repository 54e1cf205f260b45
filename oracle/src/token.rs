//! Tokens of a request line: words, numbers and single bytes, with spaces between them.

#[derive(Clone, Copy, Debug, PartialEq, Eq)]
pub enum Token<'a> {
    Word(&'a [u8]),
    Number(i64),
    Symbol(u8),
    /// A number outside 64 signed bits, or a `-` with no digit behind it.
    Unreadable,
    End,
}

/// A token with the place of its first byte and the place behind its last one, counted from 0.
#[derive(Clone, Copy, Debug)]
pub struct Placed<'a> {
    pub token: Token<'a>,
    pub start: usize,
    pub end: usize,
}

/// The first token at or behind a place.
pub fn token_at(line: &[u8], place: usize) -> Placed<'_> {
    let start = run_end(line, place, |byte| byte == b' ');
    let (token, end) = match line.get(start) {
        None => (Token::End, start),
        Some(byte) if byte.is_ascii_alphabetic() => {
            let end = run_end(line, start, |byte| byte.is_ascii_alphabetic());
            (Token::Word(&line[start..end]), end)
        }
        Some(byte) if *byte == b'-' || byte.is_ascii_digit() => number_at(line, start),
        Some(byte) => (Token::Symbol(*byte), start + 1),
    };
    Placed { token, start, end }
}

/// The number that starts at a place, with its sign.
fn number_at(line: &[u8], start: usize) -> (Token<'_>, usize) {
    let negative = line[start] == b'-';
    let first_digit = start + usize::from(negative);
    let end = run_end(line, first_digit, |byte| byte.is_ascii_digit());
    if end == first_digit {
        return (Token::Unreadable, end);
    }
    let mut size: i128 = 0;
    for digit in &line[first_digit..end] {
        // Past 64 bits the exact value no longer matters.
        size = (size * 10 + i128::from(digit - b'0')).min(1 << 64);
    }
    let value = if negative { -size } else { size };
    match i64::try_from(value) {
        Ok(number) => (Token::Number(number), end),
        Err(_) => (Token::Unreadable, end),
    }
}

/// The end of the run of bytes from a place on that belong to a kind.
fn run_end(line: &[u8], place: usize, belongs: impl Fn(u8) -> bool) -> usize {
    let run = line[place..].iter().take_while(|byte| belongs(**byte));
    place + run.count()
}
