//! Damage: what makes a good request line unreadable, or at least another one.

use crate::random::Random;

/// Bytes that are put in: those of the grammar and some that it does not know.
const BYTES: &[u8] = b"[]{}():,T-0123456789 abpt;#.+_\t\r\"~";

/// Numbers at and past the ends of 64 signed bits.
const WIDE_NUMBERS: [&str; 6] = [
    "9223372036854775807",
    "9223372036854775808",
    "-9223372036854775808",
    "-9223372036854775809",
    "18446744073709551617",
    "340282366920938463463374607431768211457",
];

const EXTRA_TOKENS: [&str; 9] = [
    " 1",
    " x",
    " ]",
    " {0}",
    " (0)",
    ",",
    " -",
    "T",
    " 4096 4096",
];

/// A damaged line. It never gets a line end, and it stays readable as UTF-8.
pub fn damage(random: &mut Random, mut line: Vec<u8>) -> Vec<u8> {
    let place = random.below(line.len() as u64) as usize;
    match random.below(12) {
        0 | 1 => {
            line.remove(place);
        }
        2 | 3 => line.insert(place, random.pick(BYTES)),
        4 | 5 => line[place] = random.pick(BYTES),
        6 => put_wide_number(random, &mut line),
        7 => line.truncate(place),
        8 => line.extend(random.pick(&EXTRA_TOKENS).bytes()),
        9 => drop_token(random, &mut line),
        10 => odd_line(random, &mut line),
        _ => two_byte_letter(&mut line, place),
    }
    line
}

/// Replaces one number, with the digits around it, by a wide one.
fn put_wide_number(random: &mut Random, line: &mut Vec<u8>) {
    let is_digit = |byte: &u8| byte.is_ascii_digit();
    let digits: Vec<usize> = (0..line.len()).filter(|k| is_digit(&line[*k])).collect();
    let wide = random.pick(&WIDE_NUMBERS);
    if digits.is_empty() {
        line.extend(wide.bytes());
        return;
    }
    let place = random.pick(&digits);
    let end = place
        + line[place..]
            .iter()
            .take_while(|byte| is_digit(byte))
            .count();
    line.splice(place..end, wide.bytes());
}

/// Drops one of the words that spaces part.
fn drop_token(random: &mut Random, line: &mut Vec<u8>) {
    let mut words: Vec<&[u8]> = line.split(|byte| *byte == b' ').collect();
    words.remove(random.below(words.len() as u64) as usize);
    *line = words.join(&b' ');
}

/// A line that is blank, a comment, or a comment with a space before it.
fn odd_line(random: &mut Random, line: &mut Vec<u8>) {
    match random.below(4) {
        0 => line.clear(),
        1 => *line = vec![b' '; 1 + random.below(5) as usize],
        2 => line.insert(0, b'#'),
        _ => {
            line.splice(0..0, *b" #");
        }
    }
}

/// A letter outside ASCII: two bytes, neither of them a letter of a word.
fn two_byte_letter(line: &mut Vec<u8>, place: usize) {
    line.splice(place..place, "\u{e9}".bytes());
}
