//! Random lines about shapes and layouts, most of them readable and some damaged.

use crate::damage::damage;
use crate::layout::padded_size;
use crate::random::Random;
use crate::random_pieces::{
    random_draft, random_length, random_limit, random_number, random_point, Draft,
};
use crate::shape::element_count;

const WORDS: [&str; 12] = [
    "padded", "offset", "cell", "card", "fit", "number", "point", "pack", "unpack", "store",
    "load", "grid",
];

/// A line about a shape or a layout.
pub fn random_line(random: &mut Random) -> Vec<u8> {
    let line = random_request(random).into_bytes();
    if random.percent(15) {
        return damage(random, line);
    }
    if random.percent(15) {
        return spaced(random, &line);
    }
    line
}

fn random_request(random: &mut Random) -> String {
    let word = random.pick(&WORDS);
    let small = matches!(word, "pack" | "unpack" | "store" | "load" | "grid");
    let draft = random_draft(random, small);
    let shape = format!("[{}]", joined(&draft.sizes));
    match word {
        "number" => format!("number {shape} {}", point_text(random, &draft)),
        "point" => format!("point {shape} {}", random_number(random, elements(&draft))),
        _ => {
            let layout = layout_text(&draft);
            let rest = arguments(random, word, &draft);
            format!("{word} {shape} {layout}{rest}")
        }
    }
}

/// What stands behind SHAPE LAYOUT.
fn arguments(random: &mut Random, word: &str, draft: &Draft) -> String {
    let (elements, padded) = (elements(draft), padded(draft));
    let lengths = random.percent(60);
    match word {
        "offset" => format!(" {}", point_text(random, draft)),
        "cell" => format!(" {}", random_number(random, padded)),
        "fit" => format!(" {}", random_limit(random, padded)),
        "pack" if lengths => two_lengths(random, elements, padded),
        "unpack" if lengths => two_lengths(random, padded, elements),
        "store" => {
            let element = random_number(random, elements);
            let value = random_value(random);
            let cells = one_length(random, padded);
            format!(" {element} {value}{cells}")
        }
        "load" => {
            let element = random_number(random, elements);
            let cells = one_length(random, padded);
            format!(" {element}{cells}")
        }
        _ => String::new(),
    }
}

fn two_lengths(random: &mut Random, first: u64, second: u64) -> String {
    let first = random_length(random, first);
    let second = random_length(random, second);
    format!(" {first} {second}")
}

fn one_length(random: &mut Random, needed: u64) -> String {
    if random.percent(40) {
        return String::new();
    }
    format!(" {}", random_length(random, needed))
}

fn random_value(random: &mut Random) -> i64 {
    const TOP: i64 = u32::MAX as i64;
    match random.below(100) {
        0..=79 => random.between(0, 999),
        80..=94 => random.pick(&[0, 7, TOP - 1, TOP]),
        _ => random.pick(&[TOP + 1, -1, i64::MAX]),
    }
}

/// The element count, or 1 where the shape is refused.
fn elements(draft: &Draft) -> u64 {
    element_count(&draft.shape()).unwrap_or(1)
}

/// The padded size, or 1 where it is refused.
fn padded(draft: &Draft) -> u64 {
    padded_size(&draft.shape(), &draft.layout()).unwrap_or(1)
}

fn point_text(random: &mut Random, draft: &Draft) -> String {
    format!("({})", joined(&random_point(random, &draft.sizes)))
}

pub fn layout_text(draft: &Draft) -> String {
    let order = joined(&draft.minor_to_major);
    if draft.tiles.is_empty() {
        return format!("{{{order}}}");
    }
    let tile_text = |tile: &Vec<i64>| format!("({})", joined(tile));
    let tiles: String = draft.tiles.iter().map(tile_text).collect();
    format!("{{{order}:T{tiles}}}")
}

pub fn joined(numbers: &[i64]) -> String {
    let words: Vec<String> = numbers.iter().map(i64::to_string).collect();
    words.join(",")
}

/// The same tokens with more or fewer spaces around brackets, commas and colons.
pub fn spaced(random: &mut Random, line: &[u8]) -> Vec<u8> {
    let mut text = vec![b' '; random.below(3) as usize];
    for (place, &byte) in line.iter().enumerate() {
        let before_bracket = matches!(line.get(place + 1), Some(b'[' | b'{' | b'('));
        if byte == b' ' && before_bracket && random.percent(50) {
            continue;
        }
        let extra = if b"[]{}(),: ".contains(&byte) && random.percent(30) {
            1 + random.below(2) as usize
        } else {
            0
        };
        text.extend(vec![b' '; extra]);
        text.push(byte);
        text.extend(vec![b' '; extra]);
    }
    text
}
