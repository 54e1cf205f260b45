//! Random map lines: eval, range and fold of drafts, some of them broken or damaged.

use crate::damage::damage;
use crate::random::Random;
use crate::random_maps::{large_map, many_nodes, nested_map, small_map, split_map, MapDraft};
use crate::random_requests::spaced;
use crate::random_tight_maps::tight_map;

const BOUND: i64 = 1 << 40;
const NUMBER: i64 = 1 << 62;

/// Bytes that are put into map lines, besides those of `damage`.
const BYTES: &[u8] = b"()[]{},:;->+*dsr0179 .";

/// A map line.
pub fn random_map_line(random: &mut Random) -> Vec<u8> {
    let line = random_map_request(random).into_bytes();
    written(random, line)
}

/// A line as it is, damaged, or with other spaces.
pub fn written(random: &mut Random, mut line: Vec<u8>) -> Vec<u8> {
    match random.below(100) {
        0..=3 => damage(random, line),
        4..=8 => {
            let place = random.pick_place(line.len());
            match random.below(3) {
                0 => line[place] = random.pick(BYTES),
                1 => line.insert(place, random.pick(BYTES)),
                _ => {
                    line.remove(place);
                }
            }
            line
        }
        9..=18 => spaced(random, &line),
        19..=22 => without_spaces(line),
        _ => line,
    }
}

fn random_map_request(random: &mut Random) -> String {
    let mut draft = random_draft(random);
    if random.percent(14) {
        break_rule(random, &mut draft);
        if random.percent(20) {
            break_rule(random, &mut draft);
        }
    }
    match random.below(100) {
        0..=59 => format!("fold {}", draft.text()),
        60..=89 => {
            let point = point_text(random, &draft);
            format!("eval {} at {point}", draft.text())
        }
        _ => format!("range {}", draft.text()),
    }
}

fn random_draft(random: &mut Random) -> MapDraft {
    match random.below(100) {
        0..=44 => small_map(random),
        45..=64 => split_map(random),
        65..=76 => nested_map(random),
        77..=88 => large_map(random),
        89..=95 => tight_map(random),
        _ => many_nodes(random),
    }
}

/// A point: mostly inside the bounds, else outside or of wrong length.
fn point_text(random: &mut Random, draft: &MapDraft) -> String {
    let mut dimensions = values(random, &draft.dimensions);
    let mut ranges = values(random, &draft.ranges);
    if random.percent(8) {
        let list = if random.percent(60) {
            &mut dimensions
        } else {
            &mut ranges
        };
        if random.percent(50) || list.pop().is_none() {
            list.push(random.between(-1, 3));
        }
    }
    let joined = |values: &[i64]| {
        let words: Vec<String> = values.iter().map(i64::to_string).collect();
        words.join(",")
    };
    if ranges.is_empty() && random.percent(90) {
        return format!("({})", joined(&dimensions));
    }
    format!("({}) [{}]", joined(&dimensions), joined(&ranges))
}

fn values(random: &mut Random, bounds: &[(i64, i64)]) -> Vec<i64> {
    let mut values = Vec::new();
    for &(low, high) in bounds {
        values.push(match random.below(100) {
            0..=4 => random.pick(&[low.saturating_sub(1), high.saturating_add(1), i64::MIN]),
            5..=19 => random.pick(&[low, high]),
            _ if low <= high && high.saturating_sub(low) <= 4 * BOUND => random.between(low, high),
            _ => low,
        });
    }
    values
}

/// Breaks a rule of the map: bounds, ends, numbers, divisors, names or counts.
pub fn break_rule(random: &mut Random, draft: &mut MapDraft) {
    let broken_bounds = [
        (1, 0),
        (0, BOUND + 1),
        (-BOUND - 1, 0),
        (i64::MIN, i64::MAX),
    ];
    let bounds = random.pick(&broken_bounds);
    match random.below(10) {
        0 if !draft.dimensions.is_empty() => {
            let place = random.pick_place(draft.dimensions.len());
            draft.dimensions[place] = bounds;
        }
        1 => draft.ranges.push(bounds),
        2 => {
            let broken = [
                (1, 0),
                (0, NUMBER + 1),
                (-NUMBER - 1, 0),
                (i64::MAX, i64::MAX),
            ];
            let (low, high) = random.pick(&broken);
            draft.constraints.push(("1".to_string(), low, high));
        }
        3 => draft.dimensions.resize(random.pick(&[8, 9, 12]), (0, 1)),
        4 => draft.ranges.resize(random.pick(&[8, 9, 11]), (0, 1)),
        5 => {
            let count = random.pick(&[8, 9, 10]);
            draft.results.resize(count, "7".to_string());
        }
        6 => {
            let count = random.pick(&[32, 33, 40]);
            draft.constraints.resize(count, ("7".to_string(), 0, 5));
        }
        _ => break_tree(random, draft),
    }
}

/// Adds a broken node to a tree, in front of or behind what stands there.
fn break_tree(random: &mut Random, draft: &mut MapDraft) {
    let broken = [
        "d0 floordiv 0",
        "d0 mod 0",
        "7 floordiv 1099511627777",
        "7 mod 1099511627777",
        "4611686018427387905",
        "-4611686018427387905",
        "9223372036854775807",
        "-9223372036854775808",
        "0 * 4611686018427387905",
        "0 * -4611686018427387905",
        "d7",
        "d8",
        "d99",
        "s7",
        "s8",
        "s184467440737095516160",
    ];
    let piece = random.pick(&broken);
    match draft.results.last_mut() {
        Some(last) if random.percent(60) => *last = format!("{piece} + {last}"),
        _ => draft.constraints.push((piece.to_string(), -9, 9)),
    }
}

/// The line without the spaces that no two tokens need between them.
pub fn without_spaces(line: Vec<u8>) -> Vec<u8> {
    let mut short = Vec::new();
    for (place, &byte) in line.iter().enumerate() {
        let before = place.checked_sub(1).map(|before| line[before]);
        let behind = line.get(place + 1).copied();
        let letter = |byte: Option<u8>| byte.is_some_and(|byte| byte.is_ascii_alphabetic());
        if byte != b' ' || (letter(before) && letter(behind)) {
            short.push(byte);
        }
    }
    short
}
