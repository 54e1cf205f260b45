//! Random lines about divisions: multipliers, quotients, and cells around the offset 2^24.

use crate::damage::damage;
use crate::offset::point_at_offset;
use crate::random::Random;
use crate::random_pieces::{random_minor_to_major, Draft};
use crate::random_requests::{joined, layout_text, spaced};

/// The numbers at and around which numbers are divided.
const MARKS: [i64; 6] = [0, 1 << 24, 1 << 34, 1 << 40, i64::MAX, i64::MIN];

/// Cells are asked for at most so far from the offset 2^24.
const NEAR: i64 = 3000;

pub fn random_division_line(random: &mut Random) -> Vec<u8> {
    let line = random_request(random).into_bytes();
    if random.percent(10) {
        return damage(random, line);
    }
    if random.percent(10) {
        return spaced(random, &line);
    }
    line
}

fn random_request(random: &mut Random) -> String {
    match random.below(100) {
        0..=24 => format!("multiplier {}", random_divisor(random)),
        25..=74 => {
            let divisor = random_divisor(random);
            format!("quotient {} {divisor}", random_number(random, divisor))
        }
        _ => random_cell(random),
    }
}

fn random_divisor(random: &mut Random) -> i64 {
    match random.below(100) {
        0..=59 => random.between(1, 1024),
        60..=69 => 1 << random.below(11),
        70..=79 => random.between(1021, 1027),
        80..=89 => random.between(-2, 4),
        _ => random.pick(&[-1025, -1024, 1 << 24, 1 << 34, i64::MAX, i64::MIN]),
    }
}

/// A number at or around a mark, just around a multiple of the divisor, or any.
fn random_number(random: &mut Random, divisor: i64) -> i64 {
    let mark = random.pick(&MARKS);
    match random.below(100) {
        0..=39 => mark.saturating_add(random.between(-3, 3)),
        40..=59 => {
            let step = divisor.clamp(1, 1024);
            (mark / step * step).saturating_add(random.between(-1, 1))
        }
        60..=79 => random.between(0, (1 << 24) - 1),
        _ => random.next() as i64,
    }
}

/// A cell around the offset 2^24, or the offset of the point that it holds.
fn random_cell(random: &mut Random) -> String {
    let draft = large_draft(random);
    let place = format!("[{}] {}", joined(&draft.sizes), layout_text(&draft));
    let offset = (1 << 24) + random.between(-NEAR, NEAR);
    match point_at_offset(&draft.shape(), &draft.layout(), offset as u64) {
        Ok(Some(point)) if random.percent(50) => {
            let point: Vec<String> = point.iter().map(u64::to_string).collect();
            format!("offset {place} ({})", point.join(","))
        }
        _ => format!("cell {place} {offset}"),
    }
}

/// A matrix of more than 2^24 cells, in tiles of any entries.
fn large_draft(random: &mut Random) -> Draft {
    let sizes = vec![random.between(4100, 9000), random.between(4100, 9000)];
    let minor_to_major = random_minor_to_major(random, 2);
    let tiles = (0..random.below(4))
        .map(|_| {
            let entries = 1 + random.below(2);
            (0..entries).map(|_| random_entry(random)).collect()
        })
        .collect();
    Draft {
        sizes,
        minor_to_major,
        tiles,
    }
}

fn random_entry(random: &mut Random) -> i64 {
    match random.below(100) {
        0..=59 => random.between(1, 16),
        60..=79 => random.between(1, 300),
        _ => random.pick(&[1, 128, 1000, 1021, 1023, 1024]),
    }
}
