//! Random operation lines: every operation and way, with and without broken rules.

use crate::operation_draft::OperationDraft;
use crate::random::Random;
use crate::random_map_lines::written;
use crate::random_operation_breaks::{
    break_attribute, break_shape, lengthen_list, limit_operands, repeat_draft,
};
use crate::random_operations::{good_draft, WORDS};
use crate::random_pieces::{large_product, small_sizes, unsigned};
use crate::shape::{element_count, Shape};

const TOP_SIZE: i64 = 1 << 20;

/// Runs of bytes that are no way, or not one of every operation.
const WRONG_WAYS: [&str; 16] = [
    "",
    "out-to-init",
    "init-to-out",
    "in-to-in",
    "out-to-out",
    "init-to-in",
    "out-to",
    "out",
    "in-to-out-to-in",
    "out-to-in-",
    "-out-to-in",
    "out - to - in",
    "out_to_in",
    "OUT-TO-IN",
    "out-to-in x",
    "out-to-in out-to-in",
];

/// An operation line, sometimes damaged, sometimes with other spaces.
pub fn random_operation_line(random: &mut Random) -> Vec<u8> {
    let draft = random_draft(random);
    let way = match draft.word {
        _ if random.percent(3) => random.pick(&WRONG_WAYS),
        "reduce" => random.pick(&["out-to-in", "in-to-out", "out-to-init", "init-to-out"]),
        _ => random.pick(&["out-to-in", "in-to-out"]),
    };
    let line = format!("{} {way}", draft.text()).into_bytes();
    written(random, line)
}

fn random_draft(random: &mut Random) -> OperationDraft {
    let mut draft = match random.below(100) {
        0..=11 => repeat_draft(random),
        12..=17 => limit_operands(random),
        _ => {
            let word = random.pick(&WORDS);
            let sizes = operation_sizes(random);
            good_draft(random, word, &sizes)
        }
    };
    match random.below(100) {
        0..=19 => break_attribute(random, &mut draft),
        20..=23 => {
            break_attribute(random, &mut draft);
            break_attribute(random, &mut draft);
        }
        24..=28 => break_shape(random, &mut draft),
        29..=31 => {
            break_attribute(random, &mut draft);
            break_shape(random, &mut draft);
        }
        32..=34 => lengthen_list(random, &mut draft),
        _ => {}
    }
    draft
}

/// Sizes that keep the limits of a shape.
fn operation_sizes(random: &mut Random) -> Vec<i64> {
    let numbers = |random: &mut Random, rank: usize, high: i64| -> Vec<i64> {
        (0..rank).map(|_| random.between(1, high)).collect()
    };
    loop {
        let rank = random.pick(&[1, 2, 2, 3, 3, 4]);
        let sizes = match random.below(100) {
            0..=34 => small_sizes(random),
            35..=49 => numbers(random, 6, 3),
            50..=64 => numbers(random, rank, 200),
            65..=71 => vec![1; rank],
            72..=75 => vec![],
            76..=85 => {
                let mut sizes = small_sizes(random);
                sizes.push(random.between(TOP_SIZE - 2, TOP_SIZE));
                sizes
            }
            _ => large_product(random),
        };
        let shape = Shape {
            sizes: unsigned(&sizes),
        };
        if element_count(&shape).is_ok() {
            return sizes;
        }
    }
}
