//! Random compose lines: pairs of maps, some of which break one rule or several.

use crate::random::Random;
use crate::random_map_lines::{break_rule, written};
use crate::random_maps::MapDraft;
use crate::random_pair_limits::{
    constraint_limit_pair, node_limit_pair, range_limit_pair, wide_pair,
};
use crate::random_pairs::{chain_pair, small_pair, Pair};

/// A compose line, sometimes damaged, sometimes with other spaces.
pub fn random_compose_line(random: &mut Random) -> Vec<u8> {
    let mut pair = random_pair(random);
    match random.below(100) {
        0..=5 => break_one(random, &mut pair),
        6..=11 => wrong_number(random, &mut pair),
        12..=15 => wrong_numbers_beside_another(random, &mut pair),
        _ => {}
    }
    let line = pair.text().into_bytes();
    written(random, line)
}

fn random_pair(random: &mut Random) -> Pair {
    match random.below(100) {
        0..=29 => chain_pair(random),
        30..=54 => small_pair(random),
        55..=66 => wide_pair(random),
        _ => {
            let mut pair = limit_pair(random);
            if random.percent(20) {
                wide_node(random, &mut pair);
            }
            pair
        }
    }
}

fn limit_pair(random: &mut Random) -> Pair {
    match random.below(3) {
        0 => node_limit_pair(random),
        1 => range_limit_pair(random),
        _ => constraint_limit_pair(random),
    }
}

fn one_of<'a>(random: &mut Random, pair: &'a mut Pair) -> &'a mut MapDraft {
    if random.percent(50) {
        return &mut pair.f;
    }
    &mut pair.g
}

fn break_one(random: &mut Random, pair: &mut Pair) {
    let draft = one_of(random, pair);
    break_rule(random, draft);
}

/// f gets a result more or less, or g a dimension more or less.
fn wrong_number(random: &mut Random, pair: &mut Pair) {
    match random.below(4) {
        0 => pair.f.results.push("3".to_string()),
        1 => pair.g.dimensions.push((0, 4)),
        2 => {
            pair.f.results.pop();
        }
        _ => {
            pair.g.dimensions.pop();
        }
    }
}

/// Number 6, with 2, 7 or 8 of a given map or with 7 of the result.
fn wrong_numbers_beside_another(random: &mut Random, pair: &mut Pair) {
    match random.below(4) {
        0 => break_one(random, pair),
        1 => wide_node(random, pair),
        2 => *pair = limit_pair(random),
        _ => {
            let (results, dimensions) = random.pick(&[(9, 8), (8, 9), (9, 1), (1, 9), (9, 10)]);
            pair.f.results.resize(results, "3".to_string());
            pair.g.dimensions.resize(dimensions, (0, 4));
        }
    }
    wrong_number(random, pair);
}

/// A constraint of a given map with a node past 2^62; it stands in another one's place where there is one.
fn wide_node(random: &mut Random, pair: &mut Pair) {
    let draft = one_of(random, pair);
    let expression = random.pick(&[
        "4611686018427387904 + 1",
        "(-4611686018427387904 - 1) floordiv 2",
        "(4611686018427387904 * 2) mod 3",
    ]);
    let constraint = (expression.to_string(), 0, 9);
    match draft.constraints.last_mut() {
        Some(last) => *last = constraint,
        None => draft.constraints.push(constraint),
    }
}
