//! Random maps whose own nodes keep +-2^62 while the working of their fold comes near it or passes it.

use crate::brute_maps::read;
use crate::fold::fold;
use crate::map_rule::judge_map;
use crate::random::Random;
use crate::random_maps::MapDraft;
use crate::refusal::Refusal;

const BOUND: i64 = 1 << 40;
const NUMBER: i64 = 1 << 62;

/// A map that is accepted; every second one is refused by the working of its fold, if one is found soon.
pub fn tight_map(random: &mut Random) -> MapDraft {
    let passes = random.percent(50);
    let mut accepted = None;
    for _ in 0..60 {
        let draft = attempt(random);
        let Some(map) = read(&draft.text()) else {
            continue;
        };
        if judge_map(&map).is_err() {
            continue;
        }
        if !passes || fold(&map) == Err(Refusal::Working) {
            return draft;
        }
        accepted = Some(draft);
    }
    accepted.unwrap_or_else(|| attempt(random))
}

fn attempt(random: &mut Random) -> MapDraft {
    let mut draft = MapDraft {
        dimensions: vec![tight_bounds(random), tight_bounds(random)],
        ranges: vec![tight_bounds(random)],
        results: vec![],
        constraints: vec![],
    };
    let sum = tight_sum(random, &draft);
    let divisor = random.pick(&[2, 3, 4, 6, 12, 7, 1 << 20, BOUND, BOUND - 1]);
    draft.results.push(match random.below(5) {
        0 => sum,
        1 => format!("({sum}) floordiv {divisor}"),
        2 => format!("(({sum}) mod {divisor}) * {} + d0", factor(random, (0, 9))),
        _ => format!("({sum}) mod {divisor}"),
    });
    if random.percent(20) {
        let sum = tight_sum(random, &draft);
        draft.constraints.push((sum, 0, NUMBER));
    }
    draft
}

fn tight_bounds(random: &mut Random) -> (i64, i64) {
    let large = [
        (BOUND, BOUND),
        (-BOUND, -BOUND),
        (BOUND - 9, BOUND),
        (0, BOUND),
    ];
    let small = [(0, 0), (-1, -1), (-9, 0), (0, 9), (-3, -1)];
    if random.percent(55) {
        return random.pick(&large);
    }
    random.pick(&small)
}

/// Terms that nearly fill the limit one by one, in any order, with signs that change.
fn tight_sum(random: &mut Random, draft: &MapDraft) -> String {
    let variables = [
        ("d0", draft.dimensions[0]),
        ("d1", draft.dimensions[1]),
        ("s0", draft.ranges[0]),
    ];
    let mut text = String::new();
    for _ in 0..random.pick(&[2, 3, 3, 4]) {
        let (name, bounds) = random.pick(&variables);
        let term = match random.below(10) {
            0..=6 => format!("{name} * {}", factor(random, bounds)),
            7 => name.to_string(),
            8 => format!("{name} mod {}", random.pick(&[3, 5, 1 << 20])),
            _ => random
                .pick(&[NUMBER, -NUMBER, NUMBER - 1, 1, -1, 5])
                .to_string(),
        };
        if !text.is_empty() {
            text.push_str(" + ");
        }
        text.push_str(&term);
    }
    text
}

/// A factor that takes bounds near +-2^62.
fn factor(random: &mut Random, bounds: (i64, i64)) -> i64 {
    let near = if bounds.0.abs().max(bounds.1.abs()) > BOUND / 2 {
        [1 << 22, (1 << 22) - 1, 1 << 21, 3 << 20, 3]
    } else {
        [NUMBER, NUMBER - 1, NUMBER / 9, 3, 6]
    };
    random.pick(&near) * random.pick(&[1, -1])
}
