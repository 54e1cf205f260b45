//! Random pairs of maps at the limits of what composing gives: counts (7) and ranges of nodes (8).

use crate::compose::composed_nodes;
use crate::random::Random;
use crate::random_maps::{empty_draft, small_bounds, MapDraft};
use crate::random_pairs::{small_pair, Pair};

const BOUND: i64 = 1 << 40;
const NUMBER: i64 = 1 << 62;

/// f's results stand in g so often that the composed map has 254 to 258 nodes.
pub fn node_limit_pair(random: &mut Random) -> Pair {
    let mut pair = small_pair(random);
    let trees = 1 + random.pick_place(8);
    while pair.g.results.len() < trees {
        pair.g.results.push("d0".to_string());
    }
    let target = random.pick(&[254, 255, 256, 256, 256, 257, 257, 257, 258]);
    loop {
        let (f, g) = pair.maps();
        let nodes = composed_nodes(&f, &g);
        if nodes >= target {
            return pair;
        }
        let left = target - nodes;
        let used = random.pick_place(f.results.len());
        let tree = random.pick_place(trees);
        let result = &pair.g.results[tree];
        pair.g.results[tree] = if left > f.results[used].len() {
            format!("{result} + d{used}")
        } else if left > 1 {
            format!("{result} + {}", random.between(-1, 3))
        } else {
            format!("({result}) * {}", random.pick(&[1, 2, -1]))
        };
    }
}

/// 6 to 10 range variables of both maps, or as many as they can have.
pub fn range_limit_pair(random: &mut Random) -> Pair {
    let mut pair = small_pair(random);
    let total = random.pick(&[6, 7, 8, 8, 8, 9, 9, 9, 10, 16]);
    let own = random.between(total - 8.min(total), 8.min(total)) as usize;
    pair.f.ranges.resize_with(own, || small_bounds(random));
    let others = total as usize - own;
    pair.g.ranges.resize_with(others, || small_bounds(random));
    for draft in [&mut pair.f, &mut pair.g] {
        // What was written may name a range variable that is gone.
        for number in draft.ranges.len()..8 {
            replace_variable(draft, &format!("s{number}"), "2");
        }
        for number in 0..draft.ranges.len() {
            let place = random.pick_place(draft.results.len());
            if random.percent(40) {
                draft.results[place].push_str(&format!(" + s{number}"));
            }
        }
    }
    pair
}

fn replace_variable(draft: &mut MapDraft, name: &str, by: &str) {
    for result in &mut draft.results {
        *result = result.replace(name, by);
    }
    for constraint in &mut draft.constraints {
        constraint.0 = constraint.0.replace(name, by);
    }
}

/// 30 to 34 constraints: f's, one for each result of f, and g's.
pub fn constraint_limit_pair(random: &mut Random) -> Pair {
    let mut pair = small_pair(random);
    let total = random.pick(&[30, 31, 32, 32, 32, 33, 33, 33, 34]);
    while pair.f.constraints.len() + pair.f.results.len() + pair.g.constraints.len() < total {
        let draft = if random.percent(50) {
            &mut pair.f
        } else {
            &mut pair.g
        };
        let variables = draft.variables();
        let variable = &variables[random.pick_place(variables.len())];
        let expression = match random.below(4) {
            0 => format!("{variable} mod {}", random.between(2, 5)),
            1 => format!("{variable} + {}", random.between(0, 9)),
            _ => variable.clone(),
        };
        let low = random.between(-9, 9);
        let constraint = (expression, low, low + random.between(0, 20));
        let place = random.pick_place(draft.constraints.len() + 1);
        draft.constraints.insert(place, constraint);
    }
    pair
}

/// Results of f near +-2^62, past g's bounds, and what g makes of them.
pub fn wide_pair(random: &mut Random) -> Pair {
    let count = 1 + random.pick_place(3);
    let mut f = empty_draft();
    f.dimensions = vec![
        random.pick(&[(0, BOUND), (-BOUND, BOUND), (-BOUND, 0), (BOUND, BOUND)]),
        small_bounds(random),
    ];
    for _ in 0..count {
        let factor = random.pick(&[1 << 22, (1 << 22) - 1, 1 << 21, 1 << 10, 1]);
        let sign = random.pick(&["", "-"]);
        f.results.push(match random.below(4) {
            0 => random
                .pick(&["d1", "d0", "d0 floordiv 4", "d0 mod 1048576"])
                .to_string(),
            1 => format!("d0 * {sign}{factor} + d1"),
            2 => random
                .pick(&[NUMBER, -NUMBER, NUMBER - 1, BOUND])
                .to_string(),
            _ => format!("d0 * {sign}{factor}"),
        });
    }
    let mut g = empty_draft();
    for _ in 0..count {
        let bounds = [(0, 9), (0, 0), (-BOUND, BOUND), (-5, 5), (0, BOUND)];
        g.dimensions.push(random.pick(&bounds));
    }
    for _ in 0..1 + random.pick_place(3) {
        let expression = wide_expression(random, count);
        if random.percent(70) {
            g.results.push(expression);
        } else {
            g.constraints.push((expression, 0, NUMBER));
        }
    }
    Pair { f, g }
}

/// An expression that g's own bounds mostly allow.
fn wide_expression(random: &mut Random, count: usize) -> String {
    let (d, e) = (random.pick_place(count), random.pick_place(count));
    match random.below(8) {
        0 => format!("d{d}"),
        1 => format!("d{d} + d{e}"),
        2 => format!("d{d} - d{e}"),
        3 => format!("d{d} + {}", random.pick(&[1, -1, 0])),
        4 => format!("d{d} * {}", random.pick(&[1, -1, 2, 1 << 20, 1 << 22])),
        5 => format!("(d{d} * {}) mod 7", random.pick(&[1, -1, 2, 3])),
        6 => format!("d{d} floordiv {} + d{e}", random.pick(&[1, 2, 1 << 20])),
        _ => format!("(d{d} floordiv 4) * {}", random.pick(&[4, 5, -4])),
    }
}
