//! Random map drafts: bounds, results and constraints as they are written, and their text.

use crate::map::{Constraint, Interval, Map};
use crate::map_text::tree_text;
use crate::random::Random;
use crate::random_expressions::{random_chain, random_expression, random_splits, Palette};

const BOUND: i64 = 1 << 40;
const NUMBER: i64 = 1 << 62;

/// A map as it is written.
#[derive(Clone)]
pub struct MapDraft {
    pub dimensions: Vec<(i64, i64)>,
    pub ranges: Vec<(i64, i64)>,
    pub results: Vec<String>,
    pub constraints: Vec<(String, i64, i64)>,
}

impl MapDraft {
    /// The draft of a map whose numbers all fit.
    pub fn of(map: &Map) -> MapDraft {
        let ends = |interval: &Interval| (interval.low as i64, interval.high as i64);
        let constraint = |constraint: &Constraint| {
            let (low, high) = ends(&constraint.interval);
            (tree_text(&constraint.tree), low, high)
        };
        MapDraft {
            dimensions: map.dimensions.iter().map(ends).collect(),
            ranges: map.ranges.iter().map(ends).collect(),
            results: map.results.iter().map(tree_text).collect(),
            constraints: map.constraints.iter().map(constraint).collect(),
        }
    }

    pub fn text(&self) -> String {
        let dimensions = names("d", self.dimensions.len());
        let ranges = names("s", self.ranges.len());
        let mut text = format!("({})", dimensions.join(", "));
        if !ranges.is_empty() {
            text.push_str(&format!("[{}]", ranges.join(", ")));
        }
        text.push_str(&format!(" -> ({})", self.results.join(", ")));
        let bounds = self.dimensions.iter().chain(&self.ranges);
        let mut domain: Vec<String> = Vec::new();
        for (name, (low, high)) in dimensions.iter().chain(&ranges).zip(bounds) {
            domain.push(format!("{name} in [{low}, {high}]"));
        }
        for (expression, low, high) in &self.constraints {
            domain.push(format!("{expression} in [{low}, {high}]"));
        }
        if !domain.is_empty() {
            text.push_str(&format!(", domain: {}", domain.join(", ")));
        }
        text
    }

    pub fn variables(&self) -> Vec<String> {
        let mut variables = names("d", self.dimensions.len());
        variables.extend(names("s", self.ranges.len()));
        variables
    }
}

fn names(letter: &str, count: usize) -> Vec<String> {
    (0..count)
        .map(|number| format!("{letter}{number}"))
        .collect()
}

/// A map with bounds so small that every point can be tried.
pub fn small_map(random: &mut Random) -> MapDraft {
    let mut draft = empty_draft();
    for _ in 0..random.pick(&[1, 1, 2, 2, 2, 3]) {
        draft.dimensions.push(small_bounds(random));
    }
    for _ in 0..random.pick(&[0, 0, 0, 1]) {
        draft.ranges.push(small_bounds(random));
    }
    let palette = small_palette(random, &draft);
    for _ in 0..random.pick(&[1, 1, 2, 3]) {
        let depth = random.pick(&[2, 3, 4]);
        draft
            .results
            .push(random_expression(random, &palette, depth));
    }
    for _ in 0..random.pick(&[0, 0, 1, 2]) {
        let expression = random_expression(random, &palette, 2);
        let low = random.between(-6, 6);
        draft
            .constraints
            .push((expression, low, low + random.between(0, 12)));
    }
    draft
}

/// A row-major index split another way, as a reshape does it.
pub fn split_map(random: &mut Random) -> MapDraft {
    let mut draft = empty_draft();
    let mut sizes = Vec::new();
    for _ in 0..random.pick(&[1, 2, 2, 3]) {
        sizes.push(random.pick(&[2, 2, 3, 4, 4, 5, 8]));
    }
    draft.dimensions = sizes.iter().map(|size| (0, size - 1)).collect();
    draft.results = random_splits(random, &sizes, 2);
    if random.percent(30) {
        let split = random_splits(random, &sizes, 1).remove(0);
        draft.constraints.push((split, 0, random.between(0, 9)));
    }
    draft
}

/// Divisions nested many deep.
pub fn nested_map(random: &mut Random) -> MapDraft {
    let mut draft = small_map(random);
    let palette = small_palette(random, &draft);
    let length = random.pick(&[3, 5, 8, 12]);
    draft.results = vec![random_chain(random, &palette, length)];
    draft
}

/// Bounds, constants and coefficients at the ends of their limits.
pub fn large_map(random: &mut Random) -> MapDraft {
    let mut draft = empty_draft();
    for _ in 0..random.pick(&[1, 2, 3]) {
        draft.dimensions.push(large_bounds(random));
    }
    draft.ranges = vec![small_bounds(random); random.below(2) as usize];
    let palette = large_palette(random, &draft);
    for _ in 0..random.pick(&[1, 1, 2]) {
        let depth = random.pick(&[1, 2, 3, 3]);
        draft
            .results
            .push(random_expression(random, &palette, depth));
    }
    if random.percent(25) {
        let expression = random_expression(random, &palette, 2);
        let low = random.pick(&[-NUMBER, -1, 0, NUMBER]);
        let high = random.pick(&[low, NUMBER]);
        draft.constraints.push((expression, low, high));
    }
    draft
}

/// Many trees, so that the nodes of the map or of its fold come near 256.
pub fn many_nodes(random: &mut Random) -> MapDraft {
    let mut draft = empty_draft();
    draft.dimensions = vec![(0, random.between(3, 9)), (2, 3), small_bounds(random)];
    let growing = |random: &mut Random| {
        let d = random.pick(&["d0", "d2"]);
        let (k, c) = random.pick(&[(2, 4), (2, 6), (3, 9), (2, 8), (4, 12)]);
        format!("({d} * {k} + d1) mod {c}")
    };
    let trees = random.between(20, 40);
    for number in 0..trees {
        let mut expression = growing(random);
        for _ in 0..random.pick(&[0, 0, 0, 1, 1]) {
            expression.push_str(&format!(" + {}", growing(random)));
        }
        if number < 8 {
            draft.results.push(expression);
        } else {
            let low = random.between(0, 3);
            draft.constraints.push((expression, low, low + 1));
        }
    }
    draft
}

pub fn empty_draft() -> MapDraft {
    MapDraft {
        dimensions: vec![],
        ranges: vec![],
        results: vec![],
        constraints: vec![],
    }
}

pub fn small_bounds(random: &mut Random) -> (i64, i64) {
    let low = random.pick(&[0, 0, 0, 0, 1, -1, -3, -7, 5]);
    (low, low + random.pick(&[0, 1, 2, 3, 4, 5, 6, 9]))
}

fn large_bounds(random: &mut Random) -> (i64, i64) {
    match random.below(8) {
        0 => (-BOUND, BOUND),
        1 => (0, BOUND),
        2 => (BOUND, BOUND),
        3 => (-BOUND, -BOUND + random.between(0, 9)),
        4 => (0, (1 << random.between(1, 40)) - 1),
        5 => (0, 0),
        _ => small_bounds(random),
    }
}

pub fn small_palette(random: &mut Random, draft: &MapDraft) -> Palette {
    let base = random.between(2, 6);
    Palette {
        variables: draft.variables(),
        constants: vec![0, 1, -1, 2, 3, 5, -4, 7, 11, -13, base, base - 1],
        factors: vec![
            base,
            2 * base,
            base * base,
            -base,
            2,
            3,
            4,
            6,
            -1,
            -2,
            1,
            0,
            10,
        ],
        divisors: vec![
            base,
            2 * base,
            base * base,
            3 * base,
            2,
            3,
            4,
            5,
            7,
            8,
            12,
            1,
        ],
    }
}

fn large_palette(random: &mut Random, draft: &MapDraft) -> Palette {
    let power = 1i64 << random.between(18, 62);
    let divisor = 1i64 << random.between(1, 40);
    Palette {
        variables: draft.variables(),
        constants: vec![
            NUMBER,
            -NUMBER,
            NUMBER - 1,
            1 - NUMBER,
            power,
            -power,
            0,
            1,
            -1,
            7,
        ],
        factors: vec![
            power,
            -power,
            1 << 20,
            1 << 22,
            -(1 << 22),
            (1 << 22) + 1,
            NUMBER,
            -1,
            2,
            3,
        ],
        divisors: vec![divisor, divisor, BOUND, BOUND - 1, 1 << 20, 2, 3, 7, 1],
    }
}
