//! Random pairs of maps to be composed: small ones, and chains of operations' maps.

use crate::brute_maps::read;
use crate::compose::compose;
use crate::fold::fold;
use crate::map::Map;
use crate::map_range::result_ranges;
use crate::operation::Way;
use crate::operation_map::operation_map;
use crate::random::Random;
use crate::random_expressions::random_expression;
use crate::random_maps::{nested_map, small_map, small_palette, split_map, MapDraft};
use crate::random_operations::{good_draft, WORDS};
use crate::random_pieces::small_sizes;

/// Two maps as they are written: f, then g.
#[derive(Clone)]
pub struct Pair {
    pub f: MapDraft,
    pub g: MapDraft,
}

impl Pair {
    pub fn text(&self) -> String {
        format!("compose {} ; {}", self.f.text(), self.g.text())
    }

    /// Both maps, of a pair that can be read.
    pub fn maps(&self) -> (Map, Map) {
        let map = |draft: &MapDraft| read(&draft.text()).expect("a map that is read");
        (map(&self.f), map(&self.g))
    }
}

/// Two maps with bounds so small that every point can be tried.
pub fn small_pair(random: &mut Random) -> Pair {
    let mut f = match random.below(4) {
        0 => split_map(random),
        1 => nested_map(random),
        _ => small_map(random),
    };
    let mut g = match random.below(4) {
        0 => split_map(random),
        _ => small_map(random),
    };
    let palette = small_palette(random, &f);
    f.results.truncate(g.dimensions.len());
    while f.results.len() < g.dimensions.len() {
        f.results.push(random_expression(random, &palette, 2));
    }
    if random.percent(65) {
        fit_bounds(random, &f, &mut g);
    }
    Pair { f, g }
}

/// Gives g's dimension variables the ranges of f's results, some of them made a little narrower or wider.
fn fit_bounds(random: &mut Random, f: &MapDraft, g: &mut MapDraft) {
    let map = read(&f.text()).expect("a map that is read");
    let Ok(ranges) = result_ranges(&map) else {
        return;
    };
    for (bounds, range) in g.dimensions.iter_mut().zip(ranges) {
        let (mut low, mut high) = (range.low as i64, range.high as i64);
        if random.percent(40) {
            low += random.between(-1, 2);
            high -= random.between(-1, 2);
        }
        if low <= high && low.abs().max(high.abs()) <= 1 << 40 {
            *bounds = (low, high);
        }
    }
}

/// The maps of operations one after another, composed up to one place and behind it.
pub fn chain_pair(random: &mut Random) -> Pair {
    let maps = chain(random);
    let cut = 1 + random.pick_place(maps.len() - 1);
    let f = composition(random, &maps[..cut]);
    let g = composition(random, &maps[cut..]);
    Pair {
        f: MapDraft::of(&f),
        g: MapDraft::of(&g),
    }
}

/// Maps of 2 to 5 operations, each from the sizes that the one before leads to.
pub fn chain(random: &mut Random) -> Vec<Map> {
    let way = random.pick(&[Way::OutToIn, Way::OutToIn, Way::InToOut]);
    let length = random.pick(&[2, 2, 2, 3, 3, 4, 5]);
    let mut sizes = chain_sizes(random);
    let mut maps = Vec::new();
    while maps.len() < length {
        let word = random.pick(&WORDS);
        let operation = good_draft(random, word, &sizes).operation();
        if let Ok(map) = operation_map(&operation, way) {
            maps.push(map);
            let output = operation.output_sizes();
            sizes = output.iter().map(|size| *size as i64).collect();
        }
    }
    if way == Way::OutToIn {
        maps.reverse();
    }
    maps
}

fn chain_sizes(random: &mut Random) -> Vec<i64> {
    match random.below(10) {
        0 => vec![],
        1..=4 => small_sizes(random),
        5 => (0..6).map(|_| random.between(1, 3)).collect(),
        6 => vec![random.between(1, 1 << 20)],
        _ => {
            let rank = random.pick(&[1, 2, 2, 3, 4]);
            (0..rank).map(|_| random.between(1, 60)).collect()
        }
    }
}

/// The maps composed from the left, folded after some steps; it ends before a refusal.
fn composition(random: &mut Random, maps: &[Map]) -> Map {
    let mut whole = maps[0].clone();
    for map in &maps[1..] {
        let Ok(composed) = compose(&whole, map) else {
            return whole;
        };
        whole = composed;
        if random.percent(50) {
            whole = fold(&whole).unwrap_or(whole);
        }
    }
    whole
}
