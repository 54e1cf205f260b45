//! Brute force on composing: random small pairs and chains, compared with one map applied after the other.

use crate::brute::Tally;
use crate::brute_maps::points;
use crate::compose::compose;
use crate::fold::fold;
use crate::map::Map;
use crate::map_value::{evaluate, is_in_domain, value, MapPoint};
use crate::random::Random;
use crate::random_pairs::{chain, chain_pair, small_pair};

const SEED: u64 = 8;
const PAIRS: u64 = 4000;
const CHAINS: u64 = 2000;
const MOST_POINTS: i128 = 3000;

pub fn brute_compose(tally: &mut Tally) -> Result<(), String> {
    let mut random = Random::new(SEED);
    for number in 0..PAIRS {
        let pair = if number % 4 == 0 {
            chain_pair(&mut random)
        } else {
            small_pair(&mut random)
        };
        let (f, g) = pair.maps();
        compare(tally, &f, &g).map_err(|what| format!("{what}: {}", pair.text()))?;
    }
    for _ in 0..CHAINS {
        let maps = chain(&mut random);
        if let [f, g, h, ..] = &maps[..] {
            group_alike(tally, f, g, h).map_err(|what| format!("{what}: {f:?} {g:?} {h:?}"))?;
        }
    }
    Ok(())
}

/// The composed map's domain and values at every point, and those of its fold.
fn compare(tally: &mut Tally, f: &Map, g: &Map) -> Result<(), &'static str> {
    let Ok(composed) = compose(f, g) else {
        return Ok(());
    };
    if point_count(&composed) > MOST_POINTS {
        return Ok(());
    }
    let folded = fold(&composed);
    for point in points(&composed) {
        let after = one_after_the_other(f, g, &point);
        let inside = is_in_domain(&composed, &point);
        tally.agree(inside == after.is_some(), "a composed domain")?;
        let given = evaluate(&composed, &point).ok();
        tally.agree(given == after, "a composed value")?;
        if let Ok(folded) = &folded {
            tally.agree(evaluate(folded, &point).ok() == after, "a folded value")?;
        }
    }
    Ok(())
}

/// g's values at f's values, where f's domain has the point and g's has what f gives.
fn one_after_the_other(f: &Map, g: &Map, point: &MapPoint) -> Option<Vec<i128>> {
    let (own, others) = point.ranges.split_at(f.ranges.len());
    let first = MapPoint {
        dimensions: point.dimensions.clone(),
        ranges: own.to_vec(),
    };
    if !is_in_domain(f, &first) {
        return None;
    }
    let second = MapPoint {
        dimensions: f.results.iter().map(|tree| value(tree, &first)).collect(),
        ranges: others.to_vec(),
    };
    let values = || g.results.iter().map(|tree| value(tree, &second)).collect();
    is_in_domain(g, &second).then(values)
}

/// (f then g) then h is f then (g then h), where neither is refused.
fn group_alike(tally: &mut Tally, f: &Map, g: &Map, h: &Map) -> Result<(), &'static str> {
    let left = compose(f, g).and_then(|first| compose(&first, h));
    let right = compose(g, h).and_then(|second| compose(f, &second));
    match (left, right) {
        (Ok(left), Ok(right)) => tally.agree(left == right, "a grouping"),
        _ => Ok(()),
    }
}

fn point_count(map: &Map) -> i128 {
    let bounds = map.dimensions.iter().chain(&map.ranges);
    bounds.fold(1, |count: i128, bounds| {
        count.saturating_mul(bounds.high - bounds.low + 1)
    })
}
