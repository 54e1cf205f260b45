// An ordinary dynamic programme for the route: least cost from each place with so many moves left, from the last station back.
use crate::stations::{Layout, SIZES};

#[derive(Debug, PartialEq)]
pub struct Route {
    pub places: Vec<usize>,
    pub total: u64,
}

fn padded(layout: &Layout) -> u64 {
    let mut dims: Vec<u64> = layout.minor_to_major.iter().rev().map(|&d| SIZES[d as usize]).collect();
    for tile in &layout.tiles {
        let k = dims.len() - tile.len();
        for (d, t) in dims[k..].iter_mut().zip(tile) {
            *d = d.div_ceil(*t);
        }
        dims.extend(tile);
    }
    dims.iter().product()
}

/// A layout of a station, and its padded size.
#[derive(Clone, Copy)]
pub struct Choice<'a> {
    pub layout: &'a Layout,
    pub size: u64,
}

/// The stations with their padded sizes. None is given where one holds a layout twice.
pub fn choices(stations: &[Vec<Layout>]) -> Option<Vec<Vec<Choice<'_>>>> {
    if repeat(stations).is_some() {
        return None;
    }
    let choice = |layout| Choice { layout, size: padded(layout) };
    Some(stations.iter().map(|layouts| layouts.iter().map(choice).collect()).collect())
}

/// What coming to a layout costs, its own padded size included, and the moves that it takes.
struct Step {
    cost: u64,
    moves: usize,
}

/// A move costs the padded size of both layouts. The first station is come to from none.
fn step(from: Option<Choice>, to: Choice) -> Step {
    match from {
        Some(from) if from.layout != to.layout => Step { cost: to.size + from.size + to.size, moves: 1 },
        _ => Step { cost: to.size, moves: 0 },
    }
}

/// The cost from a layout on, where `rest` is the cost after it by moves left.
fn through(step: &Step, rest: &[Option<u64>], moves: usize) -> Option<u64> {
    Some(step.cost + rest[moves.checked_sub(step.moves)?]?)
}

/// The first station that holds a layout twice, with its smallest later place and the earlier one.
fn repeat(stations: &[Vec<Layout>]) -> Option<(usize, usize, usize)> {
    for (i, layouts) in stations.iter().enumerate() {
        for later in 1..layouts.len() {
            for earlier in 0..later {
                if layouts[earlier] == layouts[later] {
                    return Some((i, earlier, later));
                }
            }
        }
    }
    None
}

/// The best plan, first in list order among those of least cost. None is given where a station holds a layout twice.
pub fn route(stations: &[Vec<Layout>], moves: usize) -> Option<Route> {
    let stations = choices(stations)?;
    let n = stations.len();
    // least[i][a][m]: the cost after station i from its place a with m moves left.
    let mut least = vec![vec![vec![Some(0u64); moves + 1]; 8]; n];
    for i in (0..n - 1).rev() {
        for a in 0..stations[i].len() {
            let steps: Vec<Step> = stations[i + 1].iter().map(|&to| step(Some(stations[i][a]), to)).collect();
            for m in 0..=moves {
                least[i][a][m] = steps.iter().zip(&least[i + 1]).filter_map(|(s, rest)| through(s, rest, m)).min();
            }
        }
    }
    let starts = stations[0].iter().map(|&to| step(None, to));
    let total = starts.zip(&least[0]).filter_map(|(s, rest)| through(&s, rest, moves)).min()?;
    Some(Route { places: walk(&stations, &least, total, moves), total })
}

/// The places of the plan, the smallest that has the least cost at each station.
fn walk(stations: &[Vec<Choice>], least: &[Vec<Vec<Option<u64>>>], total: u64, moves: usize) -> Vec<usize> {
    let mut places: Vec<usize> = Vec::new();
    let (mut left, mut cost, mut from) = (moves, total, None);
    for i in 0..stations.len() {
        let to = |b: usize| step(from, stations[i][b]);
        let b = (0..stations[i].len()).find(|&b| through(&to(b), &least[i][b], left) == Some(cost)).unwrap();
        let taken = to(b);
        cost -= taken.cost;
        left -= taken.moves;
        from = Some(stations[i][b]);
        places.push(b);
    }
    places
}
