//! Routes: the least cost of a plan through stations, by a programme over the stations from the last to the first.

use crate::layout::Layout;
use crate::refusal::Refusal;
use crate::shape::Shape;
use crate::station_rules::{judge_limits, judged_sizes};

pub const MAX_MOVES: u64 = 63;
pub const MAX_STATIONS: usize = 64;
pub const MAX_CHOICES: usize = 8;

/// What a route request asks: the stations' layouts are their choices.
#[derive(Clone, Debug, PartialEq, Eq)]
pub struct Route {
    pub shape: Shape,
    pub cell_limit: u64,
    pub move_limit: u64,
    pub stations: Vec<Vec<Layout>>,
}

/// One place per station, and the cost.
#[derive(Clone, Debug, PartialEq, Eq)]
pub struct Plan {
    pub places: Vec<usize>,
    pub total: u64,
}

/// The least costs from one station on: by the place chosen there, then by the moves still allowed.
type Costs = Vec<Vec<Option<u64>>>;

/// The plan of least cost, the first in list order among equals (1, 2, 3, 4, 10).
pub fn best_plan(route: &Route) -> Result<Plan, Refusal> {
    judge_limits(route)?;
    let padded = judged_sizes(route)?;
    let costs = costs_by_station(route, &padded);
    let mut moves = route.move_limit as usize;
    let least = |costs: &Costs, moves: usize| costs.iter().filter_map(|row| row[moves]).min();
    let total = least(&costs[0], moves).ok_or(Refusal::NoPlan)?;
    let mut places: Vec<usize> = Vec::new();
    let mut left = total;
    for (station, costs) in costs.iter().enumerate() {
        let (place, cost, used) = (0..costs.len())
            .find_map(|place| {
                let (cost, used) = match places.last() {
                    None => (0, 0),
                    Some(&before) => step(route, &padded, station, before, place),
                };
                let rest = costs[place][moves.checked_sub(used)?]?;
                (rest + cost == left).then_some((place, cost, used))
            })
            .expect("a least cost is reached by some place");
        places.push(place);
        left -= cost + padded[station][place];
        moves -= used;
    }
    Ok(Plan { places, total })
}

/// The least costs from each station on, without the move into it.
fn costs_by_station(route: &Route, padded: &[Vec<u64>]) -> Vec<Costs> {
    let allowed = route.move_limit as usize;
    let mut costs: Vec<Costs> = Vec::new();
    for station in (0..padded.len()).rev() {
        let row = |place: usize| -> Vec<Option<u64>> {
            let size = padded[station][place];
            let from = |moves: usize| {
                if size > route.cell_limit {
                    return None;
                }
                match costs.last() {
                    None => Some(size),
                    Some(later) => {
                        Some(size + onward(route, padded, station, place, moves, later)?)
                    }
                }
            };
            (0..=allowed).map(from).collect()
        };
        let rows = (0..padded[station].len()).map(row).collect();
        costs.push(rows);
    }
    costs.reverse();
    costs
}

/// The least cost behind a station, the move into the next one included.
fn onward(
    route: &Route,
    padded: &[Vec<u64>],
    station: usize,
    place: usize,
    moves: usize,
    later: &Costs,
) -> Option<u64> {
    let costs = (0..later.len()).filter_map(|next| {
        let (cost, used) = step(route, padded, station + 1, place, next);
        Some(cost + later[next][moves.checked_sub(used)?]?)
    });
    costs.min()
}

/// The cost and the number of moves between a place at the station before and a place at a station. A move costs
/// the padded size of both layouts.
fn step(
    route: &Route,
    padded: &[Vec<u64>],
    station: usize,
    before: usize,
    place: usize,
) -> (u64, usize) {
    if route.stations[station - 1][before] == route.stations[station][place] {
        return (0, 0);
    }
    (padded[station - 1][before] + padded[station][place], 1)
}
