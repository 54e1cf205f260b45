//! Routes a second time: every plan is tried, in list order.

use crate::refusal::Refusal;
use crate::route::{Plan, Route};
use crate::station_rules::{judge_limits, judged_sizes};

/// What a move costs, from the padded sizes of the earlier and of the later layout.
pub type Price = fn(u64, u64) -> u64;

/// The first plan of least cost among all that keep both limits. A move reads and writes (document 02, Q-4).
pub fn plan_by_trial(route: &Route) -> Result<Plan, Refusal> {
    plan_at_price(route, |earlier, later| earlier + later)
}

/// The same where a move costs something else.
pub fn plan_at_price(route: &Route, price: Price) -> Result<Plan, Refusal> {
    judge_limits(route)?;
    let padded = judged_sizes(route)?;
    let mut best: Option<Plan> = None;
    let mut places = vec![0; padded.len()];
    loop {
        let sizes: Vec<u64> = (0..places.len()).map(|k| padded[k][places[k]]).collect();
        let moves: Vec<usize> = (1..places.len())
            .filter(|k| moves(route, &places, *k))
            .collect();
        let moved: u64 = moves.iter().map(|&k| price(sizes[k - 1], sizes[k])).sum();
        let total = sizes.iter().sum::<u64>() + moved;
        let admitted = sizes.iter().all(|size| *size <= route.cell_limit)
            && moves.len() as u64 <= route.move_limit;
        if admitted && best.as_ref().is_none_or(|plan| total < plan.total) {
            let places = places.clone();
            best = Some(Plan { places, total });
        }
        if !next_plan(&mut places, &padded) {
            return best.ok_or(Refusal::NoPlan);
        }
    }
}

/// Whether the layout at a station differs as written from the one before it.
fn moves(route: &Route, places: &[usize], station: usize) -> bool {
    let before = &route.stations[station - 1][places[station - 1]];
    let layout = &route.stations[station][places[station]];
    before.minor_to_major != layout.minor_to_major || before.tiles != layout.tiles
}

/// The next plan in list order; false behind the last one.
pub fn next_plan(places: &mut [usize], padded: &[Vec<u64>]) -> bool {
    for station in (0..places.len()).rev() {
        places[station] += 1;
        if places[station] < padded[station].len() {
            return true;
        }
        places[station] = 0;
    }
    false
}
