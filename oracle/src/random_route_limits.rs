//! Limits of random routes: around the padded sizes and the moves that the stations need.

use crate::layout::{padded_size, Layout};
use crate::random::Random;
use crate::random_routes::{RouteDraft, TOP_COUNT};
use crate::route::best_plan;

/// Sets limits around what the stations need.
pub fn limit(random: &mut Random, draft: &mut RouteDraft) {
    limit_around(random, draft, needed_moves, best_moves);
}

/// Sets limits around the sizes of the stations, the fewest moves with which some plan is admitted and those of the
/// best plan; both counts of moves are asked for with the cell limit set.
pub fn limit_around(
    random: &mut Random,
    draft: &mut RouteDraft,
    needed: impl Fn(&RouteDraft) -> i64,
    best: impl Fn(&RouteDraft) -> i64,
) {
    let mut sizes: Vec<i64> = Vec::new();
    for layout in draft.stations.iter().flatten() {
        let padded = padded_size(&layout.shape(), &layout.layout());
        sizes.extend(padded.map(|padded| padded as i64));
    }
    sizes.push(1);
    let size = random.pick(&sizes);
    let largest = *sizes.iter().max().expect("the list is not empty");
    draft.cell_limit = match random.below(100) {
        0..=44 => TOP_COUNT,
        45..=59 => largest,
        60..=69 => (largest - 1).max(1),
        70..=84 => size,
        85..=92 => (size - 1).max(1),
        _ => random.between(1, TOP_COUNT),
    };
    let stations = draft.stations.len() as i64;
    draft.move_limit = match random.below(100) {
        0..=33 => needed(draft),
        34..=44 => (needed(draft) - 1).max(0),
        45..=59 => best(draft),
        60..=74 => (best(draft) - 1).max(0),
        75..=79 => 0,
        80..=89 => random.between(0, stations.min(63)),
        _ => random.between(0, 63),
    };
}

/// The fewest moves with which some plan is admitted; 0 where none is.
fn needed_moves(draft: &RouteDraft) -> i64 {
    let mut route = draft.route();
    let admitted = |moves: &u64| {
        route.move_limit = *moves;
        best_plan(&route).is_ok()
    };
    (0..=63).find(admitted).unwrap_or(0) as i64
}

/// The moves of the plan that is best when 63 are allowed; 0 where none is admitted.
fn best_moves(draft: &RouteDraft) -> i64 {
    let mut route = draft.route();
    route.move_limit = 63;
    let Ok(plan) = best_plan(&route) else {
        return 0;
    };
    let chosen: Vec<&Layout> = (0..plan.places.len())
        .map(|station| &route.stations[station][plan.places[station]])
        .collect();
    chosen.windows(2).filter(|pair| pair[0] != pair[1]).count() as i64
}
