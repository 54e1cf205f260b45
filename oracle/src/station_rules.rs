//! Rules of stations: the numbers 1 to 4 of a route and of a tree, in the order in which they are judged.

use crate::layout::{judge_layout, padded_size, Layout};
use crate::refusal::Refusal;
use crate::route::{Route, MAX_CHOICES, MAX_MOVES, MAX_STATIONS};
use crate::shape::{element_count, MAX_COUNT};

/// The shape (1), then both limits and all counts (2).
pub fn judge_limits(route: &Route) -> Result<(), Refusal> {
    element_count(&route.shape)?;
    let count_fits = |count: usize, most: usize| (1..=most).contains(&count);
    let counts = route.stations.iter().map(Vec::len);
    if !(1..=MAX_COUNT).contains(&route.cell_limit)
        || route.move_limit > MAX_MOVES
        || !count_fits(route.stations.len(), MAX_STATIONS)
        || !counts
            .into_iter()
            .all(|count| count_fits(count, MAX_CHOICES))
    {
        return Err(Refusal::Limit);
    }
    Ok(())
}

/// Every station but the first names an earlier one (2). What the first one names is not read.
pub fn judge_parents(parents: &[u64]) -> Result<(), Refusal> {
    let mut later = parents.iter().enumerate().skip(1);
    if later.any(|(station, parent)| *parent >= station as u64) {
        return Err(Refusal::Limit);
    }
    Ok(())
}

/// The padded size of every layout, once the rule of each layout (3), repeats (3) and the sizes (4) are judged.
pub fn judged_sizes(route: &Route) -> Result<Vec<Vec<u64>>, Refusal> {
    for layout in route.stations.iter().flatten() {
        judge_layout(route.shape.sizes.len(), layout)?;
    }
    judge_repeats(&route.stations)?;
    let sizes = |station: &Vec<Layout>| {
        let sizes = station
            .iter()
            .map(|layout| padded_size(&route.shape, layout));
        sizes.collect()
    };
    route.stations.iter().map(sizes).collect()
}

/// The first station that holds two layouts equal as written (3): its smallest later place, and the earlier one.
fn judge_repeats(stations: &[Vec<Layout>]) -> Result<(), Refusal> {
    for (station, layouts) in stations.iter().enumerate() {
        for later in 0..layouts.len() {
            for earlier in 0..later {
                if layouts[earlier] == layouts[later] {
                    return Err(Refusal::RepeatedLayout {
                        station,
                        earlier,
                        later,
                    });
                }
            }
        }
    }
    Ok(())
}
