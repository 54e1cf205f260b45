//! Trees of stations (document 02, Q-11): the first plan of least cost, one station's place fixed after the other.

use crate::refusal::Refusal;
use crate::route::{Plan, Route};
use crate::station_rules::{judge_limits, judge_parents, judged_sizes};

/// What a tree request asks: stations and limits as a route has them, and a parent to each station.
#[derive(Clone, Debug, PartialEq, Eq)]
pub struct Tree {
    pub route: Route,
    /// The first one is not read.
    pub parents: Vec<u64>,
}

/// The least cost by the number of moves made; none where no plan makes just so many. Empty where there is no plan.
pub type Costs = Vec<Option<u64>>;

/// The plan of least cost, the first in station order among equals (1, 2, 3, 4, 10).
pub fn best_tree_plan(tree: &Tree) -> Result<Plan, Refusal> {
    let padded = judged_tree(tree)?;
    let mut open = places_within(tree, &padded);
    let least = |open: &[Vec<usize>]| {
        let costs = costs_of_tree(tree, &padded, open);
        let allowed = costs.into_iter().take(tree.route.move_limit as usize + 1);
        allowed.flatten().min()
    };
    let total = least(&open).ok_or(Refusal::NoPlan)?;
    for station in 0..open.len() {
        let mut places = open[station].clone().into_iter();
        let keeps_the_least = |place: &usize| {
            open[station] = vec![*place];
            least(&open) == Some(total)
        };
        let place = places.find(keeps_the_least);
        open[station] = vec![place.expect("some place keeps the least cost")];
    }
    let places = open.concat();
    Ok(Plan { places, total })
}

/// The least cost of the whole tree by the number of moves, within the cell limit (1, 2, 3, 4).
pub fn costs_by_moves(tree: &Tree) -> Result<Costs, Refusal> {
    let padded = judged_tree(tree)?;
    Ok(costs_of_tree(tree, &padded, &places_within(tree, &padded)))
}

/// The padded size of every layout, once the numbers 1 to 4 are judged.
pub fn judged_tree(tree: &Tree) -> Result<Vec<Vec<u64>>, Refusal> {
    judge_limits(&tree.route)?;
    judge_parents(&tree.parents)?;
    judged_sizes(&tree.route)
}

/// The places of each station whose padded size is within the cell limit.
fn places_within(tree: &Tree, padded: &[Vec<u64>]) -> Vec<Vec<usize>> {
    let places = |sizes: &Vec<u64>| {
        let within = |place: &usize| sizes[*place] <= tree.route.cell_limit;
        (0..sizes.len()).filter(within).collect()
    };
    padded.iter().map(places).collect()
}

/// The least cost of all plans that take open places only. A station's parent is earlier, so that from the last station
/// on each one is complete, with all that hangs below it, before it is added to its parent.
fn costs_of_tree(tree: &Tree, padded: &[Vec<u64>], open: &[Vec<usize>]) -> Costs {
    let own = |station: usize| {
        let cost = |place: &usize| vec![Some(padded[station][*place])];
        open[station].iter().map(cost).collect()
    };
    let mut below: Vec<Vec<Costs>> = (0..open.len()).map(own).collect();
    for station in (1..open.len()).rev() {
        let costs = below.pop().expect("every station has its costs");
        let parent = tree.parents[station] as usize;
        for (above, &place) in below[parent].iter_mut().zip(&open[parent]) {
            let mut behind = Costs::new();
            for (costs, &next) in costs.iter().zip(&open[station]) {
                behind = match move_price(tree, padded, (parent, place), (station, next)) {
                    None => either(behind, costs.iter().copied()),
                    Some(price) => either(behind, moved(costs, price)),
                };
            }
            *above = both(above, &behind);
        }
    }
    below[0].iter().fold(Costs::new(), |least, costs| {
        either(least, costs.iter().copied())
    })
}

/// The padded sizes of both layouts, each given as a station and a place, where they differ as written; else none.
fn move_price(
    tree: &Tree,
    padded: &[Vec<u64>],
    parent: (usize, usize),
    child: (usize, usize),
) -> Option<u64> {
    let layout = |(station, place): (usize, usize)| &tree.route.stations[station][place];
    let size = |(station, place): (usize, usize)| padded[station][place];
    (layout(parent) != layout(child)).then(|| size(parent) + size(child))
}

/// One move more, at that price.
fn moved(costs: &Costs, price: u64) -> impl Iterator<Item = Option<u64>> + '_ {
    let dearer = move |cost: &Option<u64>| cost.map(|cost| cost + price);
    std::iter::once(None).chain(costs.iter().map(dearer))
}

/// The smaller cost of two for each number of moves.
fn either(mut one: Costs, other: impl Iterator<Item = Option<u64>>) -> Costs {
    for (moves, cost) in other.enumerate() {
        match one.get_mut(moves) {
            None => one.push(cost),
            Some(least) => *least = least.iter().copied().chain(cost).min(),
        }
    }
    one
}

/// The least cost of two parts together for each number of moves in both.
fn both(one: &Costs, other: &Costs) -> Costs {
    let mut costs = Costs::new();
    for (moves, first) in one.iter().enumerate() {
        let sum = |second: &Option<u64>| Some((*first)? + (*second)?);
        let before = std::iter::repeat_n(None, moves);
        costs = either(costs, before.chain(other.iter().map(sum)));
    }
    if other.is_empty() {
        costs.clear();
    }
    costs
}
