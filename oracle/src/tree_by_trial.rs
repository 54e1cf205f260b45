//! Trees a second time: every plan is tried, by the rules of document 02, Q-11, or by others.

use crate::refusal::Refusal;
use crate::route::Plan;
use crate::route_by_trial::next_plan;
use crate::tree::{judged_tree, Tree};

/// A plan that is tried: the padded sizes at its places, and which stations move in from their parents.
pub struct Trial<'a> {
    /// The parents, the first station's as 0.
    pub parents: &'a [usize],
    pub places: &'a [usize],
    pub sizes: Vec<u64>,
    pub moves_in: Vec<bool>,
}

/// How plans are judged: what one costs, the moves that the limit bounds, and what is least for the first among equals.
#[derive(Clone, Copy)]
pub struct Rules {
    pub cost: fn(&Trial) -> u64,
    pub moves: fn(&Trial) -> u64,
    pub order: fn(&Trial) -> Vec<usize>,
}

/// Each size once, each move at both sizes; all moves counted together; places compared by station number.
pub const RULES: Rules = Rules {
    cost: |trial| trial.sizes.iter().sum::<u64>() + trial.prices().sum::<u64>(),
    moves: |trial| trial.prices().count() as u64,
    order: |trial| trial.places.to_vec(),
};

/// An admitted plan: its cost, what is compared among equals, and its places.
type Found = (u64, Vec<usize>, Vec<usize>);

impl Trial<'_> {
    /// What each move costs.
    fn prices(&self) -> impl Iterator<Item = u64> + '_ {
        let price = |station: usize| self.sizes[self.parents[station]] + self.sizes[station];
        self.movers().map(price)
    }

    /// The stations that move in from their parents.
    pub fn movers(&self) -> impl Iterator<Item = usize> + '_ {
        (0..self.moves_in.len()).filter(|station| self.moves_in[*station])
    }
}

/// The best plan by each of several rules among all that keep both limits.
pub fn tree_plans_by_rules(tree: &Tree, rules: &[Rules]) -> Result<Vec<Option<Plan>>, Refusal> {
    let padded = judged_tree(tree)?;
    let mut parents: Vec<usize> = tree.parents.iter().map(|parent| *parent as usize).collect();
    parents[0] = 0;
    let mut best: Vec<Option<Found>> = vec![None; rules.len()];
    let mut places = vec![0; padded.len()];
    loop {
        let trial = trial(tree, &padded, &parents, &places);
        for (rules, best) in rules.iter().zip(&mut best) {
            let found = admitted(tree, &trial, rules);
            *best = best.take().into_iter().chain(found).min();
        }
        if !next_plan(&mut places, &padded) {
            let plan = |(total, _, places): Found| Plan { places, total };
            return Ok(best.into_iter().map(|best| best.map(plan)).collect());
        }
    }
}

fn trial<'a>(
    tree: &Tree,
    padded: &[Vec<u64>],
    parents: &'a [usize],
    places: &'a [usize],
) -> Trial<'a> {
    let layout = |station: usize| &tree.route.stations[station][places[station]];
    let moves_in = |station: usize| {
        let (before, layout) = (layout(parents[station]), layout(station));
        before.minor_to_major != layout.minor_to_major || before.tiles != layout.tiles
    };
    Trial {
        parents,
        places,
        sizes: (0..places.len()).map(|k| padded[k][places[k]]).collect(),
        moves_in: (0..places.len()).map(moves_in).collect(),
    }
}

/// The plan if it keeps both limits.
fn admitted(tree: &Tree, trial: &Trial, rules: &Rules) -> Option<Found> {
    let route = &tree.route;
    let within = |size: &u64| *size <= route.cell_limit;
    let is_admitted = trial.sizes.iter().all(within) && (rules.moves)(trial) <= route.move_limit;
    is_admitted.then(|| {
        let (cost, order) = ((rules.cost)(trial), (rules.order)(trial));
        (cost, order, trial.places.to_vec())
    })
}
