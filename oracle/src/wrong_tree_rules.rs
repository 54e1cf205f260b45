//! Rules for trees that are not those of document 02, Q-11: some tree must tell each of them from the right ones.

use crate::tree_by_trial::{Rules, Trial, RULES};

pub const WRONG_RULES: [(&str, Rules); 7] = [
    (
        "moves are counted along each branch by itself",
        Rules {
            moves: most_moves_of_a_branch,
            ..RULES
        },
    ),
    (
        "the moves out of one parent count as one",
        Rules {
            moves: parents_that_move,
            ..RULES
        },
    ),
    (
        "ties are settled branch by branch",
        Rules {
            order: places_depth_first,
            ..RULES
        },
    ),
    (
        "ties are settled from the last station",
        Rules {
            order: places_from_the_last,
            ..RULES
        },
    ),
    (
        "a parent is paid once for each child, moved or not",
        Rules {
            cost: cost_by_children,
            ..RULES
        },
    ),
    (
        "a parent is read once for all children that move",
        Rules {
            cost: cost_of_one_reading,
            ..RULES
        },
    ),
    (
        "a move does not read",
        Rules {
            cost: cost_without_reading,
            ..RULES
        },
    ),
];

fn most_moves_of_a_branch(trial: &Trial) -> u64 {
    let mut moves = vec![0; trial.places.len()];
    for station in 1..moves.len() {
        moves[station] = moves[trial.parents[station]] + u64::from(trial.moves_in[station]);
    }
    moves.into_iter().max().unwrap_or(0)
}

fn parents_that_move(trial: &Trial) -> u64 {
    let first = |station: &usize| is_first_to_move(trial, *station);
    trial.movers().filter(first).count() as u64
}

fn places_depth_first(trial: &Trial) -> Vec<usize> {
    let mut places = Vec::new();
    let mut waiting = vec![0];
    while let Some(station) = waiting.pop() {
        places.push(trial.places[station]);
        let later = (station + 1..trial.places.len()).rev();
        waiting.extend(later.filter(|child| trial.parents[*child] == station));
    }
    places
}

fn places_from_the_last(trial: &Trial) -> Vec<usize> {
    trial.places.iter().rev().copied().collect()
}

fn cost_by_children(trial: &Trial) -> u64 {
    let is_further = |station: &usize| {
        let parent = trial.parents[*station];
        trial.parents[1..*station].contains(&parent)
    };
    let again = (1..trial.places.len()).filter(is_further);
    (RULES.cost)(trial)
        + again
            .map(|station| parent_size(trial, station))
            .sum::<u64>()
}

fn cost_of_one_reading(trial: &Trial) -> u64 {
    let further = |station: &usize| !is_first_to_move(trial, *station);
    let spared = trial.movers().filter(further);
    (RULES.cost)(trial)
        - spared
            .map(|station| parent_size(trial, station))
            .sum::<u64>()
}

fn cost_without_reading(trial: &Trial) -> u64 {
    let read = trial.movers().map(|station| parent_size(trial, station));
    (RULES.cost)(trial) - read.sum::<u64>()
}

fn parent_size(trial: &Trial, station: usize) -> u64 {
    trial.sizes[trial.parents[station]]
}

/// Whether no earlier child of the same parent moves.
fn is_first_to_move(trial: &Trial, station: usize) -> bool {
    let parent = trial.parents[station];
    let mut earlier = trial.movers().take_while(|other| *other < station);
    earlier.all(|other| trial.parents[other] != parent)
}
