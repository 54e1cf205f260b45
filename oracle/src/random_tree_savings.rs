//! Random trees whose branches would all save by a move, with fewer moves allowed: which branch moves is the question.

use crate::random::Random;
use crate::random_pieces::Draft;
use crate::random_route_pools::untiled;
use crate::random_routes::{RouteDraft, TOP_COUNT};
use crate::random_tree_forms::{random_first, random_parents};
use crate::random_trees::TreeDraft;

/// One large layout and two small ones of equal size.
struct Pool {
    large: Draft,
    small: Draft,
    turned: Draft,
}

/// A tree of up to so many stations, at least 7. The first one has a large layout alone.
pub fn saving_tree(random: &mut Random, most_stations: usize) -> TreeDraft {
    let sizes = vec![random.between(2, 5), random.between(2, 5)];
    let pool = random_pool(random, &sizes);
    let (stations, parents) = if random.percent(50) {
        branches_alike(random, &pool, most_stations)
    } else {
        any_stations(random, &pool, most_stations)
    };
    let move_limit = random.pick(&[1, 1, 1, 1, 2, 2, 3, 4]);
    let route = RouteDraft {
        sizes,
        cell_limit: TOP_COUNT,
        move_limit,
        stations,
    };
    TreeDraft { route, parents }
}

fn random_pool(random: &mut Random, sizes: &[i64]) -> Pool {
    let (mut large, small, mut turned) = (untiled(sizes), untiled(sizes), untiled(sizes));
    large.tiles = vec![random.pick(&[[4, 8], [8, 128], [5, 10]]).to_vec()];
    turned.minor_to_major.reverse();
    Pool {
        large,
        small,
        turned,
    }
}

/// Stations of any kind in a tree of any form.
fn any_stations(random: &mut Random, pool: &Pool, most: usize) -> (Vec<Vec<Draft>>, Vec<i64>) {
    let count = random.between(4, most as i64) as usize;
    let mut stations = vec![vec![pool.large.clone()]];
    while stations.len() < count {
        let layouts = match random.below(20) {
            0..=4 => vec![&pool.large],
            5..=13 => vec![&pool.small, &pool.large],
            14..=16 => vec![&pool.large, &pool.small],
            17 => vec![&pool.turned, &pool.large],
            18 => vec![&pool.turned, &pool.small, &pool.large],
            _ => vec![&pool.small],
        };
        stations.push(layouts.into_iter().cloned().collect());
    }
    let parents = random_parents(random, count);
    (stations, parents)
}

/// Branches that save alike, each behind stations that cannot save, their stations numbered in any mixture.
fn branches_alike(random: &mut Random, pool: &Pool, most: usize) -> (Vec<Vec<Draft>>, Vec<i64>) {
    let saving = 2 + random.pick_place(2);
    let mut either = vec![pool.small.clone(), pool.large.clone()];
    if random.percent(30) {
        either.reverse();
    }
    // What is left of each branch, from its end, and the station that it has come to.
    let mut branches: Vec<(Vec<Vec<Draft>>, usize)> = Vec::new();
    let mut count = 1;
    while count < most {
        let before = random.pick_place(3);
        count += saving + before;
        if count <= most {
            let mut branch = vec![either.clone(); saving];
            branch.resize(saving + before, vec![pool.large.clone()]);
            branches.push((branch, 0));
        }
    }
    let mut stations = vec![vec![pool.large.clone()]];
    let mut parents = vec![random_first(random, most)];
    while !branches.is_empty() {
        let place = random.pick_place(branches.len());
        let (branch, end) = &mut branches[place];
        stations.extend(branch.pop());
        parents.push(*end as i64);
        *end = stations.len() - 1;
        if branch.is_empty() {
            branches.remove(place);
        }
    }
    (stations, parents)
}
