// An ordinary dynamic programme for a tree of stations: from the last one on, each goes into its parent's table.
use std::ops::Add;

use crate::ordinary::{choices, Choice, Route};
use crate::stations::Layout;

/// What plans are compared by: the cost, then the places by station number, as digits of three bits. The first station's
/// place stands behind the cost, 21 more in each further word. Parts of a tree share no station, so their weights add up.
#[derive(Clone, Copy, PartialEq, Eq, PartialOrd, Ord)]
struct Weight([u64; 4]);

/// Stands where no plan is admitted: above any weight of a plan.
const NONE: Weight = Weight([1 << 60, 0, 0, 0]);

impl Add for Weight {
    type Output = Weight;

    fn add(self, other: Weight) -> Weight {
        Weight([0, 1, 2, 3].map(|k| self.0[k] + other.0[k]))
    }
}

impl Weight {
    fn cost(cost: u64) -> Weight {
        Weight([cost << 3, 0, 0, 0])
    }

    /// The word and the lowest bit of a station's place.
    fn digit(station: usize) -> (usize, usize) {
        match station {
            0 => (0, 0),
            _ => (1 + (station - 1) / 21, 60 - (station - 1) % 21 * 3),
        }
    }

    /// A station alone, at one of its places.
    fn station(station: usize, place: usize, size: u64) -> Weight {
        let mut weight = Weight::cost(size);
        let (word, bit) = Weight::digit(station);
        weight.0[word] += (place as u64) << bit;
        weight
    }

    fn place(self, station: usize) -> usize {
        let (word, bit) = Weight::digit(station);
        (self.0[word] >> bit & 7) as usize
    }
}

/// The least weights of a station with all that hangs below it: by its place, then by the moves allowed there.
type Table = Vec<Vec<Weight>>;

/// The best plan of a tree of up to 64 stations, first by station number among those of least cost. None is given where
/// a station holds a layout twice or names a parent that is not earlier.
pub fn tree(stations: &[Vec<Layout>], parents: &[usize], moves: usize) -> Option<Route> {
    let stations = choices(stations)?;
    let n = stations.len();
    if (1..n).any(|i| parents[i] >= i) {
        return None;
    }
    let own = |i: usize| -> Vec<Weight> {
        stations[i].iter().enumerate().map(|(a, choice)| Weight::station(i, a, choice.size)).collect()
    };
    // Nothing stands for a station that has no child yet.
    let mut tables: Vec<Option<Table>> = vec![None; n];
    let alone = |i: usize| -> Table { own(i).iter().map(|&weight| vec![weight; moves + 1]).collect() };
    for i in (1..n).rev() {
        let below = tables[i].take().unwrap_or_else(|| alone(i));
        let behind = link(&stations[parents[i]], &stations[i], &below, moves);
        match &mut tables[parents[i]] {
            None => tables[parents[i]] = Some(first(&own(parents[i]), behind)),
            Some(table) => merge(table, &behind, moves),
        }
    }
    let table = tables[0].take().unwrap_or_else(|| alone(0));
    let best = table.iter().map(|weights| weights[moves]).min()?;
    let places = (0..n).map(|i| best.place(i)).collect();
    (best < NONE).then(|| Route { places, total: best.0[0] >> 3 })
}

fn lower(least: &mut Weight, weight: Weight) {
    if weight < *least {
        *least = weight;
    }
}

/// The least weight of a child's part by the parent's place, the move into the child included.
fn link(parent: &[Choice], child: &[Choice], below: &Table, moves: usize) -> Table {
    let mut behind = vec![vec![NONE; moves + 1]; parent.len()];
    for (from, least) in parent.iter().zip(&mut behind) {
        for (to, weights) in child.iter().zip(below) {
            if from.layout == to.layout {
                for (least, &weight) in least.iter_mut().zip(weights) {
                    lower(least, weight);
                }
            } else {
                let price = Weight::cost(from.size + to.size);
                for (least, &weight) in least[1..].iter_mut().zip(weights) {
                    lower(least, weight + price);
                }
            }
        }
    }
    behind
}

/// The table of a parent with its first child: all moves are the child's.
fn first(own: &[Weight], mut behind: Table) -> Table {
    for (&own, weights) in own.iter().zip(&mut behind) {
        weights.iter_mut().for_each(|weight| *weight = *weight + own);
    }
    behind
}

/// Adds one more child to a parent's table: the moves are split between what is there and the child.
fn merge(table: &mut Table, behind: &Table, moves: usize) {
    for (weights, behind) in table.iter_mut().zip(behind) {
        for m in (0..=moves).rev() {
            let mut least = NONE;
            for (&here, &there) in weights[..=m].iter().zip(behind[..=m].iter().rev()) {
                lower(&mut least, here + there);
            }
            weights[m] = least;
        }
    }
}

#[cfg(test)]
mod tests {
    use super::*;
    use crate::ordinary::route;
    use crate::stations::{parents, stations, FORMS};

    /// The first plan of least cost among all, tried in list order.
    fn by_trial(stations: &[Vec<Layout>], parents: &[usize], moves: usize) -> Option<Route> {
        let chosen = choices(stations)?;
        let mut best: Option<Route> = None;
        for plan in 0..chosen.iter().map(Vec::len).product() {
            let mut rest = plan;
            let mut places = vec![0; chosen.len()];
            for i in (0..chosen.len()).rev() {
                places[i] = rest % chosen[i].len();
                rest /= chosen[i].len();
            }
            let at = |i: usize| chosen[i][places[i]];
            let moving: Vec<usize> = (1..places.len()).filter(|&i| at(parents[i]).layout != at(i).layout).collect();
            let sizes: u64 = (0..places.len()).map(|i| at(i).size).sum();
            let total = sizes + moving.iter().map(|&i| at(parents[i]).size + at(i).size).sum::<u64>();
            if moving.len() <= moves && best.as_ref().map_or(true, |best| total < best.total) {
                best = Some(Route { places, total });
            }
        }
        best
    }

    /// Small trees of the benchmark's stations, some with like stations, so that branches tie.
    #[test]
    fn small_trees_agree_with_every_plan_tried() {
        let mut plans = 0;
        for seed in 0..60 {
            for (count, layouts) in [(1, 8), (3, 6), (5, 4), (7, 2)] {
                let mut stations = stations(seed)[..count].to_vec();
                stations.iter_mut().for_each(|station| station.truncate(layouts));
                let mut alike = stations.clone();
                (2..count).for_each(|i| alike[i] = stations[i % 2].clone());
                for (form, moves) in (0..FORMS.len()).flat_map(|form| (0..5).map(move |moves| (form, moves))) {
                    for stations in [&stations, &alike] {
                        let parents = parents(form, seed);
                        let best = by_trial(stations, &parents, moves);
                        plans += usize::from(best.is_some());
                        assert_eq!(tree(stations, &parents, moves), best, "seed {seed}, {} of {count}", FORMS[form]);
                    }
                }
            }
        }
        assert!(plans > 4000, "{plans}");
    }

    #[test]
    fn chains_agree_with_the_route() {
        for seed in 0..40 {
            for moves in [0, 1, 5, 20, 63] {
                let stations = stations(seed);
                let best = tree(&stations, &parents(0, seed), moves);
                assert_eq!(best, route(&stations, moves), "seed {seed}, {moves} moves");
            }
        }
    }
}
