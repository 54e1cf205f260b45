//! The forms of random trees: which earlier station is each one's parent.

use crate::random::Random;

/// The parents of so many stations, the first one's a number that is not read.
pub fn random_parents(random: &mut Random, count: usize) -> Vec<i64> {
    let form = random.below(100);
    let branches = 2 + random.pick_place(3);
    let mut parents = vec![random_first(random, count)];
    for station in 1..count {
        let parent = match form {
            0..=29 => random.pick_place(station),
            30..=39 => station - 1,
            40..=49 => 0,
            // Branches side by side: the stations come to each in turn.
            50..=69 => station.saturating_sub(branches),
            // A row with something hanging from every other station.
            70..=77 => (station - 1) / 2 * 2,
            // Two children to each.
            78..=85 => (station - 1) / 2,
            // A row, then all from its end.
            86..=91 => (station - 1).min(count / 2),
            // One of the last few.
            _ => station - 1 - random.pick_place(station.min(3)),
        };
        parents.push(parent as i64);
    }
    parents
}

/// What stands in the first station's place.
pub fn random_first(random: &mut Random, count: usize) -> i64 {
    match random.below(100) {
        0..=49 => 0,
        50..=69 => random.between(1, count as i64),
        _ => random.pick(&[7, 63, 64, 65, 1 << 32, -1, i64::MIN, i64::MAX]),
    }
}

/// Parents that are not earlier: the station's own number, a later one, or one past the stations.
pub fn break_parents(random: &mut Random, parents: &mut [i64]) {
    let count = parents.len();
    if count == 1 {
        return;
    }
    for _ in 0..random.pick(&[1, 1, 1, 2, 3]) {
        let station = 1 + random.pick_place(count - 1);
        let (own, last) = (station as i64, count as i64 - 1);
        parents[station] = match random.below(8) {
            0 | 1 => own,
            2 => random.between(own, last),
            3 => last + 1,
            4 => random.between(own, 65),
            5 => random.pick(&[(1 << 8) + own - 1, (1 << 32) + own - 1]),
            _ => random.pick(&[-1, -1, i64::MIN, i64::MAX]),
        };
    }
}
