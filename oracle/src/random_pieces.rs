//! Random pieces of requests: shapes, layouts, points and numbers, good ones and broken ones.

use crate::layout::Layout;
use crate::random::Random;
use crate::shape::Shape;

const TOP_SIZE: i64 = 1 << 20;
const TOP_COUNT: i64 = 1 << 40;

/// A shape and a layout as they are written: any signed numbers.
#[derive(Clone, PartialEq)]
pub struct Draft {
    pub sizes: Vec<i64>,
    pub minor_to_major: Vec<i64>,
    pub tiles: Vec<Vec<i64>>,
}

impl Draft {
    pub fn shape(&self) -> Shape {
        Shape {
            sizes: unsigned(&self.sizes),
        }
    }

    pub fn layout(&self) -> Layout {
        Layout {
            minor_to_major: unsigned(&self.minor_to_major),
            tiles: self.tiles.iter().map(|tile| unsigned(tile)).collect(),
        }
    }
}

/// A draft; a small one keeps its table and its tiles small in most cases.
pub fn random_draft(random: &mut Random, small: bool) -> Draft {
    let sizes = if small && random.percent(92) {
        small_sizes(random)
    } else {
        random_sizes(random)
    };
    let minor_to_major = random_minor_to_major(random, sizes.len());
    let tiles = random_tiles(random, sizes.len(), small);
    Draft {
        sizes,
        minor_to_major,
        tiles,
    }
}

pub fn small_sizes(random: &mut Random) -> Vec<i64> {
    let rank = random.pick(&[0, 1, 1, 2, 2, 2, 2, 3, 3, 4]);
    numbers(random, rank, 1, 6)
}

pub fn random_sizes(random: &mut Random) -> Vec<i64> {
    match random.below(100) {
        0..=47 => small_sizes(random),
        48..=59 => {
            let rank = random.pick(&[5, 6]);
            numbers(random, rank, 1, 3)
        }
        60..=71 => {
            let rank = random.pick(&[1, 2, 3]);
            numbers(random, rank, 1, 200)
        }
        72..=80 => {
            let mut sizes = small_sizes(random);
            sizes.push(random.between(TOP_SIZE - 2, TOP_SIZE + 1));
            sizes
        }
        81..=90 => large_product(random),
        91..=94 => numbers(random, 7, 1, 2),
        _ => {
            let mut sizes = numbers(random, 3, 1, 9);
            let place = random.below(3) as usize;
            sizes[place] = random.pick(&[0, -1, TOP_SIZE + 1, i64::MAX, i64::MIN]);
            sizes
        }
    }
}

/// Powers of two with a product of 2^39 to 2^41, one size sometimes moved by one.
pub fn large_product(random: &mut Random) -> Vec<i64> {
    let rank = random.pick(&[2, 3, 4, 5, 6]);
    let mut exponents = vec![0u32; rank];
    let mut left = random.pick(&[39, 40, 40, 40, 41]);
    if rank == 2 {
        left = 40;
    }
    while left > 0 {
        let place = random.below(rank as u64) as usize;
        if exponents[place] < 20 {
            exponents[place] += 1;
            left -= 1;
        }
    }
    let mut sizes: Vec<i64> = exponents.iter().map(|exponent| 1 << exponent).collect();
    if random.percent(40) {
        let place = random.below(rank as u64) as usize;
        sizes[place] += random.pick(&[-1, -1, 1]);
    }
    sizes
}

pub fn random_minor_to_major(random: &mut Random, rank: usize) -> Vec<i64> {
    let mut order: Vec<i64> = (0..rank as i64).collect();
    for place in (1..rank).rev() {
        order.swap(place, random.below(place as u64 + 1) as usize);
    }
    if random.percent(95) {
        return order;
    }
    match random.below(4) {
        0 => order.push(rank as i64),
        1 => {
            order.pop();
        }
        2 if rank > 1 => order[0] = order[rank - 1],
        3 if rank > 0 => order[0] = random.pick(&[rank as i64, -1, i64::MAX]),
        _ => order.push(0),
    }
    order
}

pub fn random_tiles(random: &mut Random, rank: usize, small: bool) -> Vec<Vec<i64>> {
    let count = random.pick(&[0, 0, 0, 0, 1, 1, 1, 1, 1, 1, 2, 2, 2, 2, 3, 3, 3, 4]);
    let mut physical_rank = rank;
    let mut tiles = Vec::new();
    for _ in 0..count {
        if physical_rank == 0 && random.percent(90) {
            break;
        }
        let length = tile_length(random, physical_rank);
        let entries = (0..length).map(|_| tile_entry(random, small)).collect();
        tiles.push(entries);
        physical_rank += length;
    }
    tiles
}

fn tile_length(random: &mut Random, physical_rank: usize) -> usize {
    if physical_rank == 0 || random.percent(2) {
        return random.pick(&[0, physical_rank + 1, 7]);
    }
    let longest = physical_rank.min(random.pick(&[1, 2, 2, 3, 6]));
    1 + random.below(longest as u64) as usize
}

fn tile_entry(random: &mut Random, small: bool) -> i64 {
    match random.below(if small { 80 } else { 100 }) {
        0..=77 => random.between(1, 4),
        78 => random.pick(&[0, -1, 1025]),
        79..=88 => random.pick(&[8, 16, 32, 128]),
        89..=92 => random.between(5, 60),
        _ => random.pick(&[1020, 1022, 1023, 1024, 1024, 1025]),
    }
}

/// A point: mostly inside, else with one coordinate outside or of wrong length.
pub fn random_point(random: &mut Random, sizes: &[i64]) -> Vec<i64> {
    let mut point = Vec::new();
    for &size in sizes {
        let last = size.max(1) - 1;
        point.push(if random.percent(20) {
            last
        } else {
            random.between(0, last)
        });
    }
    if random.percent(80) {
        return point;
    }
    if point.is_empty() || random.percent(40) {
        if random.percent(50) && point.pop().is_some() {
            return point;
        }
        point.push(random.between(-1, 2));
        return point;
    }
    let place = random.below(point.len() as u64) as usize;
    point[place] = random.pick(&[sizes[place], sizes[place].saturating_add(1), -1, i64::MAX]);
    point
}

/// A number around a count: mostly below it, else at its edge, past it or negative.
pub fn random_number(random: &mut Random, count: u64) -> i64 {
    let count = count as i64;
    match random.below(100) {
        0..=69 => random.between(0, count - 1),
        70..=79 => count - 1,
        80..=88 => count,
        89..=93 => count + random.between(1, 20),
        94..=97 => random.pick(&[-1, -2, i64::MIN]),
        _ => random.pick(&[i64::MAX, TOP_COUNT, TOP_COUNT + 1]),
    }
}

/// A cell limit around a padded size and at the ends of its own range.
pub fn random_limit(random: &mut Random, padded: u64) -> i64 {
    let padded = padded as i64;
    match random.below(100) {
        0..=29 => padded + random.between(-2, 2),
        30..=59 => random.between(1, 4 * padded),
        60..=79 => 1 << random.below(41),
        80..=91 => random.between(1, TOP_COUNT),
        _ => random.pick(&[0, 1, -1, TOP_COUNT, TOP_COUNT + 1, i64::MAX, i64::MIN]),
    }
}

/// A buffer length around a needed one, seldom past what a request can lend.
pub fn random_length(random: &mut Random, needed: u64) -> i64 {
    let needed = needed.min(4096) as i64;
    match random.below(100) {
        0..=59 => needed,
        60..=69 => needed - 1,
        70..=89 => (needed + random.between(1, 9)).min(4096),
        90..=93 => 4096,
        94..=96 => 0,
        _ => random.pick(&[4097, -1, i64::MAX]),
    }
}

fn numbers(random: &mut Random, count: usize, low: i64, high: i64) -> Vec<i64> {
    (0..count).map(|_| random.between(low, high)).collect()
}

pub fn unsigned(numbers: &[i64]) -> Vec<u64> {
    let convert = |number: &i64| u64::try_from(*number).unwrap_or(u64::MAX);
    numbers.iter().map(convert).collect()
}
