//! Lists of random requests about tables: the layout that makes it, near ones, some with its offsets or padded size.

use crate::layout::{judge_layout, physical_shapes, MAX_TILES, MAX_TILE_ENTRY, MAX_TILE_LENGTH};
use crate::random::Random;
use crate::random_pieces::Draft;
use crate::random_route_pools::{different_layouts, is_good, vary};
use crate::random_tables::made_by;

/// A list in which the maker mostly stands, at any place, sometimes twice.
pub fn random_list(random: &mut Random, maker: &Draft) -> Vec<Draft> {
    let count = match random.below(100) {
        0..=2 => return vec![],
        3..=8 => random.pick(&[63, 64, 64, 65, 65, 66, 70]),
        _ => random.pick(&[1, 2, 2, 3, 3, 4, 6]),
    };
    let mut list: Vec<Draft> = (0..count.min(9))
        .map(|_| other_layout(random, maker))
        .collect();
    for place in 9..count {
        list.push(list[place % 9].clone());
    }
    if random.percent(75) {
        let place = match random.percent(50) {
            true => count - 1,
            false => random.pick_place(count),
        };
        list[place] = maker.clone();
        if random.percent(20) {
            list[random.pick_place(count)] = same_table(maker);
        }
    }
    list
}

/// A layout that is more or less like the maker, or the maker itself.
fn other_layout(random: &mut Random, maker: &Draft) -> Draft {
    match random.below(100) {
        0..=34 => near_layout(random, maker),
        35..=54 => more_padding(random, maker),
        55..=79 => same_size(random, maker),
        80..=82 => same_table(maker),
        83 | 84 => maker.clone(),
        _ => different_layouts(random, &maker.sizes, 1).remove(0),
    }
}

/// A good layout that is one or two changes away from the maker and makes another table, where one is found.
fn near_layout(random: &mut Random, maker: &Draft) -> Draft {
    for _ in 0..10 {
        let mut near = maker.clone();
        for _ in 0..random.pick(&[1, 1, 2]) {
            vary(random, &mut near);
        }
        if is_good(&near) && made_by(&near).offsets != made_by(maker).offsets {
            return near;
        }
    }
    more_padding(random, maker)
}

/// The same padded size and other offsets, where a near layout has them.
fn same_size(random: &mut Random, maker: &Draft) -> Draft {
    for _ in 0..10 {
        let mut other = near_layout(random, maker);
        if random.percent(70) && !maker.sizes.is_empty() {
            other = maker.clone();
            let places = other.minor_to_major.len();
            let place = random.pick_place(places);
            other.minor_to_major.swap(0, place);
        }
        let (table, makers) = (made_by(&other), made_by(maker));
        if table.padded == makers.padded && table.offsets != makers.offsets {
            return other;
        }
    }
    near_layout(random, maker)
}

/// The same offsets and padded size, written with one more tile, where one more may be written.
fn same_table(maker: &Draft) -> Draft {
    let mut same = maker.clone();
    same.tiles.push(vec![1]);
    match judge_layout(maker.sizes.len(), &same.layout()) {
        Ok(()) => same,
        Err(_) => maker.clone(),
    }
}

/// The same offsets and a larger padded size: all dimensions in one tile that is longer than the majormost.
fn more_padding(random: &mut Random, maker: &Draft) -> Draft {
    let mut padded = maker.clone();
    if maker.tiles.len() == MAX_TILES {
        padded.tiles.pop();
    }
    let shapes = physical_shapes(&padded.shape(), &padded.layout());
    let mut tile = shapes[shapes.len() - 1].clone();
    if tile.is_empty() || tile.len() > MAX_TILE_LENGTH {
        return padded;
    }
    tile[0] += random.pick(&[1, 1, 2, 5]);
    if tile.iter().all(|entry| *entry <= MAX_TILE_ENTRY) {
        let entries = tile.iter().map(|entry| *entry as i64);
        padded.tiles.push(entries.collect());
    }
    padded
}
