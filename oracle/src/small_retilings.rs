//! Small re-tilings for brute force: shapes and their layouts, with up to three tiles and padding.

use crate::layout::{padded_size, Layout};
use crate::shape::Shape;
use crate::small_cases::permutations;

const SHAPES: [&[u64]; 10] = [
    &[],
    &[1],
    &[4],
    &[7],
    &[1, 3],
    &[2, 3],
    &[3, 5],
    &[2, 1, 3],
    &[2, 2, 3],
    &[1, 2, 1, 2],
];

const TILE_LISTS: [&[&[u64]]; 10] = [
    &[],
    &[&[2]],
    &[&[3, 2]],
    &[&[2, 3]],
    &[&[2, 1, 2]],
    &[&[2], &[3]],
    &[&[2, 2], &[2, 1]],
    &[&[3, 2], &[2]],
    &[&[2], &[3], &[2]],
    &[&[2, 1], &[1, 2], &[1, 3]],
];

/// Layouts of more cells are left out.
const LARGEST: u64 = 30;

pub fn shapes() -> Vec<Shape> {
    let shape = |sizes: &&[u64]| Shape {
        sizes: sizes.to_vec(),
    };
    SHAPES.iter().map(shape).collect()
}

/// The layouts of a shape: the first, the last and the middle orders of its dimensions, with every list of tiles that it takes.
pub fn layouts(shape: &Shape) -> Vec<Layout> {
    let orders = permutations(shape.sizes.len());
    let mut places = vec![0, orders.len() / 2, orders.len() - 1];
    places.dedup();
    let mut layouts = Vec::new();
    for place in places {
        for tiles in TILE_LISTS {
            let layout = Layout {
                minor_to_major: orders[place].clone(),
                tiles: tiles.iter().map(|tile| tile.to_vec()).collect(),
            };
            if padded_size(shape, &layout).is_ok_and(|padded| padded <= LARGEST) {
                layouts.push(layout);
            }
        }
    }
    layouts
}
