//! The layouts that a random route's stations choose from: all different, many of them much alike.

use crate::layout::padded_size;
use crate::random::Random;
use crate::random_pieces::{random_minor_to_major, random_tiles, Draft};
use crate::shape::element_count;

/// A pool for stations of up to so many layouts.
pub fn random_pool(random: &mut Random, sizes: &[i64], most_choices: usize) -> Vec<Draft> {
    let fewest = if most_choices > 4 { 8 } else { 3 };
    let count = fewest + random.pick_place(5);
    different_layouts(random, sizes, count)
}

/// So many different layouts, or fewer where the shape hardly has them. They keep the rules where the shape does.
pub fn different_layouts(random: &mut Random, sizes: &[i64], count: usize) -> Vec<Draft> {
    let mut layouts = vec![good_layout(random, sizes)];
    for _ in 0..10 * count {
        if layouts.len() == count {
            break;
        }
        let layout = another_layout(random, &layouts);
        if !layouts.contains(&layout) {
            layouts.push(layout);
        }
    }
    layouts
}

/// A variant of one of the layouts, or one made anew.
fn another_layout(random: &mut Random, layouts: &[Draft]) -> Draft {
    let mut variant = layouts[random.pick_place(layouts.len())].clone();
    if random.percent(65) {
        vary(random, &mut variant);
        if is_good(&variant) || element_count(&variant.shape()).is_err() {
            return variant;
        }
    }
    good_layout(random, &variant.sizes)
}

/// Another order, tiles that change no offset, a tile less, or another entry.
pub fn vary(random: &mut Random, layout: &mut Draft) {
    let rank = layout.sizes.len();
    match random.below(5) {
        0 => layout.minor_to_major.reverse(),
        1 => layout.tiles.push(vec![1]),
        2 => layout.tiles.push(vec![1; rank.max(1)]),
        3 => {
            layout.tiles.pop();
        }
        _ => vary_entry(random, &mut layout.tiles),
    }
}

fn vary_entry(random: &mut Random, tiles: &mut [Vec<i64>]) {
    let mut entries: Vec<&mut i64> = tiles.iter_mut().flatten().collect();
    if !entries.is_empty() {
        let place = random.pick_place(entries.len());
        *entries[place] = random.between(1, 4);
    }
}

fn good_layout(random: &mut Random, sizes: &[i64]) -> Draft {
    let rank = sizes.len();
    for _ in 0..20 {
        let mut layout = untiled(sizes);
        layout.minor_to_major = random_minor_to_major(random, rank);
        let small = random.percent(70);
        layout.tiles = random_tiles(random, rank, small);
        if is_good(&layout) {
            return layout;
        }
    }
    untiled(sizes)
}

/// The untiled layout of a shape, last dimension minor.
pub fn untiled(sizes: &[i64]) -> Draft {
    Draft {
        sizes: sizes.to_vec(),
        minor_to_major: (0..sizes.len() as i64).rev().collect(),
        tiles: vec![],
    }
}

pub fn is_good(layout: &Draft) -> bool {
    padded_size(&layout.shape(), &layout.layout()).is_ok()
}
