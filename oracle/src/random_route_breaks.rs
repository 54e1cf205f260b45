//! Broken rules of random routes: shapes, limits, counts, layouts and padded sizes.

use crate::layout::judge_layout;
use crate::random::Random;
use crate::random_pieces::Draft;
use crate::random_route_pools::different_layouts;
use crate::random_routes::{RouteDraft, TOP_COUNT};

/// Breaks one rule: a shape, a limit, a count, a layout or a padded size.
pub fn break_rule(random: &mut Random, draft: &mut RouteDraft) {
    match random.below(12) {
        0 => break_shape(random, draft),
        1 | 2 => draft.cell_limit = random.pick(&[0, -1, TOP_COUNT + 1, i64::MAX, i64::MIN]),
        3 | 4 => draft.move_limit = random.pick(&[64, 65, -1, i64::MAX, i64::MIN]),
        5 => {
            let station = random.pick_place(draft.stations.len());
            let count = random.pick(&[8, 9, 9, 10]);
            resize_station(random, &mut draft.stations[station], count);
        }
        6 => {
            let station = draft.stations[0].clone();
            draft
                .stations
                .resize(random.pick(&[64, 65, 65, 66]), station);
        }
        _ => break_some_layout(random, draft),
    }
}

/// Breaks the rule of a layout, or its padded size.
pub fn break_some_layout(random: &mut Random, draft: &mut RouteDraft) {
    let rank = draft.sizes.len();
    let station = random.pick_place(draft.stations.len());
    let place = random.pick_place(draft.stations[station].len());
    let layout = &mut draft.stations[station][place];
    if random.percent(50) {
        break_layout_of(random, rank, layout);
    } else {
        layout.tiles = over_tiles();
    }
}

/// Brings a station to that many layouts, different ones where the shape has them.
fn resize_station(random: &mut Random, station: &mut Vec<Draft>, count: usize) {
    let first = station[0].clone();
    for layout in different_layouts(random, &first.sizes, count) {
        if !station.contains(&layout) {
            station.push(layout);
        }
    }
    station.resize(count, first);
}

/// For every rank from 1 on these tiles pad to more than 2^40 cells.
pub fn over_tiles() -> Vec<Vec<i64>> {
    vec![vec![1024], vec![1024; 2], vec![1024, 1024, 1000, 1024]]
}

fn break_shape(random: &mut Random, draft: &mut RouteDraft) {
    let size = random.pick(&[0, -1, (1 << 20) + 1, i64::MAX]);
    match draft.sizes.last_mut() {
        Some(last) => *last = size,
        None => draft.sizes = vec![1; 7],
    }
}

/// Breaks the rule of a layout for that rank.
pub fn break_layout_of(random: &mut Random, rank: usize, layout: &mut Draft) {
    for _ in 0..20 {
        match random.below(5) {
            0 => layout.minor_to_major.push(0),
            1 if rank > 0 && !layout.minor_to_major.is_empty() => {
                layout.minor_to_major[0] = random.pick(&[rank as i64, -1]);
            }
            2 => layout.tiles.push(vec![random.pick(&[0, 1025, -1])]),
            3 => layout.tiles = vec![vec![1]; 4],
            _ => layout.tiles.push(vec![]),
        }
        if judge_layout(rank, &layout.layout()).is_err() {
            return;
        }
    }
}
