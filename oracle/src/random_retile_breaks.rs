//! Broken rules of random re-tilings: the shape, either layout, either padded size, a mark, either buffer.

use crate::random::Random;
use crate::random_pieces::Draft;
use crate::random_retile::{needed, RetileDraft};
use crate::random_route_breaks::{break_layout_of, over_tiles};

/// Breaks one rule.
pub fn break_rule(random: &mut Random, draft: &mut RetileDraft) {
    match random.below(14) {
        0 => break_shape(random, draft),
        1..=3 => {
            let rank = draft.source.sizes.len();
            let layout = either(random, draft);
            break_layout_of(random, rank, layout);
        }
        4..=6 => either(random, draft).tiles = over_tiles(),
        // Accepted for ranks from 1 on, but more cells than can be lent.
        7 => either(random, draft).tiles = vec![vec![1024], vec![5, 1024]],
        8..=10 => break_mark(random, draft),
        _ => break_length(random, draft),
    }
}

fn either<'a>(random: &mut Random, draft: &'a mut RetileDraft) -> &'a mut Draft {
    if random.percent(50) {
        return &mut draft.source;
    }
    &mut draft.destination
}

fn break_shape(random: &mut Random, draft: &mut RetileDraft) {
    let mut sizes = draft.source.sizes.clone();
    if sizes.is_empty() || random.percent(20) {
        sizes.resize(7, 1);
    } else {
        let place = random.pick_place(sizes.len());
        sizes[place] = random.pick(&[0, -1, (1 << 20) + 1, i64::MAX]);
    }
    draft.source.sizes = sizes.clone();
    draft.destination.sizes = sizes;
}

/// A mark above the destination's padded size, in any of the runs.
fn break_mark(random: &mut Random, draft: &mut RetileDraft) {
    let padded = needed(&draft.destination) as i64;
    let place = random.pick_place(draft.runs.len());
    let above = random.between(2, 99);
    draft.runs[place].0 = random.pick(&[padded + 1, padded + 1, padded + above, -1, i64::MAX]);
}

/// One buffer of just its padded size, the other one cell short of it, or shorter.
fn break_length(random: &mut Random, draft: &mut RetileDraft) {
    let mut source = needed(&draft.source).min(4096) as i64;
    let mut destination = needed(&draft.destination).min(4096) as i64;
    let short = if random.percent(50) {
        &mut source
    } else {
        &mut destination
    };
    *short = random.pick(&[*short - 1, *short - 1, *short / 2, 0]);
    draft.lengths = Some((source, destination));
}
