//! Damaged offset tables and broken rules: offsets, the padded size, the shape, lengths, the list and its layouts.

use crate::random::Random;
use crate::random_pieces::Draft;
use crate::random_route_breaks::{break_layout_of, over_tiles};
use crate::random_route_pools::untiled;
use crate::random_tables::TableDraft;

const TOP_COUNT: i64 = 1 << 40;

/// Another offset for one element, or two of them exchanged.
pub fn damage_offset(random: &mut Random, draft: &mut TableDraft) {
    let count = draft.offsets.len();
    if count == 0 {
        return;
    }
    let (place, other) = (random.pick_place(count), random.pick_place(count));
    let padded = draft.padded.max(1);
    draft.offsets[place] = match random.below(20) {
        0..=2 => {
            draft.offsets.swap(place, other);
            return;
        }
        3..=9 => draft.offsets[other],
        10..=13 => random.between(0, padded - 1),
        14 | 15 => padded,
        16 => padded.saturating_add(random.between(1, 9)),
        17 => (padded - 1).max(0),
        _ => random.pick(&[TOP_COUNT, 1 << 32, i64::MAX, -1, -2, i64::MIN]),
    };
}

/// A padded size around what the offsets need, or at the ends of what a padded size can be.
pub fn other_padded(random: &mut Random, draft: &TableDraft) -> i64 {
    let largest = draft.offsets.iter().max().copied().unwrap_or(0);
    match random.below(20) {
        0..=2 => largest.saturating_add(1),
        3 | 4 => largest,
        5 | 6 => largest.saturating_add(2),
        7 => draft.offsets.len() as i64,
        8 | 9 => draft.offsets.len() as i64 - 1,
        10 => 0,
        11 => random.between(0, 99),
        12..=14 => TOP_COUNT,
        _ => too_large(random),
    }
}

fn too_large(random: &mut Random) -> i64 {
    random.pick(&[TOP_COUNT + 1, TOP_COUNT + 1, -1, i64::MIN, i64::MAX])
}

/// Breaks one rule; those of a list only where there is one.
pub fn break_rule(random: &mut Random, draft: &mut TableDraft) {
    let kinds = if draft.layouts.is_some() { 18 } else { 7 };
    match random.below(kinds) {
        0 => break_shape(random, draft),
        1..=3 => break_length(random, draft),
        4 | 5 => draft.padded = too_large(random),
        6 => damage_offset(random, draft),
        7 => resize_list(random, draft),
        8..=10 => break_layout(random, draft),
        11..=13 => break_size(random, draft),
        14 | 15 => {
            break_size(random, draft);
            break_layout(random, draft);
        }
        _ => {
            // Unsound, mostly, with a padded size above 2^40.
            damage_offset(random, draft);
            draft.padded = too_large(random);
        }
    }
}

/// Breaks the rule of some layout of the list.
fn break_layout(random: &mut Random, draft: &mut TableDraft) {
    let rank = draft.sizes.len();
    if let Some(layout) = some_layout(random, draft) {
        break_layout_of(random, rank, layout);
    }
}

/// Some layout of the list gets more than 2^40 cells.
fn break_size(random: &mut Random, draft: &mut TableDraft) {
    if let Some(layout) = some_layout(random, draft) {
        layout.tiles = over_tiles();
    }
}

fn some_layout<'a>(random: &mut Random, draft: &'a mut TableDraft) -> Option<&'a mut Draft> {
    let list = draft.layouts.as_mut().filter(|list| !list.is_empty())?;
    let place = random.pick_place(list.len());
    list.get_mut(place)
}

fn break_shape(random: &mut Random, draft: &mut TableDraft) {
    let count = draft.sizes.len();
    if count == 0 || random.percent(20) {
        draft.sizes.resize(7, 1);
    } else {
        let sizes = [0, -1, 4097, (1 << 20) + 1, i64::MAX];
        draft.sizes[random.pick_place(count)] = random.pick(&sizes);
    }
}

/// One offset more or less, none, or many more; or sizes of another number of elements.
fn break_length(random: &mut Random, draft: &mut TableDraft) {
    let first = draft.offsets.first().copied().unwrap_or(0);
    match random.below(10) {
        0..=3 => {
            draft
                .offsets
                .push(random.pick(&[first, draft.padded.saturating_sub(1), draft.padded]))
        }
        4..=6 => {
            draft.offsets.pop();
        }
        7 => draft.offsets.clear(),
        8 => draft.offsets.extend(draft.offsets.clone()),
        _ => match draft.sizes.last_mut() {
            Some(size) => *size = size.saturating_add(1),
            None => draft.sizes.push(2),
        },
    }
}

/// No layout, or around 64 of them.
fn resize_list(random: &mut Random, draft: &mut TableDraft) {
    let count = random.pick(&[0, 0, 64, 65, 65, 66]);
    let layout = untiled(&draft.sizes);
    if let Some(list) = draft.layouts.as_mut() {
        list.resize(count, layout);
    }
}
