//! Random operations that break a rule: shapes, attributes of every kind, and lists that repeat or are too long.

use crate::operation_draft::{has_list, OperationDraft};
use crate::random::Random;
use crate::random_operations::shuffled;

const TOP_SIZE: i64 = 1 << 20;

/// Numbers that no place of an operation takes; some come near a good one in 8, 16 or 32 bits.
const OUTSIDE: [i64; 7] = [-1, -2, 256, 1 << 16, 1 << 32, i64::MAX, i64::MIN];

/// One of the shapes breaks its limits.
pub fn break_shape(random: &mut Random, draft: &mut OperationDraft) {
    if draft.shapes.is_empty() {
        return;
    }
    let place = random.pick_place(draft.shapes.len());
    let sizes = &mut draft.shapes[place];
    match random.below(4) {
        0 => sizes.resize(random.pick(&[7, 7, 8, 9, 20]), 1),
        1 => sizes.extend([TOP_SIZE, TOP_SIZE, 2]),
        _ if sizes.is_empty() => sizes.push(0),
        _ => {
            let place = random.pick_place(sizes.len());
            sizes[place] = random.pick(&[0, 0, -1, TOP_SIZE + 1, 1 << 32, i64::MAX, i64::MIN]);
        }
    }
}

/// One cause of number 2 that is no repeat.
pub fn break_attribute(random: &mut Random, draft: &mut OperationDraft) {
    if draft.shapes.is_empty() {
        return;
    }
    match draft.word {
        "concatenate" => break_operands(random, draft),
        "slice" => break_cuts(random, draft),
        "broadcast" if random.percent(40) => change_size(random, draft),
        word if has_list(word) => break_list(random, draft),
        "reshape" => change_size(random, draft),
        _ => break_shape(random, draft),
    }
}

/// A dimension out of range, or one entry less or more.
fn break_list(random: &mut Random, draft: &mut OperationDraft) {
    let rank = draft.shapes.last().map_or(0, Vec::len) as i64;
    let outside = if random.percent(50) {
        rank + random.between(0, 1)
    } else {
        random.pick(&OUTSIDE)
    };
    let place = random.pick_place(draft.list.len() + 1);
    match random.below(4) {
        0 => {
            draft.list.pop();
        }
        1 => draft.list.insert(place, random.between(0, rank.max(1) - 1)),
        2 => draft.list.insert(place, outside),
        _ if place < draft.list.len() => draft.list[place] = outside,
        _ => draft.list.push(outside),
    }
}

/// One size of the first or the last shape is another.
fn change_size(random: &mut Random, draft: &mut OperationDraft) {
    let place = random.pick(&[0, draft.shapes.len() - 1]);
    let sizes = &mut draft.shapes[place];
    if sizes.is_empty() {
        sizes.push(2);
        return;
    }
    let place = random.pick_place(sizes.len());
    sizes[place] = match random.below(3) {
        0 => sizes[place] + 1,
        1 => sizes[place] - 1,
        _ => random.between(1, 9),
    };
}

/// The dimension, the operand, the count, a size or a rank.
fn break_operands(random: &mut Random, draft: &mut OperationDraft) {
    let rank = draft.shapes.last().map_or(0, Vec::len) as i64;
    let count = draft.shapes.len() as i64;
    match random.below(8) {
        0 => draft.numbers[0] = rank + random.between(0, 2),
        1 => draft.numbers[0] = random.pick(&OUTSIDE),
        2 => draft.numbers[1] = count + random.between(0, 2),
        3 => draft.numbers[1] = random.pick(&OUTSIDE),
        4 => draft.shapes.clear(),
        5 => {
            let length = random.pick(&[9, 9, 9, 10, 12, 17]);
            draft.shapes.resize(length, vec![1; rank as usize]);
        }
        6 => change_size(random, draft),
        _ => {
            let place = random.pick_place(draft.shapes.len());
            if random.percent(50) || draft.shapes[place].pop().is_none() {
                draft.shapes[place].push(1);
            }
        }
    }
}

/// A start, a limit or a stride outside its rule, or a cut less or more.
fn break_cuts(random: &mut Random, draft: &mut OperationDraft) {
    if draft.cuts.is_empty() || random.percent(20) {
        if random.percent(50) || draft.cuts.pop().is_none() {
            draft.cuts.push([0, 1, 1]);
        }
        return;
    }
    let place = random.pick_place(draft.cuts.len());
    let size = draft.shapes[0].get(place).copied().unwrap_or(1);
    let [start, limit, stride] = &mut draft.cuts[place];
    match random.below(7) {
        0 => *start = *limit,
        1 => *start = limit.saturating_add(random.between(1, 3)),
        2 => *limit = size.saturating_add(random.between(1, 2)),
        3 => *stride = random.pick(&[0, TOP_SIZE + 1]),
        4 => *stride = random.pick(&OUTSIDE),
        5 => *limit = random.pick(&OUTSIDE),
        _ => *start = random.pick(&OUTSIDE),
    }
}

/// An operation with a list that repeats a dimension; the rest keeps its rules.
pub fn repeat_draft(random: &mut Random) -> OperationDraft {
    let word = random.pick(&["broadcast", "transpose", "reverse", "reduce"]);
    let rank = random.pick(&[2, 3, 4, 5, 6, 6, 6, 6]);
    let sizes: Vec<i64> = (0..rank).map(|_| random.between(1, 5)).collect();
    let mut list = shuffled(random, rank);
    if word != "transpose" && random.percent(40) {
        list.truncate(random.between(2, rank as i64) as usize);
    }
    if matches!(word, "reverse" | "reduce") && random.percent(30) {
        let dimension = list[random.pick_place(list.len())];
        list.resize(list.len() + random.pick(&[1, 1, 2, 9]), dimension);
    }
    let later = 1 + random.pick_place(list.len() - 1);
    list[later] = list[random.pick_place(later)];
    if random.percent(40) {
        for dimension in &mut list[later + 1..] {
            *dimension = random.between(0, rank as i64 - 1);
        }
    }
    let mut shapes = vec![sizes.clone()];
    if word == "broadcast" {
        let input = list.iter().map(|dimension| sizes[*dimension as usize]);
        shapes.insert(0, input.collect());
    }
    OperationDraft {
        word,
        numbers: vec![],
        shapes,
        list,
        cuts: vec![],
    }
}

/// Makes the list much longer, mostly with dimensions that are in range.
pub fn lengthen_list(random: &mut Random, draft: &mut OperationDraft) {
    let rank = draft.shapes.last().map_or(0, Vec::len) as i64;
    let length = random.pick(&[7, 8, 9, 16, 17, 40, 40, 300]);
    while draft.list.len() < length {
        draft.list.push(random.between(0, rank.max(1) - 1));
    }
    if random.percent(30) {
        let place = random.pick_place(draft.list.len());
        draft.list[place] = rank;
    }
}

/// Operands whose joined size or whose element count comes to its limit or just passes it.
pub fn limit_operands(random: &mut Random) -> OperationDraft {
    let exponent = random.pick(&[0, 0, 0, 19, 20, 20, 21, 25, 33, 38]);
    let count = random.pick(&[1, 2, 2, 3, 8]);
    let joined_limit = 1i64 << (40 - exponent).min(20);
    let joined = (joined_limit + random.pick(&[-1, 0, 0, 1, 1, 2])).max(count);
    let half = random.between(0.max(exponent - 20), 20.min(exponent));
    let mut others = vec![1i64 << half, 1i64 << (exponent - half)];
    others.retain(|size| *size > 1 || random.percent(30));
    let dimension = random.pick_place(others.len() + 1);
    let mut left = joined;
    let mut shapes = Vec::new();
    for number in 0..count {
        let rest = count - 1 - number;
        let size = if rest == 0 {
            left
        } else {
            random.between(1, left - rest)
        };
        left -= size;
        let mut sizes = others.clone();
        sizes.insert(dimension, size);
        shapes.push(sizes);
    }
    OperationDraft {
        word: "concatenate",
        numbers: vec![dimension as i64, random.between(0, count - 1)],
        shapes,
        list: vec![],
        cuts: vec![],
    }
}
