//! Random operations that keep every rule, on a given input shape.

use crate::operation_draft::OperationDraft;
use crate::random::Random;

pub const WORDS: [&str; 8] = [
    "elementwise",
    "broadcast",
    "transpose",
    "reverse",
    "concatenate",
    "reduce",
    "slice",
    "reshape",
];

const TOP_SIZE: i64 = 1 << 20;
const TOP_COUNT: i64 = 1 << 40;

/// An operation on an input of those sizes; only concatenate of rank 0 breaks a rule.
pub fn good_draft(random: &mut Random, word: &'static str, sizes: &[i64]) -> OperationDraft {
    let mut draft = OperationDraft {
        word,
        numbers: vec![],
        shapes: vec![sizes.to_vec()],
        list: vec![],
        cuts: vec![],
    };
    match word {
        "broadcast" => broadcast(random, &mut draft),
        "transpose" => draft.list = shuffled(random, sizes.len()),
        "reverse" | "reduce" => {
            draft.list = shuffled(random, sizes.len());
            draft
                .list
                .truncate(random.below(sizes.len() as u64 + 1) as usize);
        }
        "concatenate" => concatenate(random, &mut draft),
        "slice" => draft.cuts = sizes.iter().map(|size| random_cut(random, *size)).collect(),
        "reshape" => {
            let output = regrouped(random, sizes);
            draft.shapes.push(output);
        }
        _ => {}
    }
    draft
}

/// The numbers below a count in any order.
pub fn shuffled(random: &mut Random, count: usize) -> Vec<i64> {
    let mut order: Vec<i64> = (0..count as i64).collect();
    for place in (1..count).rev() {
        order.swap(place, random.pick_place(place + 1));
    }
    order
}

/// Dimensions are added, and all of them stand in any order.
fn broadcast(random: &mut Random, draft: &mut OperationDraft) {
    let mut sizes = draft.shapes[0].clone();
    let rank = sizes.len();
    let mut count: i64 = sizes.iter().product();
    while sizes.len() < 6 && random.percent(55) {
        let size = random.pick(&[1, 2, 3, 3, 4, 7, 30]);
        if count * size <= TOP_COUNT {
            count *= size;
            sizes.push(size);
        }
    }
    let order = if random.percent(60) {
        let mut order = shuffled(random, sizes.len());
        // Most lists are sorted: the given dimensions keep their order.
        let mut given = 0..rank as i64;
        for place in &mut order {
            if *place < rank as i64 {
                *place = given.next().expect("as many as there are");
            }
        }
        order
    } else {
        shuffled(random, sizes.len())
    };
    let place = |dimension: i64| order.iter().position(|other| *other == dimension);
    draft.list = (0..rank as i64)
        .map(|dimension| place(dimension).expect("every dimension") as i64)
        .collect();
    let output = order.iter().map(|dimension| sizes[*dimension as usize]);
    draft.shapes.push(output.collect());
}

/// 1 to 8 operands, the given one among them.
fn concatenate(random: &mut Random, draft: &mut OperationDraft) {
    let sizes = draft.shapes[0].clone();
    let count = random.pick(&[1, 2, 2, 3, 3, 4, 5, 7, 8]);
    let operand = random.pick_place(count);
    if sizes.is_empty() {
        draft.numbers = vec![0, operand as i64];
        draft.shapes = vec![sizes; count];
        return;
    }
    let joined = random.pick_place(sizes.len());
    let others: i64 = sizes.iter().product::<i64>() / sizes[joined];
    let mut left = (TOP_COUNT / others).min(TOP_SIZE) - sizes[joined];
    draft.numbers = vec![joined as i64, operand as i64];
    draft.shapes.clear();
    for number in 0..count {
        let mut shape = sizes.clone();
        if number != operand {
            if left == 0 {
                draft.numbers[1] -= i64::from(number < operand);
                continue;
            }
            shape[joined] = random.between(1, left.min(9));
            left -= shape[joined];
        }
        draft.shapes.push(shape);
    }
}

/// What is taken of one dimension: all of it, a part, one place, and strides past the size.
fn random_cut(random: &mut Random, size: i64) -> [i64; 3] {
    let start = match random.below(4) {
        0 | 1 => 0,
        2 => random.between(0, size - 1),
        _ => size - 1 - random.between(0, (size - 1).min(5)),
    };
    let limit = match random.below(3) {
        0 => size,
        1 => start + 1,
        _ => random.between(start + 1, size),
    };
    let stride = match random.below(10) {
        0..=2 => 1,
        3..=6 => random.between(2, 9),
        7 => random.between(1, size),
        8 => random.pick(&[size, (size + 1).min(TOP_SIZE), limit - start]),
        _ => random.pick(&[TOP_SIZE, TOP_SIZE - 1]),
    };
    [start, limit, stride]
}

/// Other sizes with the same product: the prime factors in other groups.
fn regrouped(random: &mut Random, sizes: &[i64]) -> Vec<i64> {
    let mut factors: Vec<i64> = sizes.iter().flat_map(|size| prime_factors(*size)).collect();
    if random.percent(50) {
        let order = shuffled(random, factors.len());
        factors = order.iter().map(|place| factors[*place as usize]).collect();
    }
    let mut groups = vec![];
    for factor in factors {
        let opened = random.percent(45) && groups.len() < 6;
        match groups.last_mut() {
            Some(group) if !opened && *group * factor <= TOP_SIZE => *group *= factor,
            _ => groups.push(factor),
        }
    }
    while groups.len() < 6 && random.percent(15) {
        groups.insert(random.pick_place(groups.len() + 1), 1);
    }
    if groups.len() > 6 {
        return sizes.to_vec();
    }
    groups
}

fn prime_factors(number: i64) -> Vec<i64> {
    let mut rest = number;
    let mut factors = Vec::new();
    let mut factor = 2;
    while rest > 1 {
        while rest % factor == 0 {
            factors.push(factor);
            rest /= factor;
        }
        factor += 1;
    }
    factors
}
