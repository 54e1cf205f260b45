//! Brute force on operations: their maps name exactly the pairs of points that belong together.

use crate::brute::Tally;
use crate::brute_maps::points;
use crate::map::Map;
use crate::map_value::{evaluate, is_in_domain};
use crate::operation::{Operation, Way};
use crate::operation_map::operation_map;
use crate::operation_pairs::{belong, input_sizes};
use crate::random::Random;
use crate::random_operations::{good_draft, WORDS};
use crate::refusal::Refusal;
use crate::shape::Shape;
use crate::small_cases::{shapes, tuples};
use crate::small_operations::small_operations;

const SEED: u64 = 40;
const RANDOM_OPERATIONS: u64 = 2000;

/// A point of the input and a point of the output.
type Pair = (Vec<u64>, Vec<u64>);

pub fn brute_operations(tally: &mut Tally) -> Result<(), String> {
    for operation in small_operations() {
        compare(tally, &operation).map_err(|what| format!("{what}: {operation:?}"))?;
    }
    let mut random = Random::new(SEED);
    for number in 0..RANDOM_OPERATIONS {
        let word = WORDS[number as usize % WORDS.len()];
        let rank = random.between(1, 6);
        let sizes: Vec<i64> = (0..rank).map(|_| random.pick(&[1, 1, 2, 2, 3])).collect();
        let operation = good_draft(&mut random, word, &sizes).operation();
        if operation.output_sizes().iter().product::<u64>() <= 200 {
            compare(tally, &operation).map_err(|what| format!("{what}: {operation:?}"))?;
        }
    }
    lists_of_any_kind(tally)
}

/// The pairs of both maps are those that belong together, each named once.
fn compare(tally: &mut Tally, operation: &Operation) -> Result<(), &'static str> {
    // One place more in every dimension: no point outside the output belongs to one inside the input.
    let wider: Vec<u64> = operation
        .output_sizes()
        .iter()
        .map(|size| size + 1)
        .collect();
    let outputs = table(&wider);
    let mut expected: Vec<Pair> = Vec::new();
    for input in table(&input_sizes(operation)) {
        let together = |output: &&Vec<u64>| belong(operation, &input, output);
        let pair = |output: &Vec<u64>| (input.clone(), output.clone());
        expected.extend(outputs.iter().filter(together).map(pair));
    }
    expected.sort();
    for way in [Way::OutToIn, Way::InToOut] {
        let map = operation_map(operation, way).map_err(|_| "an operation that is accepted")?;
        tally.agree(named_pairs(&map, way) == expected, "the pairs of a map")?;
    }
    Ok(())
}

/// Every point of a table.
fn table(sizes: &[u64]) -> Vec<Vec<u64>> {
    let mut points = vec![vec![]];
    for size in sizes {
        let longer = |point: &Vec<u64>| -> Vec<Vec<u64>> {
            let with = |place| [&point[..], &[place]].concat();
            (0..*size).map(with).collect()
        };
        points = points.iter().flat_map(longer).collect();
    }
    points
}

/// The pairs that a map names, in order; one that is named twice stands twice.
fn named_pairs(map: &Map, way: Way) -> Vec<Pair> {
    let unsigned = |values: &[i128]| values.iter().map(|value| *value as u64).collect();
    let mut pairs: Vec<Pair> = Vec::new();
    for point in points(map) {
        if is_in_domain(map, &point) {
            let from = unsigned(&point.dimensions);
            let to = unsigned(&evaluate(map, &point).expect("a point of the domain"));
            pairs.push(match way {
                Way::OutToIn => (to, from),
                Way::InToOut => (from, to),
            });
        }
    }
    pairs.sort();
    pairs
}

/// Every list of up to four entries, in range or not, with and without repeats.
fn lists_of_any_kind(tally: &mut Tally) -> Result<(), String> {
    for shape in shapes() {
        let rank = shape.sizes.len();
        let entries: Vec<u64> = (0..=rank as u64).collect();
        for length in 0..=4 {
            for list in tuples(&entries, length) {
                judge_list(tally, &shape, &list)
                    .map_err(|what| format!("{what}: {shape:?} {list:?}"))?;
            }
        }
    }
    Ok(())
}

fn judge_list(tally: &mut Tally, shape: &Shape, list: &[u64]) -> Result<(), &'static str> {
    let rank = shape.sizes.len();
    let is_outside = list.iter().any(|dimension| *dimension >= rank as u64);
    let any_length = verdict(is_outside, list);
    let full_length = verdict(is_outside || list.len() != rank, list);
    let (input, list) = (shape.clone(), list.to_vec());
    let given = |operation| operation_map(&operation, Way::OutToIn).map(|_| ());
    let reverse = Operation::Reverse {
        input: input.clone(),
        list: list.clone(),
    };
    let reduce = Operation::Reduce {
        input: input.clone(),
        list: list.clone(),
    };
    let transpose = Operation::Transpose {
        input: input.clone(),
        list: list.clone(),
    };
    tally.agree(given(reverse) == any_length, "a reverse's list")?;
    tally.agree(given(reduce) == any_length, "a reduce's list")?;
    tally.agree(given(transpose) == full_length, "a transpose's list")?;
    let sizes = list.iter().map(|k| shape.sizes.get(*k as usize).copied());
    let sizes = sizes.map(|size| size.unwrap_or(1)).collect();
    let broadcast = Operation::Broadcast {
        input: Shape { sizes },
        output: input,
        list,
    };
    tally.agree(given(broadcast) == any_length, "a broadcast's list")
}

/// Number 2 with zeros, else with the places of the first dimension that was seen before.
fn verdict(is_broken: bool, list: &[u64]) -> Result<(), Refusal> {
    if is_broken {
        return Err(Refusal::Limit);
    }
    let mut seen = [None; 8];
    for (later, dimension) in list.iter().enumerate() {
        if let Some(earlier) = seen[*dimension as usize].replace(later) {
            return Err(Refusal::Repeat { earlier, later });
        }
    }
    Ok(())
}
