//! Small cases for brute force: operations of every kind on small shapes.

use crate::operation::{Cut, Operation};
use crate::shape::Shape;
use crate::small_cases::{permutations, shapes, tuples};

/// Operations that keep every rule.
pub fn small_operations() -> Vec<Operation> {
    let mut operations = Vec::new();
    for input in shapes() {
        on_shape(&mut operations, &input);
    }
    concatenations(&mut operations);
    slices(&mut operations);
    reshapes(&mut operations);
    operations
}

/// What takes one shape, and a list without repeats.
fn on_shape(operations: &mut Vec<Operation>, shape: &Shape) {
    let rank = shape.sizes.len();
    operations.push(Operation::Elementwise {
        shape: shape.clone(),
    });
    for list in lists(rank) {
        let input = shape.clone();
        let sizes = list
            .iter()
            .map(|dimension| shape.sizes[*dimension as usize]);
        let narrow = Shape {
            sizes: sizes.collect(),
        };
        operations.push(Operation::Broadcast {
            input: narrow,
            output: shape.clone(),
            list: list.clone(),
        });
        if list.len() == rank {
            operations.push(Operation::Transpose {
                input: input.clone(),
                list: list.clone(),
            });
        }
        operations.push(Operation::Reverse {
            input: input.clone(),
            list: list.clone(),
        });
        operations.push(Operation::Reduce {
            input: input.clone(),
            list: list.clone(),
        });
        operations.push(Operation::ReduceInit { input, list });
    }
}

/// Every list of dimensions without repeats, in every order.
pub fn lists(rank: usize) -> Vec<Vec<u64>> {
    let mut lists = Vec::new();
    for order in permutations(rank) {
        for length in 0..=rank {
            lists.push(order[..length].to_vec());
        }
    }
    lists.sort();
    lists.dedup();
    lists
}

/// One to four operands of rank 1 to 3, joined in every dimension.
fn concatenations(operations: &mut Vec<Operation>) {
    for others in [vec![], vec![2], vec![3, 2]] {
        for dimension in 0..=others.len() {
            for count in 1..=4 {
                for joined in tuples(&[1, 2, 4], count) {
                    joins(operations, &others, dimension, &joined);
                }
            }
        }
    }
}

/// The operands with those sizes in the joined dimension, each of them asked for.
fn joins(operations: &mut Vec<Operation>, others: &[u64], dimension: usize, joined: &[u64]) {
    let shape = |size: &u64| {
        let mut sizes = others.to_vec();
        sizes.insert(dimension, *size);
        Shape { sizes }
    };
    for operand in 0..joined.len() {
        operations.push(Operation::Concatenate {
            dimension: dimension as u64,
            operand: operand as u64,
            operands: joined.iter().map(shape).collect(),
        });
    }
}

/// Every cut of a dimension, with strides up to past its size.
fn cuts(size: u64) -> Vec<Cut> {
    let mut cuts = Vec::new();
    for limit in 1..=size {
        for start in 0..limit {
            for stride in 1..=size + 1 {
                cuts.push(Cut {
                    start,
                    limit,
                    stride,
                });
            }
        }
    }
    cuts
}

fn slices(operations: &mut Vec<Operation>) {
    for size in 1..=9 {
        for cut in cuts(size) {
            let input = Shape { sizes: vec![size] };
            let cuts = vec![cut];
            operations.push(Operation::Slice { input, cuts });
        }
    }
    for first in cuts(4) {
        for second in cuts(3) {
            let input = Shape { sizes: vec![4, 3] };
            let cuts = vec![first, second];
            operations.push(Operation::Slice { input, cuts });
        }
    }
}

/// Every pair of small shapes with one element count, and some of rank 4 to 6.
fn reshapes(operations: &mut Vec<Operation>) {
    let mut all = shapes();
    let higher: [&[u64]; 7] = [
        &[2, 2, 2, 2],
        &[2, 3, 2, 2],
        &[1, 2, 1, 3, 1, 2],
        &[2, 1, 2, 1, 2, 1],
        &[3, 2, 2, 3],
        &[2, 2, 3, 3],
        &[2, 2, 2, 2, 3],
    ];
    all.extend(higher.map(|sizes| Shape {
        sizes: sizes.to_vec(),
    }));
    let count = |shape: &Shape| shape.sizes.iter().product::<u64>();
    for input in &all {
        for output in all.iter().filter(|other| count(other) == count(input)) {
            operations.push(Operation::Reshape {
                input: input.clone(),
                output: output.clone(),
            });
        }
    }
}
