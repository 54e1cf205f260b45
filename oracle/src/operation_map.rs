//! The maps of operations, both ways, as source document 000 has them.

use crate::fold::fold;
use crate::map::{Constraint, Interval, Map, Node, Tree, Variable};
use crate::operation::{kept, Cut, Operation, Way};
use crate::operation_rule::judge_operation;
use crate::refusal::Refusal;
use crate::shape::Shape;

/// The folded map (1 of the shapes, 2, 2 of a repeat, 1 of the result's shape, then what folding gives).
pub fn operation_map(operation: &Operation, way: Way) -> Result<Map, Refusal> {
    judge_operation(operation)?;
    fold(&unfolded(operation, way))
}

fn unfolded(operation: &Operation, way: Way) -> Map {
    let output = operation.output_sizes();
    match operation {
        Operation::Elementwise { shape } => {
            let all: Vec<usize> = (0..shape.sizes.len()).collect();
            select(&shape.sizes, &all)
        }
        Operation::Broadcast { list, .. } => match way {
            Way::OutToIn => select(&output, &places(list)),
            Way::InToOut => spread(&output, &places(list)),
        },
        Operation::Transpose { input, list } => match way {
            Way::OutToIn => spread(&input.sizes, &places(list)),
            Way::InToOut => select(&input.sizes, &places(list)),
        },
        Operation::Reverse { input, list } => reverse(&input.sizes, list),
        Operation::Concatenate {
            dimension,
            operand,
            operands,
        } => concatenate(*dimension as usize, *operand as usize, operands, way),
        Operation::Reduce { input, list } => match way {
            Way::OutToIn => spread(&input.sizes, &kept(input, list)),
            Way::InToOut => select(&input.sizes, &kept(input, list)),
        },
        Operation::ReduceInit { .. } => match way {
            Way::OutToIn => select(&output, &[]),
            Way::InToOut => spread(&output, &[]),
        },
        Operation::Slice { cuts, .. } => match way {
            Way::OutToIn => slice_out_to_in(cuts),
            Way::InToOut => slice_in_to_out(cuts),
        },
        Operation::Reshape { input, .. } => match way {
            Way::OutToIn => reshape(&output, &input.sizes),
            Way::InToOut => reshape(&input.sizes, &output),
        },
    }
}

fn places(list: &[u64]) -> Vec<usize> {
    list.iter().map(|dimension| *dimension as usize).collect()
}

fn dimension(number: usize) -> Tree {
    vec![Node::Variable(Variable::Dimension(number))]
}

/// From a table's point to some of its coordinates.
fn select(sizes: &[u64], chosen: &[usize]) -> Map {
    Map {
        dimensions: bounds(sizes),
        ranges: vec![],
        results: chosen.iter().map(|number| dimension(*number)).collect(),
        constraints: vec![],
    }
}

/// From some coordinates of a table's points to the points: every other dimension has a range variable.
fn spread(sizes: &[u64], chosen: &[usize]) -> Map {
    let chosen_sizes: Vec<u64> = chosen.iter().map(|number| sizes[*number]).collect();
    let mut other_sizes = Vec::new();
    let mut results = Vec::new();
    for (number, &size) in sizes.iter().enumerate() {
        match chosen.iter().position(|place| *place == number) {
            Some(place) => results.push(dimension(place)),
            None => {
                let range = Variable::Range(other_sizes.len());
                results.push(vec![Node::Variable(range)]);
                other_sizes.push(size);
            }
        }
    }
    Map {
        dimensions: bounds(&chosen_sizes),
        ranges: bounds(&other_sizes),
        results,
        constraints: vec![],
    }
}

/// size - 1 - d for every dimension of the list.
fn reverse(sizes: &[u64], list: &[u64]) -> Map {
    let mut map = select(sizes, &[]);
    for (number, &size) in sizes.iter().enumerate() {
        let mut tree = dimension(number);
        if list.contains(&(number as u64)) {
            tree.insert(0, Node::Constant(i128::from(size) - 1));
            tree.extend([Node::Product(-1), Node::Sum]);
        }
        map.results.push(tree);
    }
    map
}

/// The joined dimension is shifted by the sizes of the operands before.
fn concatenate(joined: usize, operand: usize, operands: &[Shape], way: Way) -> Map {
    let before = operands[..operand].iter();
    let shift: u64 = before.map(|operand| operand.sizes[joined]).sum();
    let shift = i128::from(shift);
    let sizes = &operands[operand].sizes;
    let all: Vec<usize> = (0..sizes.len()).collect();
    let mut map = select(sizes, &all);
    let added = match way {
        Way::OutToIn => {
            map.dimensions[joined].low += shift;
            map.dimensions[joined].high += shift;
            -shift
        }
        Way::InToOut => shift,
    };
    map.results[joined].extend([Node::Constant(added), Node::Sum]);
    map
}

/// d * stride + start.
fn slice_out_to_in(cuts: &[Cut]) -> Map {
    let sizes: Vec<u64> = cuts.iter().map(Cut::taken).collect();
    let mut map = select(&sizes, &[]);
    for (number, cut) in cuts.iter().enumerate() {
        let mut tree = dimension(number);
        tree.push(Node::Product(i128::from(cut.stride)));
        tree.extend([Node::Constant(i128::from(cut.start)), Node::Sum]);
        map.results.push(tree);
    }
    map
}

/// (d - start) floordiv stride, where (d - start) mod stride is 0, from start to the last place taken.
fn slice_in_to_out(cuts: &[Cut]) -> Map {
    let mut map = select(&[], &[]);
    for (number, cut) in cuts.iter().enumerate() {
        let (start, stride) = (i128::from(cut.start), i128::from(cut.stride));
        let last = start + (i128::from(cut.taken()) - 1) * stride;
        map.dimensions.push(Interval {
            low: start,
            high: last,
        });
        let mut distance = dimension(number);
        distance.extend([Node::Constant(-start), Node::Sum]);
        let with = |node: Node| [&distance[..], &[node]].concat();
        map.results.push(with(Node::Floordiv(stride)));
        map.constraints.push(Constraint {
            tree: with(Node::Mod(stride)),
            interval: Interval { low: 0, high: 0 },
        });
    }
    map
}

/// Linear over one shape, split over the other: (linear floordiv the sizes after k) mod size k, no mod for the first.
fn reshape(from: &[u64], to: &[u64]) -> Map {
    let linear = linear(from);
    let mut map = select(from, &[]);
    for (number, &size) in to.iter().enumerate() {
        let mut tree = linear.clone();
        tree.push(Node::Floordiv(product(&to[number + 1..])));
        if number > 0 {
            tree.push(Node::Mod(i128::from(size)));
        }
        map.results.push(tree);
    }
    map
}

/// The sum of d_i times the product of the sizes after i, from the left; without sizes the constant 0.
fn linear(sizes: &[u64]) -> Tree {
    let mut tree = Tree::new();
    for number in 0..sizes.len() {
        tree.extend(dimension(number));
        tree.push(Node::Product(product(&sizes[number + 1..])));
        if number > 0 {
            tree.push(Node::Sum);
        }
    }
    if tree.is_empty() {
        tree.push(Node::Constant(0));
    }
    tree
}

fn product(sizes: &[u64]) -> i128 {
    sizes.iter().map(|size| i128::from(*size)).product()
}

/// 0 to size - 1.
fn bounds(sizes: &[u64]) -> Vec<Interval> {
    let bound = |size: &u64| Interval {
        low: 0,
        high: i128::from(*size) - 1,
    };
    sizes.iter().map(bound).collect()
}
