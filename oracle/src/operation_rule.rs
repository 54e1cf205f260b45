//! The rules of an operation: its shapes (1), its attributes (2), repeats (2) and its result's shape (1).

use crate::operation::{Cut, Operation};
use crate::refusal::Refusal;
use crate::shape::{element_count, Shape, MAX_SIZE};

pub const MAX_OPERANDS: usize = 8;

/// The numbers 1 and 2 of an operation, in their order.
pub fn judge_operation(operation: &Operation) -> Result<(), Refusal> {
    for shape in given_shapes(operation) {
        element_count(shape)?;
    }
    if !attributes_keep(operation) {
        return Err(Refusal::Limit);
    }
    if let Some((earlier, later)) = list(operation).and_then(first_repeat) {
        return Err(Refusal::Repeat { earlier, later });
    }
    let sizes = operation.output_sizes();
    element_count(&Shape { sizes })?;
    Ok(())
}

/// The shapes given, of concatenate's operands as many as a record holds.
fn given_shapes(operation: &Operation) -> Vec<&Shape> {
    match operation {
        Operation::Elementwise { shape } => vec![shape],
        Operation::Broadcast { input, output, .. } | Operation::Reshape { input, output } => {
            vec![input, output]
        }
        Operation::Transpose { input, .. }
        | Operation::Reverse { input, .. }
        | Operation::Reduce { input, .. }
        | Operation::ReduceInit { input, .. }
        | Operation::Slice { input, .. } => vec![input],
        Operation::Concatenate { operands, .. } => operands.iter().take(MAX_OPERANDS).collect(),
    }
}

/// Every cause of number 2 but a repeat.
fn attributes_keep(operation: &Operation) -> bool {
    match operation {
        Operation::Elementwise { .. } => true,
        Operation::Broadcast {
            input,
            output,
            list,
        } => {
            let mut pairs = list.iter().zip(&input.sizes);
            list.len() == input.sizes.len()
                && in_range(list, output)
                && pairs.all(|(dimension, size)| output.sizes[*dimension as usize] == *size)
        }
        Operation::Transpose { input, list } => {
            list.len() == input.sizes.len() && in_range(list, input)
        }
        Operation::Reverse { input, list }
        | Operation::Reduce { input, list }
        | Operation::ReduceInit { input, list } => in_range(list, input),
        Operation::Concatenate {
            dimension,
            operand,
            operands,
        } => {
            (1..=MAX_OPERANDS).contains(&operands.len())
                && *dimension < operands[0].sizes.len() as u64
                && *operand < operands.len() as u64
                && are_alike(operands, *dimension as usize)
        }
        Operation::Slice { input, cuts } => {
            let mut pairs = cuts.iter().zip(&input.sizes);
            cuts.len() == input.sizes.len() && pairs.all(|(cut, size)| cut_keeps(cut, *size))
        }
        Operation::Reshape { input, output } => element_count(input) == element_count(output),
    }
}

fn in_range(list: &[u64], shape: &Shape) -> bool {
    let rank = shape.sizes.len() as u64;
    list.iter().all(|dimension| *dimension < rank)
}

/// Whether the operands have one rank, and one size in every dimension but the joined one.
fn are_alike(operands: &[Shape], joined: usize) -> bool {
    let first = &operands[0].sizes;
    operands.iter().all(|operand| {
        let mut sizes = operand.sizes.iter().zip(first).enumerate();
        operand.sizes.len() == first.len()
            && sizes.all(|(dimension, (size, other))| dimension == joined || size == other)
    })
}

fn cut_keeps(cut: &Cut, size: u64) -> bool {
    cut.start < cut.limit && cut.limit <= size && (1..=MAX_SIZE).contains(&cut.stride)
}

/// The list of dimensions in which a repeat is searched.
fn list(operation: &Operation) -> Option<&[u64]> {
    match operation {
        Operation::Broadcast { list, .. }
        | Operation::Transpose { list, .. }
        | Operation::Reverse { list, .. }
        | Operation::Reduce { list, .. }
        | Operation::ReduceInit { list, .. } => Some(list),
        _ => None,
    }
}

/// The places of the first repeat: the later place from the front, and the earlier one.
fn first_repeat(list: &[u64]) -> Option<(usize, usize)> {
    for later in 0..list.len() {
        for earlier in 0..later {
            if list[earlier] == list[later] {
                return Some((earlier, later));
            }
        }
    }
    None
}
