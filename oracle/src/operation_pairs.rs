//! The meaning of operations, a second reading: which point of the input belongs to which point of the output.

use crate::operation::Operation;
use crate::shape::linear_index;

/// Whether a point of the input and a point with the output's rank belong together.
pub fn belong(operation: &Operation, input: &[u64], output: &[u64]) -> bool {
    let mut places = 0..input.len();
    match operation {
        Operation::Elementwise { .. } => input == output,
        Operation::Broadcast {
            output: table,
            list,
            ..
        } => {
            let coordinate = |k: usize| output[list[k] as usize];
            is_inside(output, &table.sizes) && places.all(|k| input[k] == coordinate(k))
        }
        Operation::Transpose { list, .. } => places.all(|k| output[k] == input[list[k] as usize]),
        Operation::Reverse { input: table, list } => places.all(|k| {
            if list.contains(&(k as u64)) {
                input[k] + output[k] + 1 == table.sizes[k]
            } else {
                input[k] == output[k]
            }
        }),
        Operation::Concatenate { .. } => belong_in_a_join(operation, input, output),
        Operation::Reduce { list, .. } => without(input, list) == output,
        Operation::ReduceInit { input: table, list } => {
            is_inside(output, &without(&table.sizes, list))
        }
        Operation::Slice { cuts, .. } => places.all(|k| {
            input[k] == output[k] * cuts[k].stride + cuts[k].start && input[k] < cuts[k].limit
        }),
        Operation::Reshape {
            input: table,
            output: other,
        } => {
            let number = linear_index(input, &table.sizes);
            is_inside(output, &other.sizes) && number == linear_index(output, &other.sizes)
        }
    }
}

/// Concatenate: the places of the joined dimension stand one operand's behind another's.
fn belong_in_a_join(operation: &Operation, input: &[u64], output: &[u64]) -> bool {
    let Operation::Concatenate {
        dimension,
        operand,
        operands,
    } = operation
    else {
        return false;
    };
    let joined = *dimension as usize;
    let mut places = Vec::new();
    for (number, shape) in operands.iter().enumerate() {
        places.extend((0..shape.sizes[joined]).map(|place| (number as u64, place)));
    }
    let here = places.get(output[joined] as usize);
    let mut others = (0..input.len()).filter(|k| *k != joined);
    here == Some(&(*operand, input[joined])) && others.all(|k| input[k] == output[k])
}

/// The sizes of the input that the operation's maps speak of.
pub fn input_sizes(operation: &Operation) -> Vec<u64> {
    match operation {
        Operation::Elementwise { shape } => shape.sizes.clone(),
        Operation::Broadcast { input, .. }
        | Operation::Transpose { input, .. }
        | Operation::Reverse { input, .. }
        | Operation::Reduce { input, .. }
        | Operation::Slice { input, .. }
        | Operation::Reshape { input, .. } => input.sizes.clone(),
        Operation::Concatenate {
            operand, operands, ..
        } => operands[*operand as usize].sizes.clone(),
        Operation::ReduceInit { .. } => vec![],
    }
}

fn is_inside(point: &[u64], sizes: &[u64]) -> bool {
    point.iter().zip(sizes).all(|(e, size)| e < size)
}

/// The entries whose places are not in the list.
fn without(entries: &[u64], list: &[u64]) -> Vec<u64> {
    let mut left: Vec<Option<u64>> = entries.iter().copied().map(Some).collect();
    for place in list {
        left[*place as usize] = None;
    }
    left.into_iter().flatten().collect()
}
