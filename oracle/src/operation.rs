//! Operations: what each one is given, and the sizes of its output.

use crate::shape::Shape;

#[derive(Clone, Debug, PartialEq, Eq)]
pub enum Operation {
    Elementwise {
        shape: Shape,
    },
    /// Input dimension k is output dimension list[k].
    Broadcast {
        input: Shape,
        output: Shape,
        list: Vec<u64>,
    },
    /// Output dimension k is input dimension list[k].
    Transpose {
        input: Shape,
        list: Vec<u64>,
    },
    Reverse {
        input: Shape,
        list: Vec<u64>,
    },
    /// Its maps are those of the operand asked for.
    Concatenate {
        dimension: u64,
        operand: u64,
        operands: Vec<Shape>,
    },
    Reduce {
        input: Shape,
        list: Vec<u64>,
    },
    /// A reduce again; its maps have the init for their input.
    ReduceInit {
        input: Shape,
        list: Vec<u64>,
    },
    Slice {
        input: Shape,
        cuts: Vec<Cut>,
    },
    Reshape {
        input: Shape,
        output: Shape,
    },
}

/// What a slice takes of one dimension.
#[derive(Clone, Copy, Debug, PartialEq, Eq)]
pub struct Cut {
    pub start: u64,
    pub limit: u64,
    pub stride: u64,
}

#[derive(Clone, Copy, Debug, PartialEq, Eq)]
pub enum Way {
    OutToIn,
    InToOut,
}

impl Cut {
    /// How many places it takes, by its rule at least one.
    pub fn taken(&self) -> u64 {
        (self.limit - self.start).div_ceil(self.stride)
    }
}

impl Operation {
    /// The sizes of the output, where the operation breaks no rule of number 2.
    pub fn output_sizes(&self) -> Vec<u64> {
        match self {
            Operation::Elementwise { shape } => shape.sizes.clone(),
            Operation::Broadcast { output, .. } | Operation::Reshape { output, .. } => {
                output.sizes.clone()
            }
            Operation::Transpose { input, list } => {
                let size = |dimension: &u64| input.sizes[*dimension as usize];
                list.iter().map(size).collect()
            }
            Operation::Reverse { input, .. } => input.sizes.clone(),
            Operation::Concatenate {
                dimension,
                operands,
                ..
            } => {
                let joined = *dimension as usize;
                let mut sizes = operands[0].sizes.clone();
                sizes[joined] = operands.iter().map(|operand| operand.sizes[joined]).sum();
                sizes
            }
            Operation::Reduce { input, list } | Operation::ReduceInit { input, list } => {
                let kept = kept(input, list);
                kept.iter()
                    .map(|dimension| input.sizes[*dimension])
                    .collect()
            }
            Operation::Slice { cuts, .. } => cuts.iter().map(Cut::taken).collect(),
        }
    }
}

/// The dimensions that a reduce keeps, in their order.
pub fn kept(input: &Shape, list: &[u64]) -> Vec<usize> {
    let dimensions = 0..input.sizes.len();
    dimensions
        .filter(|dimension| !list.contains(&(*dimension as u64)))
        .collect()
}
