//! Drafts of operations: any signed numbers as they are written, and their text.

use crate::operation::{Cut, Operation};
use crate::random_pieces::unsigned;
use crate::random_requests::joined;
use crate::shape::Shape;

/// An operation as it is written: what its word doesn't have is empty.
#[derive(Clone)]
pub struct OperationDraft {
    pub word: &'static str,
    /// Concatenate's dimension and operand.
    pub numbers: Vec<i64>,
    pub shapes: Vec<Vec<i64>>,
    pub list: Vec<i64>,
    pub cuts: Vec<[i64; 3]>,
}

impl OperationDraft {
    /// The request without its way.
    pub fn text(&self) -> String {
        let mut words = vec![self.word.to_string()];
        words.extend(self.numbers.iter().map(i64::to_string));
        words.extend(
            self.shapes
                .iter()
                .map(|sizes| format!("[{}]", joined(sizes))),
        );
        if has_list(self.word) {
            words.push(format!("{{{}}}", joined(&self.list)));
        }
        for [start, limit, stride] in &self.cuts {
            words.push(format!("[{start}:{limit}:{stride}]"));
        }
        words.join(" ")
    }

    pub fn operation(&self) -> Operation {
        let shape = |place: usize| Shape {
            sizes: unsigned(&self.shapes[place]),
        };
        let list = unsigned(&self.list);
        match self.word {
            "elementwise" => Operation::Elementwise { shape: shape(0) },
            "broadcast" => Operation::Broadcast {
                input: shape(0),
                output: shape(1),
                list,
            },
            "transpose" => Operation::Transpose {
                input: shape(0),
                list,
            },
            "reverse" => Operation::Reverse {
                input: shape(0),
                list,
            },
            "concatenate" => Operation::Concatenate {
                dimension: unsigned(&self.numbers)[0],
                operand: unsigned(&self.numbers)[1],
                operands: (0..self.shapes.len()).map(shape).collect(),
            },
            "reduce" => Operation::Reduce {
                input: shape(0),
                list,
            },
            "slice" => Operation::Slice {
                input: shape(0),
                cuts: self.cuts.iter().map(cut).collect(),
            },
            _ => Operation::Reshape {
                input: shape(0),
                output: shape(1),
            },
        }
    }
}

fn cut(numbers: &[i64; 3]) -> Cut {
    let numbers = unsigned(numbers);
    Cut {
        start: numbers[0],
        limit: numbers[1],
        stride: numbers[2],
    }
}

pub fn has_list(word: &str) -> bool {
    matches!(word, "broadcast" | "transpose" | "reverse" | "reduce")
}
