//! Printing of maps, as document 000 prints them.

use crate::map::{Interval, Map, Node, Tree, Variable};

/// An expression as text, with what the text around it asks about.
struct Piece {
    text: String,
    kind: PieceKind,
}

enum PieceKind {
    /// A variable or a constant that isn't negative: it never needs parentheses.
    Plain,
    /// A negative constant; its opposite as text.
    Negative {
        opposite: String,
    },
    Sum,
    /// A product by a negative number; its opposite as text.
    NegativeProduct {
        opposite: String,
    },
    /// Any other product, a floordiv or a mod.
    Other,
}

/// The lines of a map, without the end of the last one.
pub fn map_text(map: &Map) -> String {
    let dimensions = names("d", map.dimensions.len());
    let ranges = names("s", map.ranges.len());
    let results: Vec<String> = map.results.iter().map(tree_text).collect();
    let mut head = format!("({})", dimensions.join(", "));
    if !ranges.is_empty() {
        head.push_str(&format!("[{}]", ranges.join(", ")));
    }
    head.push_str(&format!(" -> ({})", results.join(", ")));
    let names = dimensions.iter().chain(&ranges);
    let bounds = map.dimensions.iter().chain(&map.ranges);
    let mut domain: Vec<String> = names
        .zip(bounds)
        .map(|(name, bounds)| format!("{name} in {}", interval_text(bounds)))
        .collect();
    for constraint in &map.constraints {
        let expression = tree_text(&constraint.tree);
        domain.push(format!(
            "{expression} in {}",
            interval_text(&constraint.interval)
        ));
    }
    if domain.is_empty() {
        return head;
    }
    format!("{head},\ndomain:\n{}", domain.join(",\n"))
}

pub fn interval_text(interval: &Interval) -> String {
    format!("[{}, {}]", interval.low, interval.high)
}

fn names(letter: &str, count: usize) -> Vec<String> {
    (0..count)
        .map(|number| format!("{letter}{number}"))
        .collect()
}

/// The text of a tree in postfix order.
pub fn tree_text(tree: &Tree) -> String {
    let mut stack: Vec<Piece> = Vec::new();
    let pop = |stack: &mut Vec<Piece>| stack.pop().expect("a tree in postfix order");
    for node in tree {
        let piece = match node {
            Node::Variable(variable) => variable_piece(*variable),
            Node::Constant(number) => constant_piece(*number),
            Node::Sum => {
                let right = pop(&mut stack);
                sum_piece(&pop(&mut stack), &right)
            }
            Node::Product(factor) => product_piece(&pop(&mut stack), *factor),
            Node::Floordiv(divisor) => division_piece(&pop(&mut stack), "floordiv", *divisor),
            Node::Mod(divisor) => division_piece(&pop(&mut stack), "mod", *divisor),
        };
        stack.push(piece);
    }
    pop(&mut stack).text
}

fn variable_piece(variable: Variable) -> Piece {
    let text = match variable {
        Variable::Dimension(number) => format!("d{number}"),
        Variable::Range(number) => format!("s{number}"),
    };
    Piece {
        text,
        kind: PieceKind::Plain,
    }
}

fn constant_piece(number: i128) -> Piece {
    let kind = if number < 0 {
        let opposite = (-number).to_string();
        PieceKind::Negative { opposite }
    } else {
        PieceKind::Plain
    };
    Piece {
        text: number.to_string(),
        kind,
    }
}

fn sum_piece(left: &Piece, right: &Piece) -> Piece {
    let right = match &right.kind {
        PieceKind::Negative { opposite } | PieceKind::NegativeProduct { opposite } => {
            format!("- {opposite}")
        }
        PieceKind::Sum => format!("+ ({})", right.text),
        PieceKind::Plain | PieceKind::Other => format!("+ {}", right.text),
    };
    Piece {
        text: format!("{} {right}", left.text),
        kind: PieceKind::Sum,
    }
}

fn product_piece(operand: &Piece, factor: i128) -> Piece {
    let operand = operand_text(operand);
    if factor >= 0 {
        return Piece {
            text: format!("{operand} * {factor}"),
            kind: PieceKind::Other,
        };
    }
    if factor == -1 {
        return Piece {
            text: format!("-{operand}"),
            kind: PieceKind::NegativeProduct { opposite: operand },
        };
    }
    let opposite = format!("{operand} * {}", -factor);
    Piece {
        text: format!("{operand} * {factor}"),
        kind: PieceKind::NegativeProduct { opposite },
    }
}

fn division_piece(operand: &Piece, word: &str, divisor: i128) -> Piece {
    Piece {
        text: format!("{} {word} {divisor}", operand_text(operand)),
        kind: PieceKind::Other,
    }
}

/// In parentheses unless it is a variable or a constant that isn't negative.
fn operand_text(operand: &Piece) -> String {
    match operand.kind {
        PieceKind::Plain => operand.text.clone(),
        _ => format!("({})", operand.text),
    }
}
