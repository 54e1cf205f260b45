//! Random expressions of maps as text: small ones, splits, nested divisions and large numbers.

use crate::random::Random;

/// How tightly a text binds: what may stand around it without parentheses.
#[derive(Clone, Copy, PartialEq, Eq, PartialOrd, Ord)]
enum Level {
    Sum,
    Product,
    Operand,
}

/// The numbers that the expressions of one map use.
#[derive(Clone)]
pub struct Palette {
    pub variables: Vec<String>,
    pub constants: Vec<i64>,
    pub factors: Vec<i64>,
    pub divisors: Vec<i64>,
}

struct Text {
    text: String,
    level: Level,
}

/// An expression with at most that many operators one above another.
pub fn random_expression(random: &mut Random, palette: &Palette, depth: u64) -> String {
    expression(random, palette, depth).text
}

fn expression(random: &mut Random, palette: &Palette, depth: u64) -> Text {
    if depth == 0 || random.percent(12) {
        return leaf(random, palette);
    }
    let operand = expression(random, palette, depth - 1);
    match random.below(100) {
        0..=34 => {
            let right = expression(random, palette, depth - 1);
            sum(random, operand, right)
        }
        35..=54 => {
            let factor = random.pick(&palette.factors);
            behind(random, operand, &format!("* {factor}"))
        }
        55..=74 => {
            let divisor = random.pick(&palette.divisors);
            behind(random, operand, &format!("floordiv {divisor}"))
        }
        75..=94 => {
            let divisor = random.pick(&palette.divisors);
            behind(random, operand, &format!("mod {divisor}"))
        }
        _ => sign(random, operand),
    }
}

fn leaf(random: &mut Random, palette: &Palette) -> Text {
    let text = if !palette.variables.is_empty() && random.percent(82) {
        palette.variables[random.pick_place(palette.variables.len())].clone()
    } else {
        random.pick(&palette.constants).to_string()
    };
    Text {
        text,
        level: Level::Operand,
    }
}

fn sum(random: &mut Random, left: Text, right: Text) -> Text {
    let left = wrapped(random, left, Level::Sum);
    let right = wrapped(random, right, Level::Product);
    let operator = random.pick(&["+", "+", "+", "-"]);
    Text {
        text: format!("{left} {operator} {right}"),
        level: Level::Sum,
    }
}

/// A product, floordiv or mod of an operand.
fn behind(random: &mut Random, operand: Text, operator: &str) -> Text {
    let operand = wrapped(random, operand, Level::Product);
    Text {
        text: format!("{operand} {operator}"),
        level: Level::Product,
    }
}

fn sign(random: &mut Random, operand: Text) -> Text {
    let operand = wrapped(random, operand, Level::Operand);
    let space = random.pick(&["", "", " "]);
    Text {
        text: format!("-{space}{operand}"),
        level: Level::Operand,
    }
}

/// The text in parentheses where its level asks for them, and sometimes where not.
fn wrapped(random: &mut Random, operand: Text, least: Level) -> String {
    if operand.level < least || random.percent(6) {
        return format!("({})", operand.text);
    }
    operand.text
}

/// A row-major index over some sizes, and coordinates of it over others.
pub fn random_splits(random: &mut Random, sizes: &[i64], count: usize) -> Vec<String> {
    let mut terms = Vec::new();
    let mut stride = 1;
    for (number, size) in sizes.iter().enumerate().rev() {
        terms.push(format!("d{number} * {stride}"));
        stride *= size;
    }
    terms.reverse();
    if random.percent(30) {
        terms.push(random.between(-30, 30).to_string());
    }
    let index = terms.join(" + ").replace("+ -", "- ");
    let mut splits = Vec::new();
    for _ in 0..count {
        let divisor = random.pick(&[1, 2, 3, 4, 5, 6, 8, 10, 12, 16, 20, 24, 32]);
        let size = random.pick(&[2, 3, 4, 5, 6, 8, 10, 16]);
        splits.push(match random.below(5) {
            0 => format!("({index}) floordiv {divisor}"),
            1 => format!("({index}) mod {size}"),
            2 => format!("({index}) mod {} floordiv {divisor}", divisor * size),
            _ => format!("(({index}) floordiv {divisor}) mod {size}"),
        });
    }
    splits
}

/// Divisions inside divisions, each with something added or multiplied before the next.
pub fn random_chain(random: &mut Random, palette: &Palette, length: u64) -> String {
    let mut text = leaf(random, palette).text;
    for _ in 0..length {
        let divisor = random.pick(&palette.divisors);
        let word = random.pick(&["floordiv", "mod"]);
        text = match random.below(5) {
            0 => format!("({text}) {word} {divisor}"),
            1 => format!(
                "(({text}) * {}) {word} {divisor}",
                random.pick(&palette.factors)
            ),
            _ => {
                let factor = random.pick(&palette.factors);
                let other = leaf(random, palette).text;
                format!("(({text}) * {factor} + {other}) {word} {divisor}")
            }
        };
    }
    text
}
