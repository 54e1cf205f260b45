//! Reckoned ranges of nodes, and the ranges of a map's results.

use crate::map::{Interval, Map, Node, Tree, MAX_NUMBER};
use crate::map_rule::judge_map;
use crate::refusal::Refusal;

/// The reckoned range of each result (2, 7, 8).
pub fn result_ranges(map: &Map) -> Result<Vec<Interval>, Refusal> {
    judge_map(map)?;
    map.results
        .iter()
        .map(|tree| tree_range(map, tree))
        .collect()
}

/// The reckoned range of a tree that breaks no rule; 8 where a node's range passes the limit.
pub fn tree_range(map: &Map, tree: &Tree) -> Result<Interval, Refusal> {
    let mut stack: Vec<Interval> = Vec::new();
    let pop = |stack: &mut Vec<Interval>| stack.pop().expect("a tree in postfix order");
    for node in tree {
        let range = match node {
            Node::Variable(variable) => map.bounds(*variable),
            Node::Constant(number) => Interval {
                low: *number,
                high: *number,
            },
            Node::Sum => {
                let right = pop(&mut stack);
                sum_range(pop(&mut stack), right)
            }
            Node::Product(factor) => product_range(pop(&mut stack), *factor),
            Node::Floordiv(divisor) => floordiv_range(pop(&mut stack), *divisor),
            Node::Mod(divisor) => mod_range(pop(&mut stack), *divisor),
        };
        stack.push(within_limit(range)?);
    }
    Ok(pop(&mut stack))
}

/// Number 8 where a range passes +-2^62.
pub fn within_limit(range: Interval) -> Result<Interval, Refusal> {
    if range.low < -MAX_NUMBER || range.high > MAX_NUMBER {
        return Err(Refusal::Working);
    }
    Ok(range)
}

pub fn sum_range(left: Interval, right: Interval) -> Interval {
    Interval {
        low: left.low + right.low,
        high: left.high + right.high,
    }
}

pub fn product_range(operand: Interval, factor: i128) -> Interval {
    let (low, high) = (operand.low * factor, operand.high * factor);
    Interval {
        low: low.min(high),
        high: low.max(high),
    }
}

pub fn floordiv_range(operand: Interval, divisor: i128) -> Interval {
    Interval {
        low: floordiv(operand.low, divisor),
        high: floordiv(operand.high, divisor),
    }
}

pub fn mod_range(operand: Interval, divisor: i128) -> Interval {
    if floordiv(operand.low, divisor) != floordiv(operand.high, divisor) {
        return Interval {
            low: 0,
            high: divisor - 1,
        };
    }
    Interval {
        low: modulo(operand.low, divisor),
        high: modulo(operand.high, divisor),
    }
}

/// Division by a positive number, rounded towards minus infinity.
pub fn floordiv(number: i128, divisor: i128) -> i128 {
    let quotient = number / divisor;
    if number % divisor < 0 {
        return quotient - 1;
    }
    quotient
}

/// number - divisor * (number floordiv divisor).
pub fn modulo(number: i128, divisor: i128) -> i128 {
    number - divisor * floordiv(number, divisor)
}
