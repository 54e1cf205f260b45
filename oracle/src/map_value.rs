//! Values: a map evaluated at a point of its domain.

use crate::map::{Interval, Map, Node, Tree, Variable};
use crate::map_range::{floordiv, modulo};
use crate::map_rule::{judge_counts, judge_pieces, judge_ranges};
use crate::refusal::Refusal;

/// The values of the dimension variables and of the range variables.
#[derive(Clone, Debug, PartialEq, Eq)]
pub struct MapPoint {
    pub dimensions: Vec<i128>,
    pub ranges: Vec<i128>,
}

/// The results at a point (2, 6, 7, 8, then 5).
pub fn evaluate(map: &Map, point: &MapPoint) -> Result<Vec<i128>, Refusal> {
    judge_pieces(map)?;
    if point.dimensions.len() != map.dimensions.len() || point.ranges.len() != map.ranges.len() {
        return Err(Refusal::Length);
    }
    judge_counts(map)?;
    judge_ranges(map)?;
    if !is_in_domain(map, point) {
        return Err(Refusal::Outside);
    }
    Ok(map.results.iter().map(|tree| value(tree, point)).collect())
}

/// Whether a point of the right length lies inside the bounds and all constraints hold there.
pub fn is_in_domain(map: &Map, point: &MapPoint) -> bool {
    let inside = |bounds: &[Interval], values: &[i128]| {
        let mut pairs = bounds.iter().zip(values);
        pairs.all(|(bounds, value)| bounds.holds(*value))
    };
    let mut constraints = map.constraints.iter();
    inside(&map.dimensions, &point.dimensions)
        && inside(&map.ranges, &point.ranges)
        && constraints.all(|constraint| constraint.interval.holds(value(&constraint.tree, point)))
}

/// The value of a tree at a point inside the bounds.
pub fn value(tree: &Tree, point: &MapPoint) -> i128 {
    let mut stack: Vec<i128> = Vec::new();
    let pop = |stack: &mut Vec<i128>| stack.pop().expect("a tree in postfix order");
    for node in tree {
        let value = match node {
            Node::Variable(Variable::Dimension(number)) => point.dimensions[*number],
            Node::Variable(Variable::Range(number)) => point.ranges[*number],
            Node::Constant(number) => *number,
            Node::Sum => pop(&mut stack) + pop(&mut stack),
            Node::Product(factor) => pop(&mut stack) * factor,
            Node::Floordiv(divisor) => floordiv(pop(&mut stack), *divisor),
            Node::Mod(divisor) => modulo(pop(&mut stack), *divisor),
        };
        stack.push(value);
    }
    pop(&mut stack)
}
