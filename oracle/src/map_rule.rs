//! The rules of a map: broken pieces (2), counts (7) and ranges of nodes (8).

use crate::map::{
    Interval, Map, Node, Tree, Variable, MAX_BOUND, MAX_CONSTRAINTS, MAX_DIVISOR, MAX_NODES,
    MAX_NUMBER, MAX_RESULTS, MAX_VARIABLES,
};
use crate::map_range::tree_range;
use crate::refusal::Refusal;

/// The numbers 2, 7 and 8 of a map, in this order.
pub fn judge_map(map: &Map) -> Result<(), Refusal> {
    judge_pieces(map)?;
    judge_counts(map)?;
    judge_ranges(map)
}

/// Number 2, judged on everything that the record of this map holds.
pub fn judge_pieces(map: &Map) -> Result<(), Refusal> {
    let dimensions = map.dimensions.iter().take(MAX_VARIABLES);
    let ranges = map.ranges.iter().take(MAX_VARIABLES);
    let constraints = map.constraints.iter().take(MAX_CONSTRAINTS);
    let mut ends = constraints.map(|constraint| &constraint.interval);
    let keeps_rules = dimensions
        .chain(ranges)
        .all(|bounds| keeps(bounds, MAX_BOUND))
        && ends.all(|ends| keeps(ends, MAX_NUMBER))
        && held_trees(map).iter().all(|tree| tree_keeps(map, tree));
    if keeps_rules {
        return Ok(());
    }
    Err(Refusal::Limit)
}

/// Number 7: the counts of variables, results, constraints and nodes.
pub fn judge_counts(map: &Map) -> Result<(), Refusal> {
    if map.dimensions.len() > MAX_VARIABLES
        || map.ranges.len() > MAX_VARIABLES
        || map.results.len() > MAX_RESULTS
        || map.constraints.len() > MAX_CONSTRAINTS
        || map.nodes() > MAX_NODES
    {
        return Err(Refusal::Counts);
    }
    Ok(())
}

/// Number 8: the range of every node.
pub fn judge_ranges(map: &Map) -> Result<(), Refusal> {
    for tree in map.trees() {
        tree_range(map, tree)?;
    }
    Ok(())
}

/// The runs of nodes that lie wholly inside the places of the record, one behind another.
fn held_trees(map: &Map) -> Vec<&Tree> {
    let results = map.results.iter().take(MAX_RESULTS);
    let constraints = map.constraints.iter().take(MAX_CONSTRAINTS);
    let mut end = 0;
    let mut held = Vec::new();
    for tree in results.chain(constraints.map(|constraint| &constraint.tree)) {
        end += tree.len();
        if end <= MAX_NODES {
            held.push(tree);
        }
    }
    held
}

fn keeps(interval: &Interval, most: i128) -> bool {
    let within = |end: i128| (-most..=most).contains(&end);
    interval.low <= interval.high && within(interval.low) && within(interval.high)
}

/// What is read is always one tree, so only its nodes can be broken.
fn tree_keeps(map: &Map, tree: &Tree) -> bool {
    let number_keeps = |number: &i128| (-MAX_NUMBER..=MAX_NUMBER).contains(number);
    tree.iter().all(|node| match node {
        Node::Variable(variable) => is_named(map, *variable),
        Node::Constant(number) | Node::Product(number) => number_keeps(number),
        Node::Sum => true,
        Node::Floordiv(divisor) | Node::Mod(divisor) => (1..=MAX_DIVISOR).contains(divisor),
    })
}

/// Whether a variable is below its count and below 8.
fn is_named(map: &Map, variable: Variable) -> bool {
    let (number, count) = match variable {
        Variable::Dimension(number) => (number, map.dimensions.len()),
        Variable::Range(number) => (number, map.ranges.len()),
    };
    number < count.min(MAX_VARIABLES)
}
