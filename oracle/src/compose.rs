//! Composing: f's results put for g's dimension variables, and the counts of what comes out.

use crate::map::{
    Constraint, Map, Node, Tree, Variable, MAX_CONSTRAINTS, MAX_NODES, MAX_VARIABLES,
};
use crate::map_rule::{judge_counts, judge_pieces, judge_ranges};
use crate::refusal::Refusal;

/// The map f then g, not folded (2, 6, 7 of either map and of the result, 8 of either map and of the result).
pub fn compose(f: &Map, g: &Map) -> Result<Map, Refusal> {
    judge_pieces(f)?;
    judge_pieces(g)?;
    if f.results.len() != g.dimensions.len() {
        return Err(Refusal::Length);
    }
    judge_counts(f)?;
    judge_counts(g)?;
    judge_composed_counts(f, g)?;
    judge_ranges(f)?;
    judge_ranges(g)?;
    let composed = composed(f, g);
    judge_ranges(&composed)?;
    Ok(composed)
}

/// Number 7 of the result. It has f's dimensions and g's results, which keep their limits.
fn judge_composed_counts(f: &Map, g: &Map) -> Result<(), Refusal> {
    let constraints = f.constraints.len() + f.results.len() + g.constraints.len();
    if f.ranges.len() + g.ranges.len() > MAX_VARIABLES
        || constraints > MAX_CONSTRAINTS
        || composed_nodes(f, g) > MAX_NODES
    {
        return Err(Refusal::Counts);
    }
    Ok(())
}

/// The nodes of the result, counted without building it: f's own trees once, then those of g.
pub fn composed_nodes(f: &Map, g: &Map) -> usize {
    let put = |node: &Node| match node {
        Node::Variable(Variable::Dimension(number)) => f.results[*number].len(),
        _ => 1,
    };
    f.nodes() + g.trees().flatten().map(put).sum::<usize>()
}

fn composed(f: &Map, g: &Map) -> Map {
    let results = g.results.iter().map(|tree| substituted(f, tree)).collect();
    let mut constraints = f.constraints.clone();
    for (tree, bounds) in f.results.iter().zip(&g.dimensions) {
        constraints.push(Constraint {
            tree: tree.clone(),
            interval: *bounds,
        });
    }
    for constraint in &g.constraints {
        constraints.push(Constraint {
            tree: substituted(f, &constraint.tree),
            interval: constraint.interval,
        });
    }
    Map {
        dimensions: f.dimensions.clone(),
        ranges: [&f.ranges[..], &g.ranges[..]].concat(),
        results,
        constraints,
    }
}

/// A tree of g with f's results for its dimension variables; its range variables come behind f's.
fn substituted(f: &Map, tree: &Tree) -> Tree {
    let mut whole = Tree::new();
    for node in tree {
        match node {
            Node::Variable(Variable::Dimension(number)) => {
                whole.extend_from_slice(&f.results[*number]);
            }
            Node::Variable(Variable::Range(number)) => {
                let behind = Variable::Range(f.ranges.len() + number);
                whole.push(Node::Variable(behind));
            }
            _ => whole.push(*node),
        }
    }
    whole
}
