//! Folding a whole map: every tree from the leaves up, then the constraints that always hold go.

use crate::fold_rules::{fold_division, Word};
use crate::fold_sum::{Atom, Sum};
use crate::map::{Constraint, Map, Node, Tree};
use crate::map_rule::{judge_counts, judge_map};
use crate::refusal::Refusal;

/// The folded map (2, 7, 8 of the map given; 8 of the working; 7 of the result).
pub fn fold(map: &Map) -> Result<Map, Refusal> {
    judge_map(map)?;
    let mut folded = map.clone();
    for result in &mut folded.results {
        *result = fold_tree(map, result)?.tree();
    }
    folded.constraints.clear();
    for Constraint { tree, interval } in &map.constraints {
        let sum = fold_tree(map, tree)?;
        let range = sum.judged_range(map)?;
        if !(interval.holds(range.low) && interval.holds(range.high)) {
            let constraint = Constraint {
                tree: sum.tree(),
                interval: *interval,
            };
            folded.constraints.push(constraint);
        }
    }
    judge_counts(&folded)?;
    Ok(folded)
}

/// The folded sum of a tree; the folded sum of every node is judged (8).
fn fold_tree(map: &Map, tree: &Tree) -> Result<Sum, Refusal> {
    let mut stack: Vec<Sum> = Vec::new();
    let pop = |stack: &mut Vec<Sum>| stack.pop().expect("a tree in postfix order");
    for node in tree {
        let sum = match node {
            Node::Variable(variable) => Sum::atom(Atom::Variable(*variable)),
            Node::Constant(number) => Sum::constant(*number),
            Node::Sum => {
                let right = pop(&mut stack);
                pop(&mut stack).plus(&right)
            }
            Node::Product(factor) => pop(&mut stack).times(*factor),
            Node::Floordiv(divisor) => {
                fold_division(map, Word::Floordiv, pop(&mut stack), *divisor)?
            }
            Node::Mod(divisor) => fold_division(map, Word::Mod, pop(&mut stack), *divisor)?,
        };
        sum.judged_range(map)?;
        stack.push(sum);
    }
    Ok(pop(&mut stack))
}
