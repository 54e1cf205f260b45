//! Folded sums: coefficient times atom plus a constant, their order, their ranges and number 8.

use std::cmp::Ordering;

use crate::map::{Interval, Map, Node, Tree, Variable, MAX_NUMBER};
use crate::map_range::{floordiv_range, mod_range, product_range, sum_range, within_limit};
use crate::refusal::Refusal;

/// What a coefficient multiplies. The order of the cases is the order of atoms.
#[derive(Clone, Debug, PartialEq, Eq, PartialOrd, Ord)]
pub enum Atom {
    Variable(Variable),
    Floordiv(Division),
    Mod(Division),
}

/// Compared by the divisor, then by the sum.
#[derive(Clone, Debug, PartialEq, Eq, PartialOrd, Ord)]
pub struct Division {
    pub divisor: i128,
    pub sum: Sum,
}

/// Terms in the order of their atoms, no coefficient 0.
#[derive(Clone, Debug, PartialEq, Eq)]
pub struct Sum {
    pub terms: Vec<(Atom, i128)>,
    pub constant: i128,
}

impl Ord for Sum {
    fn cmp(&self, other: &Sum) -> Ordering {
        let count = self.terms.len().cmp(&other.terms.len());
        let terms = || self.terms.cmp(&other.terms);
        let constant = || self.constant.cmp(&other.constant);
        count.then_with(terms).then_with(constant)
    }
}

impl PartialOrd for Sum {
    fn partial_cmp(&self, other: &Sum) -> Option<Ordering> {
        Some(self.cmp(other))
    }
}

impl Sum {
    pub fn constant(constant: i128) -> Sum {
        Sum {
            terms: Vec::new(),
            constant,
        }
    }

    pub fn atom(atom: Atom) -> Sum {
        Sum {
            terms: vec![(atom, 1)],
            constant: 0,
        }
    }

    /// The sum of two: like atoms merge, zero terms go.
    pub fn plus(&self, other: &Sum) -> Sum {
        let mut terms: Vec<(Atom, i128)> = Vec::new();
        let mut all: Vec<&(Atom, i128)> = self.terms.iter().chain(&other.terms).collect();
        all.sort_by(|left, right| left.0.cmp(&right.0));
        for (atom, coefficient) in all {
            match terms.last_mut() {
                Some((last, merged)) if last == atom => *merged += coefficient,
                _ => terms.push((atom.clone(), *coefficient)),
            }
        }
        terms.retain(|(_, coefficient)| *coefficient != 0);
        let constant = self.constant + other.constant;
        Sum { terms, constant }
    }

    pub fn times(&self, factor: i128) -> Sum {
        let scaled = |(atom, coefficient): &(Atom, i128)| (atom.clone(), coefficient * factor);
        let mut terms: Vec<(Atom, i128)> = self.terms.iter().map(scaled).collect();
        terms.retain(|(_, coefficient)| *coefficient != 0);
        let constant = self.constant * factor;
        Sum { terms, constant }
    }

    /// Number 8 of a sum: its coefficients, its constant, and the range of each term and prefix.
    pub fn judged_range(&self, map: &Map) -> Result<Interval, Refusal> {
        let coefficients = self.terms.iter().map(|term| term.1);
        let mut numbers = coefficients.chain([self.constant]);
        if numbers.any(|number| number.abs() > MAX_NUMBER) {
            return Err(Refusal::Working);
        }
        let mut prefix = Interval { low: 0, high: 0 };
        for (atom, coefficient) in &self.terms {
            let term = within_limit(product_range(atom.range(map)?, *coefficient))?;
            prefix = within_limit(sum_range(prefix, term))?;
        }
        let constant = Interval {
            low: self.constant,
            high: self.constant,
        };
        within_limit(sum_range(prefix, constant))
    }

    /// The sum as a tree: sums lean left, a constant stands if it isn't 0 or if it is alone.
    pub fn tree(&self) -> Tree {
        let mut tree = Tree::new();
        for (atom, coefficient) in &self.terms {
            let first = tree.is_empty();
            tree.extend(atom.tree());
            if *coefficient != 1 {
                tree.push(Node::Product(*coefficient));
            }
            if !first {
                tree.push(Node::Sum);
            }
        }
        if tree.is_empty() {
            tree.push(Node::Constant(self.constant));
        } else if self.constant != 0 {
            tree.extend([Node::Constant(self.constant), Node::Sum]);
        }
        tree
    }
}

impl Atom {
    fn range(&self, map: &Map) -> Result<Interval, Refusal> {
        Ok(match self {
            Atom::Variable(variable) => map.bounds(*variable),
            Atom::Floordiv(division) => {
                floordiv_range(division.sum.judged_range(map)?, division.divisor)
            }
            Atom::Mod(division) => mod_range(division.sum.judged_range(map)?, division.divisor),
        })
    }

    fn tree(&self) -> Tree {
        let (division, node) = match self {
            Atom::Variable(variable) => return vec![Node::Variable(*variable)],
            Atom::Floordiv(division) => (division, Node::Floordiv(division.divisor)),
            Atom::Mod(division) => (division, Node::Mod(division.divisor)),
        };
        let mut tree = division.sum.tree();
        tree.push(node);
        tree
    }
}
