//! Maps: variables with bounds, trees in postfix order, and what a map record has places for.

pub const MAX_VARIABLES: usize = 8;
pub const MAX_RESULTS: usize = 8;
pub const MAX_CONSTRAINTS: usize = 32;
pub const MAX_NODES: usize = 256;
pub const MAX_BOUND: i128 = 1 << 40;
pub const MAX_DIVISOR: i128 = 1 << 40;
pub const MAX_NUMBER: i128 = 1 << 62;

/// Both ends belong to it.
#[derive(Clone, Copy, Debug, PartialEq, Eq)]
pub struct Interval {
    pub low: i128,
    pub high: i128,
}

/// A variable of the map: its kind, and its number from 0.
#[derive(Clone, Copy, Debug, PartialEq, Eq, PartialOrd, Ord)]
pub enum Variable {
    Dimension(usize),
    Range(usize),
}

#[derive(Clone, Copy, Debug, PartialEq, Eq)]
pub enum Node {
    Variable(Variable),
    Constant(i128),
    Sum,
    Product(i128),
    Floordiv(i128),
    Mod(i128),
}

/// Nodes in postfix order.
pub type Tree = Vec<Node>;

#[derive(Clone, Debug, PartialEq, Eq)]
pub struct Constraint {
    pub tree: Tree,
    pub interval: Interval,
}

/// A map as it is written, also where it passes the limits.
#[derive(Clone, Debug, PartialEq, Eq)]
pub struct Map {
    pub dimensions: Vec<Interval>,
    pub ranges: Vec<Interval>,
    pub results: Vec<Tree>,
    pub constraints: Vec<Constraint>,
}

impl Interval {
    pub fn holds(&self, value: i128) -> bool {
        (self.low..=self.high).contains(&value)
    }
}

impl Map {
    /// The bounds of a variable of an accepted map.
    pub fn bounds(&self, variable: Variable) -> Interval {
        match variable {
            Variable::Dimension(number) => self.dimensions[number],
            Variable::Range(number) => self.ranges[number],
        }
    }

    /// All trees: those of the results, then those of the constraints.
    pub fn trees(&self) -> impl Iterator<Item = &Tree> {
        let constraints = self.constraints.iter().map(|constraint| &constraint.tree);
        self.results.iter().chain(constraints)
    }

    pub fn nodes(&self) -> usize {
        self.trees().map(Vec::len).sum()
    }
}
