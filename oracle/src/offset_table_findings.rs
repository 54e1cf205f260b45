//! All that can be found in an offset table: every element outside, and every pair of elements that share a cell.

use crate::offset_table::{Finding, OffsetTable};
use crate::shape::element_count;

pub struct Findings {
    pub outside: Vec<usize>,
    pub pairs: Vec<Pair>,
}

/// Two elements that share a cell, and that cell.
#[derive(Clone, Copy)]
pub struct Pair {
    pub earlier: usize,
    pub later: usize,
    pub cell: u64,
}

/// Looks at every element and every pair of elements, of as many as the shape has.
pub fn findings(table: &OffsetTable, is_inside: fn(u64, u64) -> bool) -> Findings {
    let elements = element_count(&table.shape).unwrap_or(0) as usize;
    let offsets = &table.offsets[..elements.min(table.offsets.len())];
    let is_outside = |element: &usize| !is_inside(offsets[*element], table.padded);
    let mut pairs = Vec::new();
    for earlier in 0..offsets.len() {
        for later in earlier + 1..offsets.len() {
            if offsets[earlier] == offsets[later] {
                let cell = offsets[later];
                pairs.push(Pair {
                    earlier,
                    later,
                    cell,
                });
            }
        }
    }
    Findings {
        outside: (0..offsets.len()).filter(is_outside).collect(),
        pairs,
    }
}

impl Findings {
    /// The first element outside, or the pair that is least by a key, or sound.
    pub fn outside_first(&self, key: fn(&Pair) -> (u64, u64)) -> Finding {
        match self.outside.first() {
            Some(element) => Finding::Outside { element: *element },
            None => self.least_pair(key).map_or(Finding::Sound, Pair::finding),
        }
    }

    pub fn least_pair(&self, key: fn(&Pair) -> (u64, u64)) -> Option<Pair> {
        self.pairs.iter().min_by_key(|pair| key(pair)).copied()
    }
}

impl Pair {
    pub fn finding(self) -> Finding {
        Finding::Shared {
            earlier: self.earlier,
            later: self.later,
        }
    }
}
