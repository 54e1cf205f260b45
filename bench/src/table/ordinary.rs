// An ordinary judge of offset tables, and an ordinary search for the layout that makes one. Elements that share a cell are found by nested loops,
// by sorting or with a hash map; the answers are the same.
use crate::shared::packer::{good_order, good_tiles, has_offsets, padded, product, Layout, Refused, LAYOUT, MAX_COUNT, MAX_RANK, MAX_SIZE, PADDED, SHAPE};
use std::collections::HashMap;

pub const LENGTH: Refused = 2;
pub const NO_LAYOUT: Refused = 12;
const MAX_ELEMENTS: u64 = 4096;
const MAX_LAYOUTS: usize = 64;

/// One offset for each element of the shape, and the padded size.
pub struct Table {
    pub sizes: Vec<u64>,
    pub padded: u64,
    pub offsets: Vec<u64>,
}

#[derive(Clone, Copy, Debug, PartialEq)]
pub enum Finding {
    Sound,
    Outside(usize),
    /// The earlier element and the later one.
    Shared(usize, usize),
}

/// Finds the first later element that shares a cell, with the earlier one before it.
pub type Search = fn(&[u64]) -> Option<(usize, usize)>;

pub fn by_loops(offsets: &[u64]) -> Option<(usize, usize)> {
    let mut pair = None;
    'search: for later in 1..offsets.len() {
        for earlier in 0..later {
            if offsets[earlier] == offsets[later] {
                pair = Some((earlier, later));
                break 'search;
            }
        }
    }
    pair
}

pub fn by_sorting(offsets: &[u64]) -> Option<(usize, usize)> {
    let mut cells: Vec<(u64, usize)> = offsets.iter().copied().zip(0..).collect();
    cells.sort_unstable();
    let shared = cells.windows(2).filter(|pair| pair[0].0 == pair[1].0);
    shared.map(|pair| (pair[0].1, pair[1].1)).min_by_key(|&(_, later)| later)
}

pub fn by_hashing(offsets: &[u64]) -> Option<(usize, usize)> {
    let mut owners = HashMap::with_capacity(offsets.len());
    let mut elements = offsets.iter().zip(0..);
    elements.find_map(|(offset, later)| owners.insert(offset, later).map(|earlier| (earlier, later)))
}

/// The shape, then the table's length.
fn judge_length(table: &Table) -> Result<(), Refused> {
    if table.sizes.len() > MAX_RANK || !table.sizes.iter().all(|s| (1..=MAX_SIZE).contains(s)) {
        return Err(SHAPE);
    }
    let count = product(&table.sizes).ok_or(SHAPE)?;
    if count > MAX_ELEMENTS || table.offsets.len() as u64 != count {
        return Err(LENGTH);
    }
    Ok(())
}

fn finding(table: &Table, search: Search) -> Finding {
    if let Some(element) = table.offsets.iter().position(|&offset| offset >= table.padded) {
        return Finding::Outside(element);
    }
    search(&table.offsets).map_or(Finding::Sound, |(earlier, later)| Finding::Shared(earlier, later))
}

pub fn judge(table: &Table, search: Search) -> Result<Finding, Refused> {
    judge_length(table)?;
    if table.padded > MAX_COUNT {
        return Err(PADDED);
    }
    Ok(finding(table, search))
}

/// The first layout that makes the table.
pub fn which(table: &Table, layouts: &[Layout], search: Search) -> Result<usize, Refused> {
    judge_length(table)?;
    if !(1..=MAX_LAYOUTS).contains(&layouts.len()) || finding(table, search) != Finding::Sound {
        return Err(LENGTH);
    }
    let rank = table.sizes.len();
    if !layouts.iter().all(|layout| good_order(rank, &layout.minor_to_major) && good_tiles(rank, &layout.tiles)) {
        return Err(LAYOUT);
    }
    let padded: Option<Vec<u64>> = layouts.iter().map(|layout| padded(&table.sizes, layout)).collect();
    let padded = padded.filter(|_| table.padded <= MAX_COUNT).ok_or(PADDED)?;
    let makes = |(layout, padded): (&Layout, u64)| padded == table.padded && has_offsets(&table.sizes, layout, &table.offsets);
    layouts.iter().zip(padded).position(makes).ok_or(NO_LAYOUT)
}
