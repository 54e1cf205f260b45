//! Re-tiling: from a buffer in one layout to a buffer in another, as a list of single stores.

use crate::buffer::need;
use crate::layout::{judge_layout, padded_size, Layout};
use crate::offset::{offset_of_point, point_at_offset};
use crate::refusal::Refusal;
use crate::shape::{element_count, Shape};

/// What stays the same from call to call. The source is read and never written.
#[derive(Clone, Copy)]
pub struct Retiling<'a> {
    pub shape: &'a Shape,
    pub source_layout: &'a Layout,
    pub destination_layout: &'a Layout,
    pub source: &'a [u32],
}

/// What a re-tiling writes: the destination's cells, and the mark that says how many of them are final.
#[derive(Clone, Debug, PartialEq, Eq)]
pub struct Memory {
    pub destination: Vec<u32>,
    pub mark: u64,
}

/// A step of a re-tiling: one store, of a cell or of the mark.
#[derive(Clone, Copy, Debug, PartialEq, Eq)]
pub enum Store {
    Cell { offset: u64, value: u32 },
    Mark(u64),
}

impl Memory {
    pub fn apply(&mut self, store: Store) {
        match store {
            Store::Cell { offset, value } => self.destination[offset as usize] = value,
            Store::Mark(mark) => self.mark = mark,
        }
    }
}

/// One call. Answers the number of cells settled (1, 3, 4, 2, 9).
pub fn retile(retiling: &Retiling, memory: &mut Memory, allowance: u64) -> Result<u64, Refusal> {
    let before = memory.mark;
    for store in stores(retiling, memory, allowance)? {
        memory.apply(store);
    }
    Ok(memory.mark - before)
}

/// The stores of one call in their order: cell m, mark m + 1, cell m + 1, mark m + 2, and so on (1, 3, 4, 2, 9).
pub fn stores(retiling: &Retiling, memory: &Memory, allowance: u64) -> Result<Vec<Store>, Refusal> {
    let padded = judge(retiling, memory)?;
    let settled = allowance.min(padded - memory.mark);
    let mut stores = Vec::new();
    for offset in memory.mark..memory.mark + settled {
        let value = final_value(retiling, offset)?;
        stores.push(Store::Cell { offset, value });
        stores.push(Store::Mark(offset + 1));
    }
    Ok(stores)
}

/// The padded size of the destination. Each number is judged for both layouts or buffers before the next one.
fn judge(retiling: &Retiling, memory: &Memory) -> Result<u64, Refusal> {
    let shape = retiling.shape;
    element_count(shape)?;
    judge_layout(shape.sizes.len(), retiling.source_layout)?;
    judge_layout(shape.sizes.len(), retiling.destination_layout)?;
    let source_size = padded_size(shape, retiling.source_layout)?;
    let destination_size = padded_size(shape, retiling.destination_layout)?;
    if memory.mark > destination_size {
        return Err(Refusal::Limit);
    }
    need(retiling.source, source_size)?;
    need(&memory.destination, destination_size)?;
    Ok(destination_size)
}

/// What a cell of the destination gets: the source's cell of the element that it holds, or 0 in padding.
fn final_value(retiling: &Retiling, offset: u64) -> Result<u32, Refusal> {
    let shape = retiling.shape;
    let Some(point) = point_at_offset(shape, retiling.destination_layout, offset)? else {
        return Ok(0);
    };
    let cell = offset_of_point(shape, retiling.source_layout, &point)?;
    Ok(retiling.source[cell as usize])
}
