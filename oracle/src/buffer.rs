//! Buffers: pack, unpack, store and load between elements and cells of u32.

use crate::layout::{padded_size, Layout};
use crate::offset::offset_of_element;
use crate::refusal::Refusal;
use crate::shape::{element_count, Shape};

/// Takes the source's elements to their cells and writes 0 in padding (1, 3, 4, 9).
pub fn pack(
    shape: &Shape,
    layout: &Layout,
    source: &[u32],
    cells: &mut [u32],
) -> Result<(), Refusal> {
    let padded = padded_size(shape, layout)?;
    let elements = element_count(shape)?;
    need(source, elements)?;
    need(cells, padded)?;
    cells[..padded as usize].fill(0);
    for element in 0..elements {
        let offset = offset_of_element(shape, layout, element)?;
        cells[offset as usize] = source[element as usize];
    }
    Ok(())
}

/// Takes the cells that hold elements to their places in the destination (1, 3, 4, 9).
pub fn unpack(
    shape: &Shape,
    layout: &Layout,
    cells: &[u32],
    destination: &mut [u32],
) -> Result<(), Refusal> {
    let padded = padded_size(shape, layout)?;
    let elements = element_count(shape)?;
    need(cells, padded)?;
    need(destination, elements)?;
    for element in 0..elements {
        let offset = offset_of_element(shape, layout, element)?;
        destination[element as usize] = cells[offset as usize];
    }
    Ok(())
}

/// Writes one element's value into its cell (1, 3, 4, 5, 9).
pub fn store(
    shape: &Shape,
    layout: &Layout,
    element: u64,
    value: u32,
    cells: &mut [u32],
) -> Result<(), Refusal> {
    let offset = offset_of_element(shape, layout, element)?;
    need(cells, padded_size(shape, layout)?)?;
    cells[offset as usize] = value;
    Ok(())
}

/// Reads one element's value from its cell (1, 3, 4, 5, 9).
pub fn load(shape: &Shape, layout: &Layout, element: u64, cells: &[u32]) -> Result<u32, Refusal> {
    let offset = offset_of_element(shape, layout, element)?;
    need(cells, padded_size(shape, layout)?)?;
    Ok(cells[offset as usize])
}

/// Number 9 where a lent buffer is shorter than needed.
pub fn need(buffer: &[u32], length: u64) -> Result<(), Refusal> {
    if (buffer.len() as u64) < length {
        return Err(Refusal::ShortBuffer);
    }
    Ok(())
}
