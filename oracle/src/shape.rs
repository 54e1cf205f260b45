//! Shapes: the rule of a shape, its element count, element numbers and points.

use crate::refusal::Refusal;

pub const MAX_RANK: usize = 6;
pub const MAX_SIZE: u64 = 1 << 20;
pub const MAX_COUNT: u64 = 1 << 40;

#[derive(Clone, Debug, PartialEq, Eq)]
pub struct Shape {
    pub sizes: Vec<u64>,
}

/// The element count (1). At most six sizes of at most 2^20 each are multiplied, so 128 bits are enough.
pub fn element_count(shape: &Shape) -> Result<u64, Refusal> {
    if shape.sizes.len() > MAX_RANK {
        return Err(Refusal::Shape);
    }
    let mut count: u128 = 1;
    for &size in &shape.sizes {
        if size == 0 || size > MAX_SIZE {
            return Err(Refusal::Shape);
        }
        count *= u128::from(size);
    }
    if count > u128::from(MAX_COUNT) {
        return Err(Refusal::Shape);
    }
    Ok(count as u64)
}

/// The element number of a point: its row-major index in the shape (1, 6, 5).
pub fn element_number(shape: &Shape, point: &[u64]) -> Result<u64, Refusal> {
    element_count(shape)?;
    if point.len() != shape.sizes.len() {
        return Err(Refusal::Length);
    }
    if point.iter().zip(&shape.sizes).any(|(e, size)| e >= size) {
        return Err(Refusal::Outside);
    }
    Ok(linear_index(point, &shape.sizes))
}

/// The point of an element number (1, 5).
pub fn point_of_element(shape: &Shape, element: u64) -> Result<Vec<u64>, Refusal> {
    if element >= element_count(shape)? {
        return Err(Refusal::Outside);
    }
    Ok(split_index(element, &shape.sizes))
}

/// linear_index(e, d) of document 001: the row-major index of e within the bounds d.
pub fn linear_index(e: &[u64], d: &[u64]) -> u64 {
    e.iter().zip(d).fold(0, |index, (e, d)| index * d + e)
}

/// The coordinates whose row-major index within the bounds d is `index`.
pub fn split_index(index: u64, d: &[u64]) -> Vec<u64> {
    let mut rest = index;
    let mut e = vec![0; d.len()];
    for k in (0..d.len()).rev() {
        e[k] = rest % d[k];
        rest /= d[k];
    }
    e
}
