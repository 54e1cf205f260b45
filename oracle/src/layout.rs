//! Layouts: the rule of a layout, its physical shapes and its padded size.

use crate::refusal::Refusal;
use crate::shape::{element_count, Shape, MAX_COUNT};

pub const MAX_TILES: usize = 3;
pub const MAX_TILE_LENGTH: usize = 6;
pub const MAX_TILE_ENTRY: u64 = 1024;

#[derive(Clone, Debug, PartialEq, Eq)]
pub struct Layout {
    pub minor_to_major: Vec<u64>,
    pub tiles: Vec<Vec<u64>>,
}

/// The rule of a layout for a shape of the given rank (3).
pub fn judge_layout(rank: usize, layout: &Layout) -> Result<(), Refusal> {
    if !is_permutation(rank, &layout.minor_to_major) || layout.tiles.len() > MAX_TILES {
        return Err(Refusal::Layout);
    }
    let mut physical_rank = rank;
    for tile in &layout.tiles {
        if tile.is_empty() || tile.len() > MAX_TILE_LENGTH || tile.len() > physical_rank {
            return Err(Refusal::Layout);
        }
        if tile.iter().any(|&t| t == 0 || t > MAX_TILE_ENTRY) {
            return Err(Refusal::Layout);
        }
        physical_rank += tile.len();
    }
    Ok(())
}

/// Whether every dimension of the rank stands in the list exactly once.
fn is_permutation(rank: usize, dimensions: &[u64]) -> bool {
    dimensions.len() == rank && (0..rank as u64).all(|d| dimensions.contains(&d))
}

/// The physical shapes of an accepted layout, major first: untiled, then after each tile.
pub fn physical_shapes(shape: &Shape, layout: &Layout) -> Vec<Vec<u64>> {
    let mut shapes = vec![major_to_minor(&shape.sizes, layout)];
    for tile in &layout.tiles {
        let tiled = tiled_shape(&shapes[shapes.len() - 1], tile);
        shapes.push(tiled);
    }
    shapes
}

/// Values given per logical dimension, put into physical order, major first.
pub fn major_to_minor(values: &[u64], layout: &Layout) -> Vec<u64> {
    let order = layout.minor_to_major.iter().rev();
    order.map(|&d| values[d as usize]).collect()
}

/// (.., d) tiled by t: the untouched majors, then ceil(d/t), then t.
fn tiled_shape(d: &[u64], t: &[u64]) -> Vec<u64> {
    let majors = d.len() - t.len();
    let mut tiled = d[..majors].to_vec();
    tiled.extend(d[majors..].iter().zip(t).map(|(d, t)| d.div_ceil(*t)));
    tiled.extend(t);
    tiled
}

/// The padded size (1, 3, 4): the product of the last physical shape.
pub fn padded_size(shape: &Shape, layout: &Layout) -> Result<u64, Refusal> {
    element_count(shape)?;
    judge_layout(shape.sizes.len(), layout)?;
    let shapes = physical_shapes(shape, layout);
    let mut padded: u128 = 1;
    for &d in &shapes[shapes.len() - 1] {
        padded *= u128::from(d);
        // Every factor is at least 1, so a product above the limit stays above it.
        if padded > u128::from(MAX_COUNT) {
            return Err(Refusal::PaddedSize);
        }
    }
    Ok(padded as u64)
}
