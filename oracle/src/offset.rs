//! Offsets: the cell of an element or a point, and the element of a cell.

use crate::layout::{major_to_minor, padded_size, physical_shapes, Layout};
use crate::refusal::Refusal;
use crate::shape::{element_number, linear_index, point_of_element, split_index, Shape};

/// The offset of a point (1, 3, 4, 6, 5).
pub fn offset_of_point(shape: &Shape, layout: &Layout, point: &[u64]) -> Result<u64, Refusal> {
    padded_size(shape, layout)?;
    element_number(shape, point)?;
    Ok(tiled_offset(shape, layout, point))
}

/// The offset of an element number (1, 3, 4, 5).
pub fn offset_of_element(shape: &Shape, layout: &Layout, element: u64) -> Result<u64, Refusal> {
    padded_size(shape, layout)?;
    let point = point_of_element(shape, element)?;
    Ok(tiled_offset(shape, layout, &point))
}

/// The point whose element is in the cell at an offset, or none for padding (1, 3, 4, 5).
pub fn point_at_offset(
    shape: &Shape,
    layout: &Layout,
    offset: u64,
) -> Result<Option<Vec<u64>>, Refusal> {
    if offset >= padded_size(shape, layout)? {
        return Err(Refusal::Outside);
    }
    let shapes = physical_shapes(shape, layout);
    let mut e = split_index(offset, &shapes[layout.tiles.len()]);
    for k in (0..layout.tiles.len()).rev() {
        e = untiled_coordinates(&e, &layout.tiles[k]);
        if e.iter().zip(&shapes[k]).any(|(e, d)| e >= d) {
            return Ok(None);
        }
    }
    let mut point = vec![0; e.len()];
    for (place, &dimension) in layout.minor_to_major.iter().rev().enumerate() {
        point[dimension as usize] = e[place];
    }
    Ok(Some(point))
}

/// The row-major index of a point of the shape in the last physical shape.
fn tiled_offset(shape: &Shape, layout: &Layout, point: &[u64]) -> u64 {
    let shapes = physical_shapes(shape, layout);
    let mut e = major_to_minor(point, layout);
    for tile in &layout.tiles {
        e = tiled_coordinates(&e, tile);
    }
    linear_index(&e, &shapes[shapes.len() - 1])
}

/// (.., e) tiled by t: the untouched majors, then e floordiv t, then e mod t.
fn tiled_coordinates(e: &[u64], t: &[u64]) -> Vec<u64> {
    let majors = e.len() - t.len();
    let mut tiled = e[..majors].to_vec();
    tiled.extend(e[majors..].iter().zip(t).map(|(e, t)| e / t));
    tiled.extend(e[majors..].iter().zip(t).map(|(e, t)| e % t));
    tiled
}

/// The coordinates that tiling by t takes to `tiled`; in padding they lie outside the shape.
fn untiled_coordinates(tiled: &[u64], t: &[u64]) -> Vec<u64> {
    let length = t.len();
    let majors = tiled.len() - 2 * length;
    let mut e = tiled[..majors].to_vec();
    for k in 0..length {
        e.push(tiled[majors + k] * t[k] + tiled[majors + length + k]);
    }
    e
}
