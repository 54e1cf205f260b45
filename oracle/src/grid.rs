//! The grid: a picture of a small table with each element's offset in its place.

use crate::layout::{padded_size, Layout};
use crate::offset::{offset_of_point, point_at_offset};
use crate::refusal::Refusal;
use crate::shape::Shape;

/// The most cells that a grid shows.
const MAX_CELLS: u64 = 4096;

/// The rows of the table and a line with the padding cells (1, 3, 4).
pub fn grid(shape: &Shape, column: usize, layout: &Layout) -> Result<String, Refusal> {
    let padded = padded_size(shape, layout)?;
    let (rows, row_length) = match shape.sizes[..] {
        [length] => (1, length),
        [rows, length] => (rows, length),
        _ => return Ok(no_grid(column)),
    };
    if padded > MAX_CELLS {
        return Ok(no_grid(column));
    }
    let width = (padded - 1).to_string().len();
    let mut lines = Vec::new();
    for row in 0..rows {
        let mut offsets = Vec::new();
        for place in 0..row_length {
            let point = [row, place];
            let offset = offset_of_point(shape, layout, &point[2 - shape.sizes.len()..])?;
            offsets.push(format!("{offset:>width$}"));
        }
        lines.push(offsets.join(" "));
    }
    lines.push(padding_line(shape, layout, padded)?);
    Ok(lines.join("\n"))
}

fn no_grid(column: usize) -> String {
    format!("error: a grid has rank 1 or 2 and at most 4096 cells at column {column}")
}

fn padding_line(shape: &Shape, layout: &Layout, padded: u64) -> Result<String, Refusal> {
    let mut line = "padding".to_string();
    for offset in 0..padded {
        if point_at_offset(shape, layout, offset)?.is_none() {
            line.push_str(&format!(" {offset}"));
        }
    }
    if line == "padding" {
        line.push_str(" none");
    }
    Ok(line)
}
