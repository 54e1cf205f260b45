//! Brute force: small cases compared with a second reading of the documents.

use crate::brute_compose::brute_compose;
use crate::brute_divisions::brute_divisions;
use crate::brute_maps::brute_maps;
use crate::brute_operations::brute_operations;
use crate::brute_repeats::brute_repeats;
use crate::brute_retile::brute_retile;
use crate::brute_routes::brute_routes;
use crate::brute_tables::brute_tables;
use crate::brute_trees::brute_trees;
use crate::buffer::{pack, unpack};
use crate::layout::{padded_size, Layout};
use crate::offset::{offset_of_element, offset_of_point, point_at_offset};
use crate::pad_reshape_transpose::memory;
use crate::refusal::Refusal;
use crate::shape::{element_count, element_number, point_of_element, Shape};
use crate::small_cases::{permutations, shapes, tile_lists};

/// Comparisons made so far.
pub struct Tally {
    pub comparisons: u64,
}

impl Tally {
    pub fn agree(&mut self, same: bool, what: &'static str) -> Result<(), &'static str> {
        self.comparisons += 1;
        if same {
            return Ok(());
        }
        Err(what)
    }
}

/// The number of comparisons, or the first case that disagrees.
pub fn brute() -> Result<u64, String> {
    let mut tally = Tally { comparisons: 0 };
    brute_layouts(&mut tally)?;
    brute_routes(&mut tally)?;
    brute_repeats(&mut tally)?;
    brute_trees(&mut tally)?;
    brute_tables(&mut tally)?;
    brute_maps(&mut tally)?;
    brute_compose(&mut tally)?;
    brute_operations(&mut tally)?;
    brute_divisions(&mut tally)?;
    brute_retile(&mut tally)?;
    Ok(tally.comparisons)
}

/// Every small layout compared with the pad, reshape and transpose of document 001.
fn brute_layouts(tally: &mut Tally) -> Result<(), String> {
    let tile_lists = tile_lists();
    for shape in shapes() {
        for minor_to_major in permutations(shape.sizes.len()) {
            for tiles in &tile_lists {
                let layout = Layout {
                    minor_to_major: minor_to_major.clone(),
                    tiles: tiles.clone(),
                };
                compare(tally, &shape, &layout)
                    .map_err(|what| format!("{what}: {shape:?} {layout:?}"))?;
            }
        }
    }
    Ok(())
}

/// All comparisons of one case.
fn compare(tally: &mut Tally, shape: &Shape, layout: &Layout) -> Result<(), &'static str> {
    let padded = padded_size(shape, layout);
    if has_long_tile(shape.sizes.len(), &layout.tiles) {
        return tally.agree(padded == Err(Refusal::Layout), "a tile that is too long");
    }
    let cells = memory(&shape.sizes, &layout.minor_to_major, &layout.tiles);
    tally.agree(padded == Ok(cells.len() as u64), "the padded size")?;
    let elements: u64 = shape.sizes.iter().product();
    tally.agree(element_count(shape) == Ok(elements), "the element count")?;
    let found = search(tally, shape, layout, cells.len(), elements)?;
    for (offset, held) in cells.iter().enumerate() {
        let point = point_at_offset(shape, layout, offset as u64).map_err(|_| "a cell")?;
        let element = point.map(|point| element_number(shape, &point));
        tally.agree(element == found[offset].map(Ok), "the element of a cell")?;
        tally.agree(*held == found[offset], "pad, reshape and transpose")?;
    }
    let past = point_at_offset(shape, layout, cells.len() as u64);
    tally.agree(past == Err(Refusal::Outside), "the first offset outside")?;
    compare_buffers(tally, shape, layout, &cells, elements as usize)
}

/// The element of each cell, found by asking every element for its offset.
fn search(
    tally: &mut Tally,
    shape: &Shape,
    layout: &Layout,
    cells: usize,
    elements: u64,
) -> Result<Vec<Option<u64>>, &'static str> {
    let mut found = vec![None; cells];
    for element in 0..elements {
        let offset = offset_of_element(shape, layout, element).map_err(|_| "an offset")?;
        tally.agree((offset as usize) < cells, "an offset below the padded size")?;
        tally.agree(found[offset as usize].is_none(), "a cell of its own")?;
        found[offset as usize] = Some(element);
        let point = point_of_element(shape, element).map_err(|_| "a point")?;
        let number = element_number(shape, &point);
        tally.agree(number == Ok(element), "the number of a point")?;
        let same = offset_of_point(shape, layout, &point) == Ok(offset);
        tally.agree(same, "the offset of a point")?;
    }
    Ok(found)
}

/// Packing gives the cells of the second reading, and unpacking gives the source again.
fn compare_buffers(
    tally: &mut Tally,
    shape: &Shape,
    layout: &Layout,
    cells: &[Option<u64>],
    elements: usize,
) -> Result<(), &'static str> {
    let source: Vec<u32> = (1..=elements as u32).collect();
    let mut packed = vec![u32::MAX; cells.len() + 1];
    let mut unpacked = vec![u32::MAX; elements + 1];
    pack(shape, layout, &source, &mut packed).map_err(|_| "packing")?;
    unpack(shape, layout, &packed, &mut unpacked).map_err(|_| "unpacking")?;
    for (held, value) in cells.iter().zip(&packed) {
        let expected = held.map_or(0, |element| element as u32 + 1);
        tally.agree(*value == expected, "a packed cell")?;
    }
    for (given, value) in source.iter().zip(&unpacked) {
        tally.agree(value == given, "an unpacked element")?;
    }
    tally.agree(
        packed[cells.len()] == u32::MAX,
        "a cell past the padded size",
    )?;
    tally.agree(
        unpacked[elements] == u32::MAX,
        "a place past the element count",
    )
}

/// Whether a tile has more entries than the physical shape has dimensions at that place.
fn has_long_tile(rank: usize, tiles: &[Vec<u64>]) -> bool {
    (0..tiles.len()).any(|k| {
        let earlier: usize = tiles[..k].iter().map(Vec::len).sum();
        tiles[k].len() > rank + earlier
    })
}
