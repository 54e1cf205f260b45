// The benchmark's tables of [64,64], each with 64 layouts: one with a tile (8,16), which only the last layout makes, and one in row-major order but for its
// last two offsets, which each layout makes up to there.
use crate::ordinary::Table;
use crate::shared::cases::layout;
use crate::shared::packer::{offsets, padded, Layout};

const SIZES: [u64; 2] = [64, 64];
const TILE: [u64; 2] = [8, 16];

/// The entries of the other layouts' tiles. All of them divide the sizes, so every layout has 4,096 cells.
const ENTRIES: [u64; 6] = [1, 2, 4, 8, 16, 32];

/// The table of a layout.
fn own_table(maker: &Layout) -> Table {
    let padded = padded(&SIZES, maker).unwrap();
    Table { sizes: SIZES.to_vec(), padded, offsets: offsets(&SIZES, maker).unwrap() }
}

/// The table that the last layout makes.
pub fn table() -> Table {
    own_table(&layout(2, &[], &[&TILE]))
}

/// The offsets in row-major order with the last two swapped, and 64 layouts in row-major order: none makes the table.
pub fn swapped() -> (Table, Vec<Layout>) {
    let rows = layout(2, &[], &[&[8, 64]]);
    let mut table = own_table(&rows);
    let last = table.offsets.len() - 1;
    table.offsets.swap(last - 1, last);
    (table, vec![rows; 64])
}

/// Both orders with each tile but the maker's, up to 63 layouts, and the maker.
pub fn layouts() -> Vec<Layout> {
    let tiles = ENTRIES.iter().flat_map(|&rows| ENTRIES.map(|columns| [rows, columns]));
    let others = tiles.filter(|&tile| tile != TILE).flat_map(|tile| [[0, 1], [1, 0]].map(|order| layout(2, &order, &[&tile])));
    others.take(63).chain([layout(2, &[], &[&TILE])]).collect()
}
