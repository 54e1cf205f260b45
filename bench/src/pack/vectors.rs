// A second ordinary packer, over vectors: the physical shape is made once a call, and every element uses the point and the index again.
use crate::shared::packer::{product, Layout, Refused, BUFFER, LAYOUT, MAX_ENTRIES, MAX_ENTRY, MAX_RANK, MAX_SIZE, MAX_TILES, PADDED, SHAPE};

/// The number of elements of a shape that keeps the limits.
fn count(sizes: &[u64]) -> Result<u64, Refused> {
    if sizes.len() > MAX_RANK || !sizes.iter().all(|s| (1..=MAX_SIZE).contains(s)) {
        return Err(SHAPE);
    }
    product(sizes).ok_or(SHAPE)
}

/// Judges a layout for a shape of a rank.
fn judge(rank: usize, layout: &Layout) -> Result<(), Refused> {
    let order = &layout.minor_to_major;
    if order.len() != rank || !(0..rank).all(|d| order.contains(&d)) || layout.tiles.len() > MAX_TILES {
        return Err(LAYOUT);
    }
    let mut dims = rank;
    for tile in &layout.tiles {
        if tile.is_empty() || tile.len() > dims.min(MAX_ENTRIES) || !tile.iter().all(|t| (1..=MAX_ENTRY).contains(t)) {
            return Err(LAYOUT);
        }
        dims += tile.len();
    }
    Ok(())
}

/// The physical shape: the sizes in physical order, and each tile on that.
fn physical(sizes: &[u64], layout: &Layout) -> Vec<u64> {
    let mut dims: Vec<u64> = layout.minor_to_major.iter().rev().map(|&d| sizes[d]).collect();
    for tile in &layout.tiles {
        let first = dims.len() - tile.len();
        for (dim, t) in dims[first..].iter_mut().zip(tile) {
            *dim = dim.div_ceil(*t);
        }
        dims.extend_from_slice(tile);
    }
    dims
}

/// What a call needs: the physical shape, the two counts, and the point and the index of an element.
struct Walk<'a> {
    sizes: &'a [u64],
    layout: &'a Layout,
    dims: Vec<u64>,
    count: usize,
    padded: usize,
    point: Vec<u64>,
    index: Vec<u64>,
}

impl<'a> Walk<'a> {
    /// Judges the shape, the layout, the padded size and the buffers' lengths, in this order.
    fn new(sizes: &'a [u64], layout: &'a Layout, elements: usize, cells: usize) -> Result<Self, Refused> {
        let count = count(sizes)? as usize;
        judge(sizes.len(), layout)?;
        let dims = physical(sizes, layout);
        let padded = product(&dims).ok_or(PADDED)? as usize;
        if elements < count || cells < padded {
            return Err(BUFFER);
        }
        let (point, index) = (vec![0; sizes.len()], Vec::with_capacity(dims.len()));
        Ok(Walk { sizes, layout, dims, count, padded, point, index })
    }

    fn offset(&mut self, element: usize) -> usize {
        let mut n = element as u64;
        for (coordinate, size) in self.point.iter_mut().zip(self.sizes).rev() {
            *coordinate = n % size;
            n /= size;
        }
        self.index.clear();
        self.index.extend(self.layout.minor_to_major.iter().rev().map(|&d| self.point[d]));
        for tile in &self.layout.tiles {
            let first = self.index.len() - tile.len();
            for (j, t) in tile.iter().enumerate() {
                let e = self.index[first + j];
                self.index[first + j] = e / t;
                self.index.push(e % t);
            }
        }
        self.index.iter().zip(&self.dims).fold(0, |offset, (e, d)| offset * d + e) as usize
    }
}

/// Every element to its cell and 0 into padding.
pub fn pack(sizes: &[u64], layout: &Layout, source: &[u32], cells: &mut [u32]) -> Result<(), Refused> {
    let mut walk = Walk::new(sizes, layout, source.len(), cells.len())?;
    cells[..walk.padded].fill(0);
    for (n, &value) in source[..walk.count].iter().enumerate() {
        cells[walk.offset(n)] = value;
    }
    Ok(())
}

/// Every element from its cell.
pub fn unpack(sizes: &[u64], layout: &Layout, cells: &[u32], destination: &mut [u32]) -> Result<(), Refused> {
    let mut walk = Walk::new(sizes, layout, destination.len(), cells.len())?;
    let count = walk.count;
    for (n, place) in destination[..count].iter_mut().enumerate() {
        *place = cells[walk.offset(n)];
    }
    Ok(())
}
