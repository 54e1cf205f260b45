// An ordinary packer over arrays: each element's digits, tiled index and offset by the machine's division, in arrays made once a call.

#[derive(Clone)]
pub struct Layout {
    pub minor_to_major: Vec<usize>,
    pub tiles: Vec<Vec<u64>>,
}

/// A refusal's number in document 01's table.
pub type Refused = u64;
pub const SHAPE: Refused = 1;
pub const LAYOUT: Refused = 3;
pub const PADDED: Refused = 4;
pub const BUFFER: Refused = 9;

pub const MAX_RANK: usize = 6;
pub const MAX_SIZE: u64 = 1 << 20;
pub const MAX_COUNT: u64 = 1 << 40;
pub const MAX_TILES: usize = 3;
pub const MAX_ENTRIES: usize = 6;
pub const MAX_ENTRY: u64 = 1024;
/// The most dimensions of a physical shape.
const MAX_DIMS: usize = MAX_RANK + MAX_TILES * MAX_ENTRIES;

/// The product of numbers from 1, where it is at most 2^40.
pub fn product(numbers: &[u64]) -> Option<u64> {
    numbers.iter().try_fold(1u64, |n, &k| n.checked_mul(k)).filter(|&n| n <= MAX_COUNT)
}

pub fn good_order(rank: usize, order: &[usize]) -> bool {
    let mut seen = [false; MAX_RANK];
    order.len() == rank && order.iter().all(|&d| d < rank && !std::mem::replace(&mut seen[d], true))
}

pub fn good_tiles(rank: usize, tiles: &[Vec<u64>]) -> bool {
    let mut dims = rank;
    tiles.len() <= MAX_TILES
        && tiles.iter().all(|tile| {
            let most = dims.min(MAX_ENTRIES);
            dims += tile.len();
            (1..=most).contains(&tile.len()) && tile.iter().all(|t| (1..=MAX_ENTRY).contains(t))
        })
}

/// The physical shape: the sizes in physical order, and each tile on that; its length, and the numbers.
fn physical(sizes: &[u64], layout: &Layout) -> (usize, [u64; MAX_DIMS]) {
    let (mut len, mut dims) = (sizes.len(), [0; MAX_DIMS]);
    for (dim, &d) in dims.iter_mut().zip(layout.minor_to_major.iter().rev()) {
        *dim = sizes[d];
    }
    for tile in &layout.tiles {
        let first = len - tile.len();
        for (dim, t) in dims[first..len].iter_mut().zip(tile) {
            *dim = dim.div_ceil(*t);
        }
        dims[len..len + tile.len()].copy_from_slice(tile);
        len += tile.len();
    }
    (len, dims)
}

/// The padded size, where it is at most 2^40.
pub fn padded(sizes: &[u64], layout: &Layout) -> Option<u64> {
    let (len, dims) = physical(sizes, layout);
    product(&dims[..len])
}

/// What a call needs: the physical shape, the two counts, and the arrays that every element uses again.
struct Walk<'a> {
    sizes: &'a [u64],
    layout: &'a Layout,
    len: usize,
    dims: [u64; MAX_DIMS],
    count: usize,
    padded: usize,
    point: [u64; MAX_RANK],
    index: [u64; MAX_DIMS],
}

impl<'a> Walk<'a> {
    /// Judges the shape, the layout, the padded size and the buffers' lengths, in this order.
    fn new(sizes: &'a [u64], layout: &'a Layout, elements: usize, cells: usize) -> Result<Self, Refused> {
        if sizes.len() > MAX_RANK || !sizes.iter().all(|s| (1..=MAX_SIZE).contains(s)) {
            return Err(SHAPE);
        }
        let count = product(sizes).ok_or(SHAPE)? as usize;
        if !good_order(sizes.len(), &layout.minor_to_major) || !good_tiles(sizes.len(), &layout.tiles) {
            return Err(LAYOUT);
        }
        let (len, dims) = physical(sizes, layout);
        let padded = product(&dims[..len]).ok_or(PADDED)? as usize;
        if elements < count || cells < padded {
            return Err(BUFFER);
        }
        Ok(Walk { sizes, layout, len, dims, count, padded, point: [0; MAX_RANK], index: [0; MAX_DIMS] })
    }

    fn offset(&mut self, element: usize) -> usize {
        let mut n = element as u64;
        let mut len = self.sizes.len();
        for (coordinate, size) in self.point[..len].iter_mut().zip(self.sizes).rev() {
            *coordinate = n % size;
            n /= size;
        }
        for (e, &d) in self.index.iter_mut().zip(self.layout.minor_to_major.iter().rev()) {
            *e = self.point[d];
        }
        for tile in &self.layout.tiles {
            let first = len - tile.len();
            for (j, t) in tile.iter().enumerate() {
                let e = self.index[first + j];
                self.index[first + j] = e / t;
                self.index[len + j] = e % t;
            }
            len += tile.len();
        }
        self.index[..self.len].iter().zip(&self.dims).fold(0, |offset, (e, d)| offset * d + e) as usize
    }
}

/// Every element to its cell and 0 into padding.
pub fn pack(sizes: &[u64], layout: &Layout, source: &[u32], cells: &mut [u32]) -> Result<(), Refused> {
    let mut walk = Walk::new(sizes, layout, source.len(), cells.len())?;
    cells[..walk.padded].fill(0);
    for (n, &value) in source[..walk.count].iter().enumerate() {
        cells[walk.offset(n)] = value;
    }
    Ok(())
}

/// Every element from its cell.
pub fn unpack(sizes: &[u64], layout: &Layout, cells: &[u32], destination: &mut [u32]) -> Result<(), Refused> {
    let mut walk = Walk::new(sizes, layout, destination.len(), cells.len())?;
    let count = walk.count;
    for (n, place) in destination[..count].iter_mut().enumerate() {
        *place = cells[walk.offset(n)];
    }
    Ok(())
}

/// Every element's offset.
pub fn offsets(sizes: &[u64], layout: &Layout) -> Result<Vec<u64>, Refused> {
    let mut walk = Walk::new(sizes, layout, usize::MAX, usize::MAX)?;
    Ok((0..walk.count).map(|n| walk.offset(n) as u64).collect())
}

/// Whether each element's offset is the one that a table of as many offsets gives it.
pub fn has_offsets(sizes: &[u64], layout: &Layout, table: &[u64]) -> bool {
    Walk::new(sizes, layout, table.len(), usize::MAX).is_ok_and(|mut walk| table.iter().enumerate().all(|(n, &offset)| walk.offset(n) as u64 == offset))
}
