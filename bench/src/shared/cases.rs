// A shape with a layout, and random ones from a seed.
use super::packer::{padded, product, Layout};

/// The length of a row: rank, 6 sizes, 6 entries of minor_to_major, the number of tiles, 3 tile lengths, 18 tile entries.
pub const ROW: usize = 35;

/// Numbers with commas between them.
pub fn list<N: ToString>(numbers: &[N]) -> String {
    numbers.iter().map(N::to_string).collect::<Vec<_>>().join(",")
}

/// The layout of an entry of a list, where no order says row-major.
pub fn layout(rank: usize, order: &[usize], tiles: &[&[u64]]) -> Layout {
    let minor_to_major = if order.is_empty() { (0..rank).rev().collect() } else { order.to_vec() };
    Layout { minor_to_major, tiles: tiles.iter().map(|t| t.to_vec()).collect() }
}

pub struct Case {
    pub sizes: Vec<u64>,
    pub layout: Layout,
}

impl Case {
    /// The order, where it is not row-major, and the tiles.
    pub fn layout_name(&self) -> String {
        let tiles = self.layout.tiles.iter().map(|t| format!("({})", list(t)));
        let ordered = self.layout.minor_to_major.iter().rev().copied().eq(0..self.sizes.len());
        let order = if ordered { String::new() } else { format!("{{{}}}", list(&self.layout.minor_to_major)) };
        format!("{order} {}", tiles.collect::<String>()).trim_end().to_string()
    }

    pub fn name(&self) -> String {
        format!("[{}]{}", list(&self.sizes), self.layout_name())
    }

    pub fn count(&self) -> usize {
        product(&self.sizes).unwrap() as usize
    }

    pub fn padded(&self) -> usize {
        padded(&self.sizes, &self.layout).unwrap() as usize
    }

    /// The row that the library's side reads, with the last number that only its plain loop reads.
    pub fn row(&self, last: u64) -> [u64; ROW + 1] {
        let mut row = [0; ROW + 1];
        row[0] = self.sizes.len() as u64;
        row[1..][..self.sizes.len()].copy_from_slice(&self.sizes);
        for (k, &d) in self.layout.minor_to_major.iter().enumerate() {
            row[7 + k] = d as u64;
        }
        row[13] = self.layout.tiles.len() as u64;
        for (l, tile) in self.layout.tiles.iter().enumerate() {
            row[14 + l] = tile.len() as u64;
            row[17 + 6 * l..][..tile.len()].copy_from_slice(tile);
        }
        row[ROW] = last;
        row
    }
}

/// A small generator of random numbers (splitmix64).
pub struct Random(pub u64);

impl Random {
    pub fn below(&mut self, n: u64) -> u64 {
        self.0 = self.0.wrapping_add(0x9e37_79b9_7f4a_7c15);
        let mut z = self.0;
        z = (z ^ (z >> 30)).wrapping_mul(0xbf58_476d_1ce4_e5b9);
        z = (z ^ (z >> 27)).wrapping_mul(0x94d0_49bb_1331_11eb);
        (z ^ (z >> 31)) % n
    }

    /// From 1 to a number, smaller ones likelier.
    fn up_to(&mut self, most: u64) -> u64 {
        let bits = self.below(most.ilog2() as u64 + 2);
        1 + self.below((1u64 << bits).min(most))
    }

    fn sizes(&mut self) -> Vec<u64> {
        let mut left = self.up_to(1 << 20);
        let rank = self.below(7) as usize;
        let mut sizes = Vec::new();
        for k in 0..rank {
            let size = if k + 1 == rank { left } else { self.up_to(left) };
            sizes.insert(self.below(k as u64 + 1) as usize, size);
            left /= size;
        }
        sizes
    }

    pub fn layout(&mut self, rank: usize) -> Layout {
        let mut minor_to_major: Vec<usize> = Vec::new();
        for d in 0..rank {
            minor_to_major.insert(self.below(d as u64 + 1) as usize, d);
        }
        let (mut tiles, mut dims) = (Vec::new(), rank);
        let count = if rank == 0 { 0 } else { self.below(4) };
        for _ in 0..count {
            let entries = 1 + self.below(dims.min(6) as u64);
            tiles.push((0..entries).map(|_| self.up_to(1024)).collect());
            dims += entries as usize;
        }
        Layout { minor_to_major, tiles }
    }

    pub fn case(&mut self, good: impl Fn(u64, u64) -> bool) -> Case {
        loop {
            let sizes = self.sizes();
            let layout = self.layout(sizes.len());
            if let (Some(count), Some(padded)) = (product(&sizes), padded(&sizes, &layout)) {
                if good(count, padded) {
                    return Case { sizes, layout };
                }
            }
        }
    }
}
