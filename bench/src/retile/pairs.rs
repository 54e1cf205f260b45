// The benchmark's shapes with two layouts each: a list, and random ones.
use crate::shared::cases::{layout, list, Case, Random, ROW};
use crate::shared::packer::padded;

/// A shape with the source's layout, and the same shape with the destination's.
pub struct Pair {
    pub from: Case,
    pub to: Case,
}

impl Pair {
    pub fn name(&self) -> String {
        let [from, to] = [&self.from, &self.to].map(|side| match side.layout_name().trim() {
            "" => String::from("row-major"),
            name => name.to_string(),
        });
        format!("[{}] {from} to {to}", list(&self.from.sizes))
    }

    /// How many cells the destination has.
    pub fn cells(&self) -> usize {
        self.to.padded()
    }

    /// The rows that the library's side reads.
    pub fn rows(&self) -> Vec<u64> {
        [&self.from.row(0)[..ROW], &self.to.row(0)[..ROW]].concat()
    }
}

/// minor_to_major (empty for row-major) and tiles.
type Side = (&'static [usize], &'static [&'static [u64]]);

const PLAIN: Side = (&[], &[]);
const TILED: Side = (&[], &[&[8, 128]]);
const TWICE: Side = (&[], &[&[8, 128], &[2, 1]]);
const TURNED: Side = (&[0, 1], &[]);

const PAIRS: [(&[u64], Side, Side); 15] = [
    (&[4096, 1024], PLAIN, TILED),
    (&[4096, 1024], TILED, PLAIN),
    (&[4096, 1024], PLAIN, TWICE),
    (&[4096, 1024], TWICE, PLAIN),
    (&[4096, 1024], TILED, TWICE),
    (&[4096, 1024], TILED, TURNED),
    (&[4096, 1024], PLAIN, TURNED),
    (&[512, 512], TILED, (&[], &[&[16, 64], &[2, 1]])),
    (&[100, 100, 3], PLAIN, (&[0, 1, 2], &[])),
    (&[100, 100, 3], (&[1, 0, 2], &[&[8, 128]]), PLAIN),
    (&[100, 100, 3], (&[2, 0, 1], &[&[2, 2, 2]]), (&[0, 2, 1], &[&[3, 5], &[2]])),
    (&[100, 100, 3], PLAIN, (&[], &[&[8, 128]])),
    (&[3, 5], TILED, PLAIN),
    (&[3, 5], PLAIN, TURNED),
    (&[1, 1], PLAIN, (&[], &[&[1024, 1024]])),
];

fn pair(&(sizes, from, to): &(&[u64], Side, Side)) -> Pair {
    let case = |(order, tiles): Side| Case { sizes: sizes.to_vec(), layout: layout(sizes.len(), order, tiles) };
    Pair { from: case(from), to: case(to) }
}

pub fn listed() -> Vec<Pair> {
    PAIRS.iter().map(pair).collect()
}

/// The pair whose run is made in calls of several allowances.
pub fn in_calls() -> Pair {
    pair(&(&[512, 512], TILED, PLAIN))
}

impl Random {
    /// A shape with two layouts of at most 2^16 cells each; on average one in twenty has one element.
    pub fn pair(&mut self) -> Pair {
        let one = self.below(20) == 0;
        loop {
            let from = self.case(|count, cells| (count == 1) == one && cells <= 1 << 16);
            let to = Case { sizes: from.sizes.clone(), layout: self.layout(from.sizes.len()) };
            if padded(&to.sizes, &to.layout).is_some_and(|cells| cells <= 1 << 16) {
                return Pair { from, to };
            }
        }
    }
}
