// The benchmark's shapes and layouts: a list, and random ones.
use crate::shared::cases::{layout, Case, Random};

const M: u64 = 1 << 20;

/// Sizes, minor_to_major (empty for row-major), tiles, and whether the case is a main one.
type Entry = (&'static [u64], &'static [usize], &'static [&'static [u64]], bool);

const CASES: [Entry; 61] = [
    (&[4096, 1024], &[], &[&[8, 128]], true),
    (&[4096, 1024], &[], &[&[8, 128], &[2, 1]], true),
    (&[4096, 1024], &[0, 1], &[&[8, 128]], true),
    (&[4096, 1024], &[0, 1], &[&[8, 128], &[2, 1]], true),
    (&[M], &[], &[&[1000]], true),
    (&[M], &[], &[&[1]], false),
    (&[M], &[], &[&[3]], true),
    (&[M], &[], &[&[997]], false),
    (&[M], &[], &[&[1024], &[32]], false),
    (&[M, 2], &[], &[&[2]], true),
    (&[M, 2], &[], &[&[1024, 2]], false),
    (&[M, 2], &[], &[&[997, 2]], false),
    (&[4, M], &[], &[&[128]], false),
    (&[M, 4], &[], &[&[3]], true),
    (&[1000, 4190], &[], &[&[100]], true),
    (&[200, 100, 200], &[], &[&[128]], true),
    (&[200, 100, 200], &[], &[&[8, 128]], false),
    (&[200, 100, 200], &[1, 2, 0], &[&[128]], false),
    (&[200, 100, 200], &[1, 2, 0], &[&[8, 128]], true),
    (&[7, 1025, 3], &[], &[&[2]], true),
    (&[8, 8, 8, 8, 16, 16], &[], &[&[8, 8]], true),
    (&[8, 8, 8, 8, 16, 16], &[], &[&[2, 3, 5], &[2, 2], &[3]], true),
    (&[8, 8, 8, 8, 16, 16], &[2, 0, 5, 1, 4, 3], &[&[8, 8]], false),
    (&[8, 8, 8, 8, 16, 16], &[2, 0, 5, 1, 4, 3], &[&[2, 3, 5], &[2, 2], &[3]], false),
    (&[5, 7], &[], &[&[8, 128]], false),
    (&[1000], &[], &[&[1024]], false),
    (&[100, 100], &[], &[&[128, 128]], false),
    (&[3, 1000], &[], &[&[1024]], false),
    (&[1994], &[], &[&[997]], false),
    (&[1025], &[], &[&[1024]], false),
    (&[2000], &[], &[&[1024]], false),
    (&[], &[], &[], true),
    (&[1], &[], &[], true),
    (&[1], &[], &[&[1]], false),
    (&[1, 1, 1, 1, 1, 1], &[2, 4, 1, 5, 3, 0], &[], true),
    (&[2], &[], &[], true),
    (&[4], &[], &[], false),
    (&[6], &[], &[], false),
    (&[2, 1, 1, 1, 1], &[0, 3, 4, 1, 2], &[], true),
    (&[1, 2, 1, 3], &[1, 0, 3, 2], &[&[3, 13, 1, 1], &[6, 96, 1], &[3, 382]], true),
    (&[3], &[], &[&[7], &[1, 296], &[16, 1, 4, 31]], true),
    (&[1, 1, 1, 1, 2], &[3, 1, 4, 0, 2], &[&[85, 79]], false),
    (&[2, 3], &[], &[], false),
    (&[2, 3], &[], &[&[2]], true),
    (&[8, 8], &[], &[&[8, 8]], true),
    (&[16], &[], &[&[4]], true),
    (&[24], &[], &[], true),
    (&[1, 8, 1, 1], &[0, 1, 3, 2], &[&[1, 55, 1]], true),
    (&[1, 7, 2, 1, 1], &[2, 0, 3, 4, 1], &[], false),
    (&[8, 2, 1, 1, 1, 1], &[2, 5, 3, 0, 4, 1], &[], true),
    (&[1, 1, 7, 1, 1, 1], &[2, 4, 1, 5, 3, 0], &[&[199]], false),
    (&[30, 40], &[], &[&[8, 128]], true),
    (&[64, 64], &[], &[&[8, 8]], true),
    (&[1024, 1024], &[], &[], true),
    (&[1024, 1024], &[0, 1], &[], false),
    (&[M], &[], &[], false),
    (&[512, 512], &[], &[&[8, 128], &[2, 1], &[4]], true),
    (&[1, M], &[], &[&[8, 128]], false),
    (&[65536, 1], &[], &[&[8, 128]], false),
    (&[M, 1], &[0, 1], &[&[8, 128]], false),
    (&[8192, 4096], &[], &[&[8, 128]], false),
];

/// The cases of the list, all or the main ones.
pub fn listed(all: bool) -> Vec<Case> {
    let case = |&(sizes, order, tiles, _): &Entry| Case { sizes: sizes.to_vec(), layout: layout(sizes.len(), order, tiles) };
    CASES.iter().filter(|c| all || c.3).map(case).collect()
}

impl Random {
    /// A shape of about 2^20 elements at most with a layout of at most 2^22 cells; on average one case in twenty has one element (rank 0 or more).
    pub fn any_case(&mut self) -> Case {
        let one = self.below(20) == 0;
        self.case(|count, padded| (count == 1) == one && padded <= 1 << 22)
    }

    /// A shape of 2 to 64 elements, or of one in about a twentieth of the cases, with a layout of at most 1,024 cells.
    pub fn few_case(&mut self) -> Case {
        let one = self.below(20) == 0;
        self.case(|count, padded| (count == 1) == one && count <= 64 && padded <= 1024)
    }
}
