// The buffers of a case: checked once with every version, then measured.
use crate::shared::cases::Case;
use crate::shared::measure::{in_turn, Times};
use crate::shared::packer;
use crate::{library_pack, library_read, library_unpack, plain_pack, vectors};
use std::cell::RefCell;
use std::hint::black_box;

/// What stands in a buffer before a call.
const OLD: u32 = 7;

/// The elements and the cells of a case, and a buffer of each length to write.
pub struct Buffers {
    source: Vec<u32>,
    cells: Vec<u32>,
    written: Vec<u32>,
    back: Vec<u32>,
}

fn ordinary_pack(case: &Case, source: &[u32], cells: &mut [u32]) -> u64 {
    packer::pack(&case.sizes, &case.layout, source, cells).map_or_else(|number| number, |_| 0)
}

fn ordinary_unpack(case: &Case, cells: &[u32], destination: &mut [u32]) -> u64 {
    packer::unpack(&case.sizes, &case.layout, cells, destination).map_or_else(|number| number, |_| 0)
}

fn vectors_pack(case: &Case, source: &[u32], cells: &mut [u32]) -> u64 {
    vectors::pack(&case.sizes, &case.layout, source, cells).map_or_else(|number| number, |_| 0)
}

fn vectors_unpack(case: &Case, cells: &[u32], destination: &mut [u32]) -> u64 {
    vectors::unpack(&case.sizes, &case.layout, cells, destination).map_or_else(|number| number, |_| 0)
}

impl Buffers {
    /// Packs and unpacks by every version, and stops where they differ. Buffers are one longer than needed, to see that the rest stays.
    pub fn checked(case: &Case) -> Buffers {
        let (name, row, count) = (case.name(), case.row(0), case.count());
        let source: Vec<u32> = (0..count as u32 + 1).map(|n| n.wrapping_mul(2654435761) | 1).collect();
        let mut cells = vec![OLD; case.padded() + 1];
        assert_eq!(ordinary_pack(case, &source, &mut cells), 0, "{name}");
        let mut written = cells.clone();
        let mut same = |pack: &dyn Fn(&mut [u32]) -> u64| {
            written.fill(OLD);
            assert!(pack(&mut written) == 0 && written == cells, "{name}: packed cells differ");
        };
        same(&|w| library_pack(&row, &source, w));
        same(&|w| vectors_pack(case, &source, w));
        same(&|w| plain_pack(&row, &source, w));
        same(&|w| plain_pack(&case.row(1), &source, w));
        let mut back = source.clone();
        let mut given = |unpack: &dyn Fn(&mut [u32]) -> u64| {
            back.fill(OLD);
            assert_eq!(unpack(&mut back), 0, "{name}");
            assert!(back[..count] == source[..count] && back[count] == OLD, "{name}: unpacked elements differ");
        };
        given(&|b| library_unpack(&row, &cells, b));
        given(&|b| ordinary_unpack(case, &cells, b));
        given(&|b| vectors_unpack(case, &cells, b));
        Buffers { source, cells, written, back }
    }

    /// The times of packing: the library, the ordinary version over arrays and over vectors, a copy of the padded size, reading the row, and the version over
    /// arrays once more, to see how far the same version differs from itself.
    pub fn pack_times(&mut self, case: &Case, rounds: usize) -> Vec<Times> {
        let (row, padded) = (case.row(0), case.padded());
        let Buffers { source, cells, written, .. } = self;
        let written = RefCell::new(written);
        in_turn(
            rounds,
            &mut [
                &mut || assert_eq!(library_pack(black_box(&row), black_box(source), &mut written.borrow_mut()), 0),
                &mut || assert_eq!(ordinary_pack(black_box(case), black_box(source), &mut written.borrow_mut()), 0),
                &mut || assert_eq!(vectors_pack(black_box(case), black_box(source), &mut written.borrow_mut()), 0),
                &mut || black_box(&mut written.borrow_mut()[..padded]).copy_from_slice(black_box(&cells[..padded])),
                &mut || assert!(library_read(black_box(&row)) <= 1 << 20),
                &mut || assert_eq!(ordinary_pack(black_box(case), black_box(source), &mut written.borrow_mut()), 0),
            ],
        )
    }

    /// The same of unpacking.
    pub fn unpack_times(&mut self, case: &Case, rounds: usize) -> Vec<Times> {
        let (row, padded) = (case.row(0), case.padded());
        let Buffers { cells, written, back, .. } = self;
        let back = RefCell::new(back);
        in_turn(
            rounds,
            &mut [
                &mut || assert_eq!(library_unpack(black_box(&row), black_box(cells), &mut back.borrow_mut()), 0),
                &mut || assert_eq!(ordinary_unpack(black_box(case), black_box(cells), &mut back.borrow_mut()), 0),
                &mut || assert_eq!(vectors_unpack(black_box(case), black_box(cells), &mut back.borrow_mut()), 0),
                &mut || black_box(&mut written[..padded]).copy_from_slice(black_box(&cells[..padded])),
                &mut || assert!(library_read(black_box(&row)) <= 1 << 20),
                &mut || assert_eq!(ordinary_unpack(black_box(case), black_box(cells), &mut back.borrow_mut()), 0),
            ],
        )
    }

    /// The times of the plain loop by division, of the same through the multipliers, and of the ordinary version.
    pub fn plain_times(&mut self, case: &Case, rounds: usize) -> Vec<Times> {
        let rows = [case.row(0), case.row(1)];
        let Buffers { source, written, .. } = self;
        let written = RefCell::new(written);
        in_turn(
            rounds,
            &mut [
                &mut || assert_eq!(plain_pack(black_box(&rows[0]), black_box(source), &mut written.borrow_mut()), 0),
                &mut || assert_eq!(plain_pack(black_box(&rows[1]), black_box(source), &mut written.borrow_mut()), 0),
                &mut || assert_eq!(ordinary_pack(black_box(case), black_box(source), &mut written.borrow_mut()), 0),
            ],
        )
    }
}
