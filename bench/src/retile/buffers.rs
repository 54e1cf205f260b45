// The buffers of a pair: checked once with both versions, then measured.
use crate::pairs::Pair;
use crate::shared::clock::thread_seconds;
use crate::shared::measure::{in_turn, Times};
use crate::shared::packer;
use crate::{library_read, library_retile, ordinary};
use std::cell::RefCell;
use std::hint::black_box;

/// What stands in the destination before a call, and in the source's padding.
const OLD: u32 = 8;

/// Every cell in one call.
const ALL: u64 = u64::MAX;

/// The rounds of a measurement, and how long all rounds of a large pair may take.
const ROUNDS: usize = 15;
const SECONDS: f64 = 6.0;

/// The source's cells, a buffer to write, and the number of rounds.
pub struct Buffers<'a> {
    pair: &'a Pair,
    rows: Vec<u64>,
    source: Vec<u32>,
    written: Vec<u32>,
    pub rounds: usize,
}

/// A whole run from the mark 0 in calls of an allowance, up to the first that settles fewer cells; the mark, and how many cells the last call settled.
fn run(rows: &[u64], source: &[u32], cells: &mut [u32], allowance: u64) -> [u64; 2] {
    let mut mark = [0; 2];
    loop {
        assert_eq!(library_retile(rows, source, cells, &mut mark, allowance), 0);
        if mark[1] < allowance {
            return mark;
        }
    }
}

fn ordinary_run(pair: &Pair, source: &[u32], cells: &mut [u32]) {
    assert_eq!(ordinary::retile(&pair.to.sizes, &pair.from.layout, &pair.to.layout, source, cells), Ok(()));
}

/// The source: elements that are odd, something even in padding, and one place more.
fn source_of(pair: &Pair) -> Vec<u32> {
    let elements: Vec<u32> = (0..pair.from.count() as u32).map(|n| n.wrapping_mul(2654435761) | 1).collect();
    let mut cells = vec![0; pair.from.padded() + 1];
    assert_eq!(packer::pack(&pair.from.sizes, &pair.from.layout, &elements, &mut cells), Ok(()));
    cells.iter_mut().filter(|cell| **cell == 0).for_each(|cell| *cell = OLD);
    cells
}

impl<'a> Buffers<'a> {
    /// Re-tiles by both versions, the library also in calls of 1,000 cells, and stops where the destinations differ. A destination is one longer than needed,
    /// to see that the rest stays. The times of the whole runs say how many rounds are made.
    pub fn checked(pair: &'a Pair) -> Buffers<'a> {
        let (name, rows, cells, source) = (pair.name(), pair.rows(), pair.cells(), source_of(pair));
        let mut expected = vec![OLD; cells + 1];
        let start = thread_seconds();
        ordinary_run(pair, &source, &mut expected);
        let ordinary = thread_seconds();
        let mut written = vec![OLD; cells + 1];
        let mark = run(&rows, &source, &mut written, ALL);
        let library = thread_seconds();
        assert!(mark == [cells as u64; 2] && written == expected, "{name}: the destinations differ");
        written.fill(OLD);
        let mark = run(&rows, &source, &mut written, 1000);
        assert!(mark[0] == cells as u64 && written == expected, "{name}: the destinations differ after calls of 1,000");
        assert_eq!(expected[cells], OLD, "{name}: more is written");
        let round = 2.0 * ((library - ordinary) + 2.0 * (ordinary - start));
        let rounds = ((SECONDS / round) as usize).clamp(3, ROUNDS) | 1;
        Buffers { pair, rows, source, written, rounds }
    }

    /// The times of the library, of the ordinary version, of reading the rows, and of the ordinary version once more, to see how far it differs from itself.
    pub fn times(&mut self) -> Vec<Times> {
        let Buffers { pair, rows, source, written, rounds } = self;
        let written = RefCell::new(written);
        in_turn(
            *rounds,
            &mut [
                &mut || assert_eq!(library_retile(black_box(rows), black_box(source), &mut written.borrow_mut(), &mut [0; 2], ALL), 0),
                &mut || ordinary_run(black_box(pair), black_box(source), &mut written.borrow_mut()),
                &mut || assert!(library_read(black_box(rows)) <= 1 << 20),
                &mut || ordinary_run(black_box(pair), black_box(source), &mut written.borrow_mut()),
            ],
        )
    }

    /// The times of a whole run in one call and in calls of three allowances, of a call that settles nothing, and of reading the rows.
    pub fn call_times(&mut self, allowances: [u64; 3]) -> Vec<Times> {
        let Buffers { rows, source, written, rounds, .. } = self;
        let written = RefCell::new(written);
        let whole = |allowance| {
            run(black_box(rows), black_box(source), &mut written.borrow_mut(), allowance);
        };
        in_turn(
            *rounds,
            &mut [
                &mut || whole(ALL),
                &mut || whole(allowances[0]),
                &mut || whole(allowances[1]),
                &mut || whole(allowances[2]),
                &mut || assert_eq!(library_retile(black_box(rows), black_box(source), &mut written.borrow_mut(), &mut [0; 2], 0), 0),
                &mut || assert!(library_read(black_box(rows)) <= 1 << 20),
            ],
        )
    }
}
