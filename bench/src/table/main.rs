// Measures the judge of a table of 4,096 offsets, and the question which of 64 layouts makes it: the library beside
// ordinary versions, whose pairs are found by nested loops, by sorting and with a hash map.
mod list;
mod ordinary;
#[path = "../shared/mod.rs"]
mod shared;

use ordinary::{by_hashing, by_loops, by_sorting, judge, which, Finding, Search, Table};
use shared::cases::{Case, ROW};
use shared::measure::{in_turn, short, Times};
use shared::packer::Layout;
use std::hint::black_box;

#[allow(improper_ctypes)]
#[link(name = "table_bench", kind = "static")]
extern "C" {
    /// 0 for sound, 1 for outside, 2 for shared, 1,000 for refused.
    fn judge_any(row: &[u64], table: &[u64], padded: u64) -> u64;
    /// The place of the first layout of the rows that makes the table, or 1,000.
    fn which_any(rows: &[u64], table: &[u64], padded: u64, count: usize) -> u64;
}

const ROUNDS: usize = 15;
const REFUSED: u64 = 1000;
const SEARCHES: [(&str, Search); 3] = [("nested loops", by_loops), ("sorting", by_sorting), ("hash map", by_hashing)];

fn library_judge(rows: &[u64], table: &Table) -> u64 {
    unsafe { judge_any(rows, &table.offsets, table.padded) }
}

fn library_which(rows: &[u64], table: &Table) -> u64 {
    unsafe { which_any(rows, &table.offsets, table.padded, rows.len() / ROW) }
}

/// The rows that the library's side reads, one for each layout.
fn rows(sizes: &[u64], layouts: &[Layout]) -> Vec<u64> {
    let row = |layout: &Layout| Case { sizes: sizes.to_vec(), layout: layout.clone() }.row(0)[..ROW].to_vec();
    layouts.iter().flat_map(row).collect()
}

/// Every version finds the same: nothing, the last pair and an offset outside.
fn check(table: &mut Table, layouts: &[Layout], rows: &[u64]) {
    let last = table.offsets.len() - 1;
    assert_eq!((library_judge(rows, table), library_which(rows, table)), (0, 63));
    assert_eq!(library_which(&rows[..63 * ROW], table), REFUSED);
    for (name, search) in SEARCHES {
        assert_eq!(judge(table, search), Ok(Finding::Sound), "{name}");
        assert_eq!(which(table, layouts, search), Ok(63), "{name}");
        assert_eq!(which(table, &layouts[..63], search), Err(ordinary::NO_LAYOUT), "{name}");
        let faults = [(table.offsets[7], Finding::Shared(7, last), 2), (table.padded, Finding::Outside(last), 1)];
        for (offset, found, number) in faults {
            let own = std::mem::replace(&mut table.offsets[last], offset);
            assert_eq!(judge(table, search), Ok(found), "{name}");
            assert_eq!(which(table, layouts, search), Err(ordinary::LENGTH), "{name}");
            assert_eq!((library_judge(rows, table), library_which(rows, table)), (number, REFUSED));
            table.offsets[last] = own;
        }
    }
}

/// The library's line, and one for each ordinary version.
fn report(question: &str, times: &[Times]) {
    let names = ["library", "nested loops", "sorting", "hash map"];
    for (name, time) in names.iter().zip(times) {
        println!("| {question} | {name} | {} | {} |", short(time.best()), time.over(&times[1]));
    }
}

/// Times the question in turn; every version gives the same answer.
fn ask(question: &str, table: &Table, layouts: &[Layout]) {
    let rows = rows(&table.sizes, layouts);
    let expected = which(table, layouts, by_loops);
    assert_eq!(library_which(&rows, table), expected.map_or(REFUSED, |place| place as u64));
    let mut library = || {
        black_box(library_which(black_box(&rows), black_box(table)));
    };
    let [mut loops, mut sorting, mut hashing] = SEARCHES.map(|(_, search)| {
        move || assert_eq!(black_box(which(black_box(table), black_box(layouts), search)), expected)
    });
    report(question, &in_turn(ROUNDS, &mut [&mut library, &mut loops, &mut sorting, &mut hashing]));
}

fn main() {
    let (mut table, layouts) = (list::table(), list::layouts());
    let rows = rows(&table.sizes, &layouts);
    check(&mut table, &layouts, &rows);
    println!("| question | version | least time | over nested loops |\n|---|---|---|---|");
    let mut library = || {
        black_box(library_judge(black_box(&rows), black_box(&table)));
    };
    let [mut loops, mut sorting, mut hashing] = SEARCHES.map(|(_, search)| {
        let table = &table;
        move || {
            black_box(judge(black_box(table), search)).unwrap();
        }
    });
    report("judge", &in_turn(ROUNDS, &mut [&mut library, &mut loops, &mut sorting, &mut hashing]));
    ask("which of 64, the last", &table, &layouts);
    let (swapped, layouts) = list::swapped();
    ask("which of 64, none, seen at the end", &swapped, &layouts);
}
