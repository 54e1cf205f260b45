// A table of folds: the library now, before, and the ordinary version, in turn, on the maps of the benchmark of folding.
use crate::maps::workloads;
use crate::ordinary;
use crate::record::{Record, Rows};
use crate::shared::measure::in_turn;
use std::hint::black_box;

const ROUNDS: usize = 15;

#[allow(improper_ctypes)]
#[link(name = "fold_bench", kind = "static")]
extern "C" {
    fn fold_rows(c: &[usize], n: &[i64], k: &[u8], c_out: &mut [usize], n_out: &mut [i64], k_out: &mut [u8]) -> u64;
}

#[allow(improper_ctypes)]
#[link(name = "fold_before", kind = "static")]
extern "C" {
    fn fold_rows_before(c: &[usize], n: &[i64], k: &[u8], c_out: &mut [usize], n_out: &mut [i64], k_out: &mut [u8]) -> u64;
}

type Fold = fn(&Rows, &mut Rows) -> u64;

fn now(map: &Rows, out: &mut Rows) -> u64 {
    unsafe { fold_rows(&map.counts, &map.numbers, &map.kinds, &mut out.counts, &mut out.numbers, &mut out.kinds) }
}

fn before(map: &Rows, out: &mut Rows) -> u64 {
    unsafe { fold_rows_before(&map.counts, &map.numbers, &map.kinds, &mut out.counts, &mut out.numbers, &mut out.kinds) }
}

fn plain(map: &Rows, out: &mut Rows) -> u64 {
    let (number, folded) = ordinary::fold(&Record::of_rows(map));
    folded.write(out);
    number
}

fn answer(fold: Fold, map: &Rows) -> (u64, Rows) {
    let mut out = Rows::EMPTY;
    (fold(map, &mut out), out)
}

/// Stops where the versions answer differently or a map is refused.
fn compare(name: &str, maps: &[Rows]) {
    for (k, map) in maps.iter().enumerate() {
        let expected = answer(plain, map);
        assert!(expected.0 == 0, "{name}, map {k} is refused");
        assert!(answer(now, map) == expected && answer(before, map) == expected, "{name}, map {k}: the folded maps differ");
    }
}

fn all(fold: Fold, maps: &[Rows]) {
    let mut out = Rows::EMPTY;
    for map in maps {
        black_box(fold(black_box(map), black_box(&mut out)));
    }
}

fn row(name: &str, maps: &[Rows]) {
    compare(name, maps);
    let mut runs: [&mut dyn FnMut(); 4] = [&mut || all(now, maps), &mut || all(before, maps), &mut || all(plain, maps), &mut || all(before, maps)];
    let times = in_turn(ROUNDS, &mut runs);
    let [library, earlier, plain, again] = &times[..] else { unreachable!() };
    let each = |seconds: f64| seconds * 1e6 / maps.len() as f64;
    println!(
        "| {name} | {:.2} | {:.2} | {:.2} | {} | {} | {} |",
        each(library.best()),
        each(earlier.best()),
        each(plain.best()),
        library.over(earlier),
        library.over(plain),
        again.over(earlier)
    );
}

/// The table: the least time of each version in us a fold, and the ratios.
pub fn report() {
    println!("| maps | now, us | before, us | ordinary, us | now / before | now / ordinary | before / itself |\n|---|---|---|---|---|---|---|");
    for (name, maps) in workloads() {
        row(name, &maps.iter().map(Record::rows).collect::<Vec<_>>());
    }
}
