// Measures folding: the library's fold_map beside an ordinary Rust version of document 01's rules.
mod clock;
mod judge;
mod maps;
mod ordinary;
mod record;
mod rules;
mod sum;
mod text;

use clock::{best_of_five, Time};
use record::{Record, Rows};
use std::hint::black_box;

#[allow(improper_ctypes)]
#[link(name = "fold_bench", kind = "static")]
extern "C" {
    /// The number of the library's verdict, and the rows of the answer's map.
    fn fold_rows(c: &[usize], n: &[i64], k: &[u8], c_out: &mut [usize], n_out: &mut [i64], k_out: &mut [u8]) -> u64;
    /// The same without folding: the rows are read and written back.
    fn copy_rows(c: &[usize], n: &[i64], k: &[u8], c_out: &mut [usize], n_out: &mut [i64], k_out: &mut [u8]) -> u64;
}

/// About how many nodes a run folds.
const NODES_A_RUN: usize = 400_000;

fn library_fold(map: &Rows, out: &mut Rows) -> u64 {
    unsafe { fold_rows(&map.counts, &map.numbers, &map.kinds, &mut out.counts, &mut out.numbers, &mut out.kinds) }
}

fn library_copy(map: &Rows, out: &mut Rows) -> u64 {
    unsafe { copy_rows(&map.counts, &map.numbers, &map.kinds, &mut out.counts, &mut out.numbers, &mut out.kinds) }
}

fn ordinary_fold(map: &Rows, out: &mut Rows) -> u64 {
    let (number, folded) = ordinary::fold(&Record::of_rows(map));
    folded.write(out);
    number
}

fn ordinary_copy(map: &Rows, out: &mut Rows) -> u64 {
    black_box(Record::of_rows(map)).write(out);
    0
}

/// Stops where the two versions answer differently.
fn compare(name: &str, maps: &[Rows]) {
    for (k, map) in maps.iter().enumerate() {
        let (mut library, mut plain) = (Rows::EMPTY, Rows::EMPTY);
        let number = library_fold(map, &mut library);
        assert_eq!(number, ordinary_fold(map, &mut plain), "{name}, map {k}: verdict");
        assert!(library == plain, "{name}, map {k}: folded map");
    }
}

fn measure(maps: &[Rows], rounds: usize, work: impl Fn(&Rows, &mut Rows) -> u64) -> Time {
    let mut out = Rows::EMPTY;
    best_of_five(|| {
        for _ in 0..rounds {
            for map in maps {
                black_box(work(black_box(map), black_box(&mut out)));
            }
        }
    })
}

/// Compares the two versions on every map, and measures those that are accepted.
fn workload(name: &str, maps: &[Record], check: bool) {
    let all: Vec<Rows> = maps.iter().map(Record::rows).collect();
    for rows in &all {
        let mut copied = Rows::EMPTY;
        assert!(library_copy(rows, &mut copied) == 0 && copied == *rows, "{name}: rows read and written back");
    }
    if check {
        compare(name, &all);
    }
    let folded: Vec<(u64, Record)> = maps.iter().map(ordinary::fold).collect();
    let accepted: Vec<usize> = (0..maps.len()).filter(|&k| folded[k].0 == 0).collect();
    let size = |m: &Record| judge::run_counts(m).sum::<usize>();
    let nodes: usize = accepted.iter().map(|&k| size(&maps[k])).sum();
    let left: usize = accepted.iter().map(|&k| size(&folded[k].1)).sum();
    let refused = maps.len() - accepted.len();
    println!("{name}: {} maps of {nodes} nodes, {left} after folding; {refused} refused", accepted.len());
    let rows: Vec<Rows> = accepted.iter().map(|&k| all[k].clone()).collect();
    report(&rows, 1 + NODES_A_RUN / nodes);
}

fn report(rows: &[Rows], rounds: usize) {
    let folds = (rounds * rows.len()) as f64;
    let (library, library_rows) = (measure(rows, rounds, library_fold), measure(rows, rounds, library_copy));
    let (plain, plain_rows) = (measure(rows, rounds, ordinary_fold), measure(rows, rounds, ordinary_copy));
    for (version, time, copy) in [("library", &library, &library_rows), ("ordinary", &plain, &plain_rows)] {
        println!(
            "  {version:8} {:8.0} folds a second (thread time {:8.0}), {:7.2} us a fold, of which the rows take {:.2} us",
            folds / time.wall,
            folds / time.thread,
            time.thread * 1e6 / folds,
            copy.thread * 1e6 / folds
        );
    }
    println!(
        "  ratio    {:8.2} (thread time {:.2}, without the rows {:.2})",
        library.wall / plain.wall,
        library.thread / plain.thread,
        (library.thread - library_rows.thread) / (plain.thread - plain_rows.thread)
    );
}

/// The ordinary version's answers to `fold MAP` requests, one to a line.
fn answer() {
    for line in std::io::stdin().lines() {
        let line = line.unwrap();
        match line.trim_start().strip_prefix("fold").and_then(text::read) {
            None => println!("error: not read"),
            Some(map) => match ordinary::fold(&map) {
                (0, folded) => println!("{}", text::print(&folded)),
                (number, _) => println!("refused {number}"),
            },
        }
        println!();
    }
}

/// A map of the benchmark as a request.
fn request(map: &Record) {
    println!("fold {}", text::print(map).replace('\n', " "));
}

fn main() {
    let word = std::env::args().nth(1).unwrap_or_default();
    let workloads = maps::workloads();
    match word.as_str() {
        "answer" => answer(),
        "requests" => workloads.iter().flat_map(|(_, maps)| maps).for_each(request),
        _ => workloads.iter().for_each(|(name, maps)| workload(name, maps, word != "unchecked")),
    }
}
