// Measures re-tiling: the library, which moves a mark past each cell it settles, beside an ordinary version that unpacks and packs and has no mark.
// `run retile` measures every pair of the list and the cost of a call, `run retile list` the list alone, `run retile calls` the cost of a call;
// `run retile random SEED N` compares and measures N random pairs. One more word, as in `run retile list [4096,1024]`, leaves only the pairs that
// have it in their names.
mod buffers;
mod ordinary;
mod pairs;
mod random;
#[path = "../shared/mod.rs"]
mod shared;

use buffers::Buffers;
use pairs::Pair;
use shared::measure::short;

#[allow(improper_ctypes)]
#[link(name = "retile_bench", kind = "static")]
extern "C" {
    /// The number of the library's refusal or 0, by the source's row and the destination's; the mark, and how many cells were settled.
    fn retile_any(rows: &[u64], source: &[u32], cells: &mut [u32], mark: &mut [u64], allowance: u64) -> u64;
    /// The rows without re-tiling: what reading them costs.
    fn read_rows(rows: &[u64]) -> u64;
}

pub fn library_retile(rows: &[u64], source: &[u32], cells: &mut [u32], mark: &mut [u64; 2], allowance: u64) -> u64 {
    unsafe { retile_any(rows, source, cells, mark, allowance) }
}

pub fn library_read(rows: &[u64]) -> u64 {
    unsafe { read_rows(rows) }
}

/// One line of the table.
fn report(pair: &Pair) {
    let mut buffers = Buffers::checked(pair);
    let times = buffers.times();
    let [library, plain, rows, again] = &times[..] else { unreachable!() };
    let a_cell = |seconds: f64| seconds * 1e9 / pair.cells() as f64;
    println!(
        "| {} | {} | {:.2} | {:.2} | {} | {:.3} | {:.3} | {} | {} |",
        pair.name(),
        pair.cells(),
        a_cell(library.best()),
        a_cell(plain.best()),
        library.over(plain),
        library.best_over(plain),
        library.less(rows.best()).median_over(plain),
        again.over(plain),
        buffers.rounds
    );
}

fn report_list(part: &str) {
    println!("The ordinary version unpacks into a vector and packs that; it has no mark and no steps. A cell is one of the destination's, its time the least.");
    println!("| pair | cells | library, ns a cell | ordinary, ns a cell | library / ordinary | of the least times | without the rows | ordinary / itself | rounds |");
    println!("|---|---|---|---|---|---|---|---|---|");
    pairs::listed().iter().filter(|pair| pair.name().contains(part)).for_each(report);
}

/// A whole run in calls of several allowances beside one call.
fn report_calls() {
    const ALLOWANCES: [u64; 3] = [1, 64, 4096];
    let pair = pairs::in_calls();
    let mut buffers = Buffers::checked(&pair);
    let times = buffers.call_times(ALLOWANCES);
    let (whole, none, rows) = (&times[0], &times[4], &times[5]);
    println!("{} in calls of several allowances, {} cells, {} rounds", pair.name(), pair.cells(), buffers.rounds);
    println!("| allowance | ns a cell | over one call | a call more |\n|---|---|---|---|");
    let a_cell = |seconds: f64| seconds * 1e9 / pair.cells() as f64;
    println!("| all | {:.2} | | |", a_cell(whole.best()));
    for (allowance, run) in ALLOWANCES.iter().zip(&times[1..]) {
        let more = (pair.cells() as u64 / allowance) as f64;
        println!("| {allowance} | {:.2} | {} | {} |", a_cell(run.best()), run.over(whole), short((run.best() - whole.best()) / more));
    }
    println!("A call of allowance 0 takes {}, of which reading the rows {}.", short(none.best()), short(rows.best()));
}

fn main() {
    let words: Vec<String> = std::env::args().skip(1).collect();
    let number = |k: usize, other: u64| words.get(k).map_or(other, |w| w.parse().expect("a number"));
    let part = words.get(1).map_or("", |w| w);
    match words.first().map_or("", |w| w) {
        "random" => random::report(number(1, 1), number(2, 100).max(1) as usize),
        "list" => report_list(part),
        "calls" => report_calls(),
        _ => {
            report_list("");
            println!();
            report_calls();
        }
    }
}
