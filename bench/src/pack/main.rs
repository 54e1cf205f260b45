// Measures packing and unpacking: the library beside two ordinary packers with the machine's division, one over arrays and
// one over vectors, and beside a copy of the padded size.
// `run pack` measures every case of the list, `run pack list` the main ones, `run pack plain` the plain loop with and without the multipliers
// on the main ones; `run pack random SEED N` compares and measures N random cases, `run pack few SEED N` such of at most 64 elements. One more word, as in `run pack all [4096,1024]` or
// `run pack plain [4096,1024]`, leaves only the cases that have it in their names.
mod buffers;
mod list;
mod random;
mod refused;
#[path = "../shared/mod.rs"]
mod shared;
mod vectors;

use buffers::Buffers;
use shared::cases::{Case, Random};
use shared::measure::short;

#[allow(improper_ctypes)]
#[link(name = "pack_bench", kind = "static")]
extern "C" {
    /// The number of the library's verdict, by the shape and the layout of a row.
    fn pack_any(row: &[u64], source: &[u32], cells: &mut [u32]) -> u64;
    fn unpack_any(row: &[u64], cells: &[u32], destination: &mut [u32]) -> u64;
    /// The row without packing: what reading it costs.
    fn read_any(row: &[u64]) -> u64;
    /// The plain loop; the row's last number says whether the multipliers are lent.
    fn pack_plainly(row: &[u64], source: &[u32], cells: &mut [u32]) -> u64;
}

pub fn library_pack(row: &[u64], source: &[u32], cells: &mut [u32]) -> u64 {
    unsafe { pack_any(row, source, cells) }
}

pub fn library_unpack(row: &[u64], cells: &[u32], destination: &mut [u32]) -> u64 {
    unsafe { unpack_any(row, cells, destination) }
}

pub fn plain_pack(row: &[u64], source: &[u32], cells: &mut [u32]) -> u64 {
    unsafe { pack_plainly(row, source, cells) }
}

pub fn library_read(row: &[u64]) -> u64 {
    unsafe { read_any(row) }
}

const ROUNDS: usize = 15;

/// One line of a table for packing, and one for unpacking.
fn report(case: &Case) {
    let mut buffers = Buffers::checked(case);
    for what in ["pack", "unpack"] {
        let times = if what == "pack" { buffers.pack_times(case, ROUNDS) } else { buffers.unpack_times(case, ROUNDS) };
        let [library, plain, vectors, copy, row, again] = &times[..] else { unreachable!() };
        println!(
            "| {} | {what} | {} | {} | {} | {} | {} | {:.2} | {:.2} | {} |",
            case.name(),
            library.over(plain),
            library.over(vectors),
            short(library.best()),
            short(plain.best()),
            short(copy.best()),
            library.best() / copy.best(),
            library.less(row.best()).median_over(plain),
            again.over(plain)
        );
    }
}

fn report_plain(case: &Case) {
    let times = Buffers::checked(case).plain_times(case, ROUNDS);
    let [division, table, plain] = &times[..] else { unreachable!() };
    println!(
        "| {} | {} | {} | {} | {} | {} | {} |",
        case.name(),
        table.over(division),
        division.over(plain),
        table.over(plain),
        short(division.best()),
        short(table.best()),
        short(plain.best())
    );
}

fn main() {
    let words: Vec<String> = std::env::args().skip(1).collect();
    let number = |k: usize, other: u64| words.get(k).map_or(other, |w| w.parse().expect("a number"));
    let part = words.get(1).map_or("", |w| w);
    let listed = |all| list::listed(all).into_iter().filter(|c| c.name().contains(part));
    refused::compare();
    match words.first().map_or("", |w| w) {
        "random" => random::report(number(1, 1), number(2, 100).max(1) as usize, Random::any_case),
        "few" => random::report(number(1, 1), number(2, 100).max(1) as usize, Random::few_case),
        "plain" => {
            println!("| case | table / division | division / ordinary | table / ordinary | division | table | ordinary |\n|---|---|---|---|---|---|---|");
            listed(false).for_each(|c| report_plain(&c));
        }
        word => {
            println!("| case | call | library / ordinary | library / ordinary over vectors | library | ordinary | copy | library / copy | without the row | ordinary / itself |");
            println!("|---|---|---|---|---|---|---|---|---|---|");
            listed(word != "list").for_each(|c| report(&c));
        }
    }
}
