// Measures a route and trees of 64 stations of 8 layouts with K = 63: the library beside ordinary dynamic programmes.
mod ordinary;
mod ordinary_tree;
mod stations;

use std::hint::black_box;
use std::time::Instant;

use stations::FORMS;

#[link(name = "route_bench", kind = "static")]
extern "C" {
    fn route_total(seed: u64, moves: u64) -> u64;
    fn tree_total(form: u64, seed: u64, moves: u64) -> u64;
    fn stations_only(seed: u64) -> u64;
}

const RUNS: u64 = 2000;
const TREE_RUNS: u64 = 400;
const MOVES: u64 = 63;

/// Microseconds for a call, the best of five rounds of so many.
fn best_of_five(runs: u64, mut run: impl FnMut(u64)) -> f64 {
    let mut best = f64::MAX;
    for _ in 0..5 {
        let start = Instant::now();
        for seed in 0..runs {
            run(black_box(seed));
        }
        best = best.min(start.elapsed().as_secs_f64());
    }
    best * 1e6 / runs as f64
}

/// What the ordinary programme gives a tree made from a seed.
fn ordinary_tree(form: usize, seed: u64, moves: u64) -> Option<ordinary::Route> {
    ordinary_tree::tree(&stations::stations(seed), &stations::parents(form, seed), moves as usize)
}

/// Every version gives the same totals, and the ordinary ones the same places on a chain.
fn agree(seed: u64, moves: u64) {
    let plain = ordinary::route(&stations::stations(seed), moves as usize);
    assert!(plain.as_ref().map_or(true, |route| route.places.len() == 64));
    assert_eq!(ordinary_tree(0, seed, moves), plain, "seed {seed}, {moves} moves");
    let library = unsafe { route_total(seed, moves) };
    assert_eq!(library, plain.map_or(0, |route| route.total), "seed {seed}, {moves} moves");
    for (form, name) in FORMS.iter().enumerate() {
        let library = unsafe { tree_total(form as u64, seed, moves) };
        let plain = ordinary_tree(form, seed, moves);
        assert_eq!(library, plain.map_or(0, |plan| plan.total), "{name} tree, seed {seed}, {moves} moves");
    }
}

fn measure_routes() {
    let library = best_of_five(RUNS, |seed| {
        black_box(unsafe { route_total(seed, MOVES) });
    });
    let still = best_of_five(RUNS, |seed| {
        black_box(unsafe { route_total(seed, 0) });
    });
    let plain = best_of_five(RUNS, |seed| {
        black_box(ordinary::route(&stations::stations(seed), MOVES as usize));
    });
    let made = best_of_five(RUNS, |seed| {
        black_box(unsafe { stations_only(seed) });
    });
    let made_plain = best_of_five(RUNS, |seed| {
        black_box(stations::stations(seed));
    });
    println!("library   {library:8.1} us a route, of which {made:.1} us make the stations");
    println!("ordinary  {plain:8.1} us a route, of which {made_plain:.1} us make the stations");
    println!("library, K = 0  {still:.1} us a route");
    println!("ratio     {:8.2}", (library - made) / (plain - made_plain));
}

/// The making of the stations is taken off on both sides.
fn measure_trees(form: usize) {
    let made = best_of_five(TREE_RUNS, |seed| {
        black_box(unsafe { stations_only(seed) });
    });
    let made_plain = best_of_five(TREE_RUNS, |seed| {
        black_box((stations::stations(seed), stations::parents(form, seed)));
    });
    let library = best_of_five(TREE_RUNS, |seed| {
        black_box(unsafe { tree_total(form as u64, seed, MOVES) });
    });
    let plain = best_of_five(TREE_RUNS, |seed| {
        black_box(ordinary_tree(form, seed, MOVES));
    });
    let (library, plain) = (library - made, plain - made_plain);
    let (name, ratio) = (FORMS[form], library / plain);
    println!("{name:6} tree  library {library:8.1} us, ordinary {plain:8.1} us, ratio {ratio:6.2}");
}

fn main() {
    for moves in [0, 1, 5, 20, MOVES] {
        (0..200).for_each(|seed| agree(seed, moves));
    }
    measure_routes();
    (0..FORMS.len()).for_each(measure_trees);
}
