// Measures the library beside itself with one crate as it was before, in one process and in turn: greatest common divisors and folding.
#[path = "../gcd/euclid.rs"]
mod euclid;
mod folds;
#[path = "../gcd/report.rs"]
mod gcds;
#[path = "../fold/judge.rs"]
mod judge;
#[path = "../fold/maps.rs"]
mod maps;
#[path = "../fold/ordinary.rs"]
mod ordinary;
#[path = "../gcd/pairs.rs"]
mod pairs;
#[path = "../fold/record.rs"]
mod record;
#[path = "../fold/rules.rs"]
mod rules;
#[path = "../shared/mod.rs"]
mod shared;
#[path = "../fold/sum.rs"]
mod sum;

use gcds::Version;

#[link(name = "gcd_bench", kind = "static")]
extern "C" {
    fn gcd_of(a: u64, b: u64) -> u64;
}

#[link(name = "gcd_before", kind = "static")]
extern "C" {
    fn gcd_of_before(a: u64, b: u64) -> u64;
}

fn main() {
    gcds::report(&[
        Version { name: "now", gcd: |a, b| unsafe { gcd_of(a, b) } },
        Version { name: "before", gcd: |a, b| unsafe { gcd_of_before(a, b) } },
        Version { name: "ordinary", gcd: euclid::gcd },
    ]);
    println!();
    folds::report();
}
