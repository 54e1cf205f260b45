// Measures greatest common divisors: the library beside an ordinary Rust version, Euclid's algorithm.
mod euclid;
mod pairs;
mod report;
#[path = "../shared/mod.rs"]
mod shared;

use report::{report, Version};

#[link(name = "gcd_bench", kind = "static")]
extern "C" {
    fn gcd_of(a: u64, b: u64) -> u64;
}

fn main() {
    report(&[
        Version { name: "library", gcd: |a, b| unsafe { gcd_of(a, b) } },
        Version { name: "ordinary", gcd: euclid::gcd },
    ]);
}
