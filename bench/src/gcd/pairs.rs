// The benchmark's pairs: divisors with the sizes of coefficients, from fixed seeds, and neighbouring Fibonacci and Pell numbers.
use crate::shared::cases::Random;

/// Pairs in a row of a table.
const COUNT: usize = 1000;

/// The largest divisor of a map and the largest size of a coefficient.
const MAX_DIVISOR: u64 = 1 << 40;
const LIMIT: u64 = 1 << 62;

pub struct Workload {
    pub name: &'static str,
    pub pairs: Vec<(u64, u64)>,
}

/// A number from `least` to 2^bits, of random length in binary.
fn short(random: &mut Random, least: u64, bits: u64) -> u64 {
    let length = random.below(bits + 1);
    least + random.below((1 << length) + 1 - least)
}

fn many(name: &'static str, seed: u64, pair: impl Fn(&mut Random) -> (u64, u64)) -> Workload {
    let mut random = Random(seed);
    Workload { name, pairs: (0..COUNT).map(|_| pair(&mut random)).collect() }
}

/// The two largest u64 of a sequence that grows by next = times * last + the one before, the smaller first. Fibonacci numbers (times = 1) take many of
/// Euclid's rounds, Pell numbers (times = 2) many by least absolute remainders.
fn neighbours(name: &'static str, times: u64) -> Workload {
    let (mut last, mut next) = (1u64, times);
    let grown = |last: u64, next: u64| next.checked_mul(times)?.checked_add(last);
    while let Some(n) = grown(last, next) {
        (last, next) = (next, n);
    }
    Workload { name, pairs: vec![(last, next); COUNT] }
}

pub fn workloads() -> Vec<Workload> {
    vec![
        many("divisors to 2^40, coefficients to 2^62", 1, |r| (1 + r.below(MAX_DIVISOR), r.below(LIMIT + 1))),
        many("the same of random length", 2, |r| (short(r, 1, 40), short(r, 0, 62))),
        many("divisors to 2^10, coefficients to 2^20", 3, |r| (short(r, 1, 10), short(r, 0, 20))),
        many("any two u64", 4, |r| (r.below(u64::MAX), r.below(u64::MAX))),
        neighbours("Fibonacci numbers of 64 bits", 1),
        neighbours("Pell numbers of 64 bits", 2),
    ]
}
