// Euclid's algorithm as it is ordinarily written, and the rounds of the two ways.

#[inline(never)]
pub fn gcd(mut a: u64, mut b: u64) -> u64 {
    while b != 0 {
        (a, b) = (b, a % b);
    }
    a
}

/// The rounds of a pair by a remainder.
pub fn rounds((mut a, mut b): (u64, u64), remainder: impl Fn(u64, u64) -> u64) -> u32 {
    let mut rounds = 0;
    while b != 0 {
        (a, b) = (b, remainder(a, b));
        rounds += 1;
    }
    rounds
}

/// The machine's remainder.
pub fn plain(a: u64, b: u64) -> u64 {
    a % b
}

/// The least absolute remainder.
pub fn least(a: u64, b: u64) -> u64 {
    (a % b).min(b - a % b)
}
