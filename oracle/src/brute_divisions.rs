//! Brute force on divisions: quotients by every multiplier, compared with plain division, at both ends of the numbers below 2^24.

use crate::brute::Tally;
use crate::division::{multiplier, quotient, MAX_DIVISOR};

/// Numbers below this one are divided by way of the multipliers.
const REACHED: u64 = 1 << 24;

/// As many numbers as are tried at each end. They hold the number just below a multiple of every divisor.
const TRIED: u64 = 2 * MAX_DIVISOR;

pub fn brute_divisions(tally: &mut Tally) -> Result<(), String> {
    for divisor in 1..=MAX_DIVISOR {
        for number in (0..TRIED).chain(REACHED - TRIED..REACHED) {
            let by_entry = multiplier(divisor).map(|entry| (number * entry) >> 34);
            tally
                .agree(by_entry == quotient(number, divisor), "a quotient")
                .map_err(|what| format!("{what}: {number} by {divisor}"))?;
        }
    }
    Ok(())
}
