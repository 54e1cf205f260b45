//! Division by tile entries: the multipliers of request Q-8, and quotients.

use crate::refusal::Refusal;

pub const MAX_DIVISOR: u64 = 1024;

/// The multiplier of a divisor: the floor of 2^34/d, plus 1 (2).
pub fn multiplier(divisor: u64) -> Result<u64, Refusal> {
    judge(divisor)?;
    Ok((1 << 34) / divisor + 1)
}

/// A number floor-divided by a divisor (2).
pub fn quotient(number: u64, divisor: u64) -> Result<u64, Refusal> {
    judge(divisor)?;
    Ok(number / divisor)
}

fn judge(divisor: u64) -> Result<(), Refusal> {
    if (1..=MAX_DIVISOR).contains(&divisor) {
        return Ok(());
    }
    Err(Refusal::Limit)
}
