//! Shares in binary64: the layout card and the fit verdict, each one rounded division of exact counts.

use crate::layout::{padded_size, Layout};
use crate::refusal::Refusal;
use crate::shape::{element_count, Shape, MAX_COUNT};

#[derive(Clone, Copy, Debug, PartialEq)]
pub struct Card {
    pub fill: f64,
    pub waste: f64,
}

#[derive(Clone, Copy, Debug, PartialEq)]
pub enum Fit {
    Fits(f64),
    Over(f64),
}

/// elements/padded and padding/padded (1, 3, 4).
pub fn card(shape: &Shape, layout: &Layout) -> Result<Card, Refusal> {
    let padded = padded_size(shape, layout)?;
    let elements = element_count(shape)?;
    Ok(Card {
        fill: share(elements, padded),
        waste: share(padded - elements, padded),
    })
}

/// The verdict against a cell limit (1, 2, 3, 4).
pub fn fit(shape: &Shape, layout: &Layout, limit: u64) -> Result<Fit, Refusal> {
    element_count(shape)?;
    if limit == 0 || limit > MAX_COUNT {
        return Err(Refusal::Limit);
    }
    let padded = padded_size(shape, layout)?;
    if padded > limit {
        return Ok(Fit::Over(share(padded, limit)));
    }
    Ok(Fit::Fits(share(limit - padded, limit)))
}

/// Both counts are at most 2^40, so they go into binary64 exactly.
fn share(part: u64, whole: u64) -> f64 {
    part as f64 / whole as f64
}
