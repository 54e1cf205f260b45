//! The four folding rules for S floordiv c and S mod c.

use crate::fold_sum::{Atom, Division, Sum};
use crate::map::{Map, MAX_DIVISOR};
use crate::map_range::{floordiv, modulo};
use crate::refusal::Refusal;

#[derive(Clone, Copy, Debug, PartialEq, Eq)]
pub enum Word {
    Floordiv,
    Mod,
}

/// S parted by a number g: g * P + R, P with the constant's floor and R with the rest.
struct Parts {
    multiple: Sum,
    rest: Sum,
}

/// The outcome for S floordiv c or S mod c, judged (8).
pub fn fold_division(map: &Map, word: Word, sum: Sum, divisor: i128) -> Result<Sum, Refusal> {
    sum.judged_range(map)?;
    let outcome = outcome(map, word, sum, divisor)?;
    outcome.judged_range(map)?;
    Ok(outcome)
}

/// The first rule that applies; where none does, an atom.
fn outcome(map: &Map, word: Word, sum: Sum, divisor: i128) -> Result<Sum, Refusal> {
    if divisor == 1 {
        return Ok(match word {
            Word::Floordiv => sum,
            Word::Mod => Sum::constant(0),
        });
    }
    for g in candidates(&sum, divisor) {
        let parts = parted(&sum, g);
        let range = parts.rest.judged_range(map)?;
        let q = floordiv(range.low, g);
        if floordiv(range.high, g) == q {
            return rest_fits(map, word, parts, g, q, divisor);
        }
    }
    let leaving = leaving(&sum, divisor);
    if leaving != Sum::constant(0) {
        let stays = sum.plus(&leaving.times(-divisor));
        let inner = fold_division(map, word, stays, divisor)?;
        return Ok(match word {
            Word::Floordiv => inner.plus(&leaving),
            Word::Mod => inner,
        });
    }
    if word == Word::Floordiv {
        if let Some(inner) = only_floordiv(&sum, divisor) {
            return fold_division(map, word, inner.sum.clone(), inner.divisor * divisor);
        }
        return Ok(Sum::atom(Atom::Floordiv(Division { divisor, sum })));
    }
    Ok(Sum::atom(Atom::Mod(Division { divisor, sum })))
}

/// Rule 2's numbers: c, then its gcds with the coefficients, the largest first, each once, above 1.
fn candidates(sum: &Sum, divisor: i128) -> Vec<i128> {
    let gcds = sum.terms.iter().map(|term| gcd(divisor, term.1.abs()));
    let mut candidates: Vec<i128> = gcds.chain([divisor]).filter(|g| *g > 1).collect();
    candidates.sort();
    candidates.dedup();
    candidates.reverse();
    candidates
}

fn gcd(a: i128, b: i128) -> i128 {
    if b == 0 {
        return a;
    }
    gcd(b, a % b)
}

fn parted(sum: &Sum, g: i128) -> Parts {
    let mut multiple = Sum::constant(floordiv(sum.constant, g));
    let mut rest = Sum::constant(modulo(sum.constant, g));
    for (atom, coefficient) in &sum.terms {
        if coefficient % g == 0 {
            multiple.terms.push((atom.clone(), coefficient / g));
        } else {
            rest.terms.push((atom.clone(), *coefficient));
        }
    }
    Parts { multiple, rest }
}

/// Rule 2 with the g that fits: R lies in [q*g, q*g + g - 1].
fn rest_fits(
    map: &Map,
    word: Word,
    parts: Parts,
    g: i128,
    q: i128,
    divisor: i128,
) -> Result<Sum, Refusal> {
    let multiple = parts.multiple.plus(&Sum::constant(q));
    let inner = fold_division(map, word, multiple, divisor / g)?;
    Ok(match word {
        Word::Floordiv => inner,
        Word::Mod => {
            let scaled = inner.times(g).plus(&parts.rest);
            scaled.plus(&Sum::constant(-q * g))
        }
    })
}

/// Rule 3: the terms that c divides and the constant's multiple of c, divided by c.
fn leaving(sum: &Sum, divisor: i128) -> Sum {
    let mut leaving = Sum::constant(floordiv(sum.constant, divisor));
    for (atom, coefficient) in &sum.terms {
        if coefficient % divisor == 0 {
            leaving.terms.push((atom.clone(), coefficient / divisor));
        }
    }
    leaving
}

/// Rule 4: the one floordiv of which the sum consists, if the divisors' product keeps its limit.
fn only_floordiv(sum: &Sum, divisor: i128) -> Option<&Division> {
    match &sum.terms[..] {
        [(Atom::Floordiv(inner), 1)]
            if sum.constant == 0 && inner.divisor * divisor <= MAX_DIVISOR =>
        {
            Some(inner)
        }
        _ => None,
    }
}
