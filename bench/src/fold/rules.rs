// The four rules for a floordiv or a mod of a folded sum.
use crate::judge::*;
use crate::sum::*;

#[derive(Clone, Copy, PartialEq)]
pub enum Which {
    Floordiv,
    Mod,
}

fn gcd(mut a: i64, mut b: i64) -> i64 {
    while b != 0 {
        (a, b) = (b, a % b);
    }
    a
}

/// c, then the gcds of c with each coefficient, the largest first, above 1.
fn divisors(s: &Sum, c: i64) -> Vec<i64> {
    let mut all: Vec<i64> = s.terms.iter().map(|(_, k)| gcd(c, k.abs())).filter(|&g| g > 1).collect();
    all.push(c);
    all.sort_unstable_by(|a, b| b.cmp(a));
    all.dedup();
    all
}

/// The terms that g divides, divided by it, and the rest.
fn parted(terms: Vec<(Atom, i64)>, g: i64) -> (Vec<(Atom, i64)>, Vec<(Atom, i64)>) {
    let (mut divided, rest): (Vec<_>, Vec<_>) = terms.into_iter().partition(|(_, k)| k % g == 0);
    divided.iter_mut().for_each(|(_, k)| *k /= g);
    (divided, rest)
}

/// S floordiv c or S mod c, folded; S is judged already.
pub fn divided(s: Sum, c: i64, which: Which, bounds: &Bounds) -> Result<Sum, Refused> {
    if c == 1 {
        return Ok(if which == Which::Floordiv { s } else { Sum::constant(0) });
    }
    for g in divisors(&s, c) {
        let rest = s.terms.iter().filter(|(_, k)| k % g != 0);
        let range = judged_range(rest, s.constant.rem_euclid(g), bounds)?;
        let q = range.0.div_euclid(g);
        if range.1.div_euclid(g) == q {
            let (p, r) = parted(s.terms, g);
            let p = Sum::judged(p, s.constant.div_euclid(g) as i128 + q as i128, bounds)?;
            let r = Sum { terms: r, constant: s.constant.rem_euclid(g), range };
            let inner = divided(p, c / g, which, bounds)?;
            return match which {
                Which::Floordiv => Ok(inner),
                Which::Mod => Sum::joined(inner, g, r, -(q as i128 * g as i128), bounds),
            };
        }
    }
    let constant = s.constant.div_euclid(c);
    if constant != 0 || s.terms.iter().any(|(_, k)| k % c == 0) {
        let (leaving, rest) = parted(s.terms, c);
        let rest = Sum::judged(rest, s.constant.rem_euclid(c) as i128, bounds)?;
        let inner = divided(rest, c, which, bounds)?;
        return match which {
            Which::Floordiv => Sum::joined(Sum { terms: leaving, constant, range: (0, 0) }, 1, inner, 0, bounds),
            Which::Mod => Ok(inner),
        };
    }
    match which {
        Which::Floordiv => joined_divisors(s, c, bounds),
        Which::Mod => Ok(Sum::atom(Atom::Mod(Box::new(s), c), bounds)),
    }
}

/// Rule 4: a floordiv of exactly one floordiv takes both divisors at once.
fn joined_divisors(mut s: Sum, c: i64, bounds: &Bounds) -> Result<Sum, Refused> {
    match &s.terms[..] {
        [(Atom::Floordiv(_, a), 1)] if s.constant == 0 && *a as i128 * c as i128 <= MAX_DIVISOR as i128 => {}
        _ => return Ok(Sum::atom(Atom::Floordiv(Box::new(s), c), bounds)),
    }
    match s.terms.pop() {
        Some((Atom::Floordiv(x, a), _)) => divided(*x, a * c, Which::Floordiv, bounds),
        _ => unreachable!(),
    }
}
