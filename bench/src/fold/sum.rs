// Folded sums: coefficient times atom, sorted by atom, plus a constant; each is judged and has its range.
use crate::judge::*;
use std::cmp::Ordering;

pub enum Atom {
    Variable(usize),
    Floordiv(Box<Sum>, i64),
    Mod(Box<Sum>, i64),
}

pub struct Sum {
    pub terms: Vec<(Atom, i64)>,
    pub constant: i64,
    pub range: (i64, i64),
}

/// The bounds of the variables by their places.
pub struct Bounds<'a> {
    pub lower: &'a [i64; 24],
    pub upper: &'a [i64; 24],
}

impl Atom {
    fn kind(&self) -> u8 {
        match self {
            Atom::Variable(_) => 0,
            Atom::Floordiv(..) => 1,
            Atom::Mod(..) => 2,
        }
    }

    /// Document 01's order of atoms.
    fn order(&self, other: &Atom) -> Ordering {
        match (self, other) {
            (Atom::Variable(a), Atom::Variable(b)) => a.cmp(b),
            (Atom::Floordiv(s, c), Atom::Floordiv(t, d)) | (Atom::Mod(s, c), Atom::Mod(t, d)) => {
                c.cmp(d).then_with(|| s.order(t))
            }
            _ => self.kind().cmp(&other.kind()),
        }
    }

    fn range(&self, bounds: &Bounds) -> (i64, i64) {
        match self {
            Atom::Variable(v) => (bounds.lower[*v], bounds.upper[*v]),
            Atom::Floordiv(s, c) => floordiv_range(s.range, *c),
            Atom::Mod(s, c) => mod_range(s.range, *c),
        }
    }
}

impl Sum {
    fn order(&self, other: &Sum) -> Ordering {
        let mut order = self.terms.len().cmp(&other.terms.len());
        for ((a, j), (b, k)) in self.terms.iter().zip(&other.terms) {
            if order != Ordering::Equal {
                return order;
            }
            order = a.order(b).then_with(|| j.cmp(k));
        }
        order.then_with(|| self.constant.cmp(&other.constant))
    }

    pub fn constant(k: i64) -> Sum {
        Sum { terms: Vec::new(), constant: k, range: (k, k) }
    }

    pub fn atom(atom: Atom, bounds: &Bounds) -> Sum {
        let range = atom.range(bounds);
        Sum { terms: vec![(atom, 1)], constant: 0, range }
    }

    /// The sum of sorted terms and a constant, judged: number 8 where it passes the limit.
    pub fn judged(terms: Vec<(Atom, i64)>, constant: i128, bounds: &Bounds) -> Result<Sum, Refused> {
        let constant = within(constant)?;
        let range = judged_range(terms.iter(), constant, bounds)?;
        Ok(Sum { terms, constant, range })
    }

    /// This sum times k, judged.
    pub fn times(self, k: i64, bounds: &Bounds) -> Result<Sum, Refused> {
        if k == 0 {
            return Ok(Sum::constant(0));
        }
        let mut terms = self.terms;
        for (_, j) in &mut terms {
            *j = within(*j as i128 * k as i128)?;
        }
        Sum::judged(terms, self.constant as i128 * k as i128, bounds)
    }

    /// k * a + b + more, like atoms merged and zero terms gone, judged.
    pub fn joined(a: Sum, k: i64, b: Sum, more: i128, bounds: &Bounds) -> Result<Sum, Refused> {
        let constant = k as i128 * a.constant as i128 + b.constant as i128 + more;
        let mut terms = Vec::with_capacity(a.terms.len() + b.terms.len());
        let mut left = a.terms.into_iter().peekable();
        let mut right = b.terms.into_iter().peekable();
        loop {
            let order = match (left.peek(), right.peek()) {
                (Some((a, _)), Some((b, _))) => a.order(b),
                (Some(_), None) => Ordering::Less,
                (None, Some(_)) => Ordering::Greater,
                (None, None) => break,
            };
            let i = if order.is_le() { left.next() } else { None };
            let j = if order.is_ge() { right.next() } else { None };
            let whole = i.as_ref().map_or(0, |t| t.1 as i128 * k as i128) + j.as_ref().map_or(0, |t| t.1 as i128);
            if whole != 0 {
                terms.push((i.or(j).unwrap().0, within(whole)?));
            }
        }
        Sum::judged(terms, constant, bounds)
    }
}

/// The range of terms and a constant, each term and each prefix judged.
pub fn judged_range<'a>(
    terms: impl Iterator<Item = &'a (Atom, i64)>,
    constant: i64,
    bounds: &Bounds,
) -> Result<(i64, i64), Refused> {
    let added = |a: i64, b: i64| within(a as i128 + b as i128);
    let mut range = (0, 0);
    for (atom, k) in terms {
        let term = product_range(atom.range(bounds), *k)?;
        range = (added(range.0, term.0)?, added(range.1, term.1)?);
    }
    Ok((added(range.0, constant)?, added(range.1, constant)?))
}
