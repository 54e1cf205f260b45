// Folding a map as an ordinary Rust program would: sums as sorted vectors, atoms as boxed trees.
use crate::judge::*;
use crate::record::*;
use crate::rules::{divided, Which};
use crate::sum::*;

/// The folded sum of a run of nodes.
fn folded(m: &Record, from: usize, count: usize, bounds: &Bounds) -> Result<Sum, Refused> {
    let mut stack: Vec<Sum> = Vec::new();
    for i in from..from + count {
        let value = m.values[i];
        let sum = match m.kinds[i] {
            VARIABLE => Sum::atom(Atom::Variable(value as usize), bounds),
            CONSTANT => Sum::constant(value),
            SUM => {
                let (b, a) = (stack.pop().unwrap(), stack.pop().unwrap());
                Sum::joined(a, 1, b, 0, bounds)?
            }
            PRODUCT => stack.pop().unwrap().times(value, bounds)?,
            FLOORDIV => divided(stack.pop().unwrap(), value, Which::Floordiv, bounds)?,
            _ => divided(stack.pop().unwrap(), value, Which::Mod, bounds)?,
        };
        stack.push(sum);
    }
    Ok(stack.pop().unwrap())
}

/// The nodes of a sum in postfix order: sums lean left, a coefficient other than 1 is a product.
fn write_sum(s: &Sum, nodes: &mut Vec<(u8, i64)>) {
    let start = nodes.len();
    for (atom, k) in &s.terms {
        let first = nodes.len() == start;
        match atom {
            Atom::Variable(v) => nodes.push((VARIABLE, *v as i64)),
            Atom::Floordiv(s, c) => {
                write_sum(s, nodes);
                nodes.push((FLOORDIV, *c));
            }
            Atom::Mod(s, c) => {
                write_sum(s, nodes);
                nodes.push((MOD, *c));
            }
        }
        if *k != 1 {
            nodes.push((PRODUCT, *k));
        }
        if !first {
            nodes.push((SUM, 0));
        }
    }
    if s.terms.is_empty() {
        nodes.push((CONSTANT, s.constant));
    } else if s.constant != 0 {
        nodes.extend([(CONSTANT, s.constant), (SUM, 0)]);
    }
}

fn folded_map(m: &Record) -> Result<Record, Refused> {
    judge(m)?;
    let bounds = Bounds { lower: &m.lower, upper: &m.upper };
    let sums: Vec<Sum> = run_counts(m)
        .scan(0, |from, count| {
            *from += count;
            Some(folded(m, *from - count, count, &bounds))
        })
        .collect::<Result<_, _>>()?;
    let mut out = Record { dims: m.dims, ranges: m.ranges, results: m.results, ..Record::EMPTY };
    for v in (0..m.dims).chain(8..8 + m.ranges) {
        (out.lower[v], out.upper[v]) = (m.lower[v], m.upper[v]);
    }
    let mut nodes = Vec::new();
    for (k, s) in sums[..m.results].iter().enumerate() {
        let start = nodes.len();
        write_sum(s, &mut nodes);
        out.result_nodes[k] = nodes.len() - start;
    }
    for (k, s) in sums[m.results..].iter().enumerate() {
        let (lower, upper) = (m.constraint_lower[k], m.constraint_upper[k]);
        if lower <= s.range.0 && s.range.1 <= upper {
            continue;
        }
        let start = nodes.len();
        write_sum(s, &mut nodes);
        let n = out.constraints;
        out.constraint_nodes[n] = nodes.len() - start;
        (out.constraint_lower[n], out.constraint_upper[n]) = (lower, upper);
        out.constraints += 1;
    }
    if nodes.len() > 256 {
        return Err(COUNTS);
    }
    for (i, (kind, value)) in nodes.into_iter().enumerate() {
        (out.kinds[i], out.values[i]) = (kind, value);
    }
    Ok(out)
}

/// The verdict's number, 0 for done, and the folded map, all zeros where it is refused.
pub fn fold(m: &Record) -> (u64, Record) {
    match folded_map(m) {
        Ok(out) => (0, out),
        Err(number) => (number, Record::EMPTY),
    }
}
