// The map given, judged by document 01: numbers 2, 7 and 8 before anything is folded.
use crate::record::*;

pub const LIMIT: i64 = 1 << 62;
pub const MAX_DIVISOR: i64 = 1 << 40;
const MAX_BOUND: i64 = 1 << 40;

/// A refusal's number in the table.
pub type Refused = u64;
pub const ATTRIBUTE: Refused = 2;
pub const COUNTS: Refused = 7;
pub const WORKING: Refused = 8;

pub fn within(x: i128) -> Result<i64, Refused> {
    if x.unsigned_abs() <= LIMIT as u128 {
        Ok(x as i64)
    } else {
        Err(WORKING)
    }
}

fn good_interval(lower: i64, upper: i64, most: i64) -> bool {
    lower <= upper && lower >= -most && upper <= most
}

fn good_node(m: &Record, kind: u8, value: i64) -> bool {
    match kind {
        VARIABLE => (value >= 0 && value < m.dims.min(8) as i64) || (value >= 8 && value - 8 < m.ranges.min(8) as i64),
        CONSTANT | PRODUCT => (-LIMIT..=LIMIT).contains(&value),
        SUM => true,
        FLOORDIV | MOD => (1..=MAX_DIVISOR).contains(&value),
        _ => false,
    }
}

/// Whether a run of nodes is exactly one tree.
fn good_tree(m: &Record, from: usize, count: usize) -> bool {
    let mut depth = 0;
    for i in from..from + count {
        if !good_node(m, m.kinds[i], m.values[i]) {
            return false;
        }
        match m.kinds[i] {
            VARIABLE | CONSTANT => depth += 1,
            SUM if depth < 2 => return false,
            SUM => depth -= 1,
            _ if depth < 1 => return false,
            _ => {}
        }
    }
    depth == 1
}

/// The nodes of each run that the record holds, results before constraints.
pub fn run_counts(m: &Record) -> impl Iterator<Item = usize> + '_ {
    let results = &m.result_nodes[..m.results.min(8)];
    results.iter().chain(&m.constraint_nodes[..m.constraints.min(32)]).copied()
}

fn good_parts(m: &Record) -> bool {
    let bounds = (0..m.dims.min(8)).chain(8..8 + m.ranges.min(8));
    let ends = 0..m.constraints.min(32);
    let mut from = 0usize;
    bounds.into_iter().all(|v| good_interval(m.lower[v], m.upper[v], MAX_BOUND))
        && ends.into_iter().all(|k| good_interval(m.constraint_lower[k], m.constraint_upper[k], LIMIT))
        && run_counts(m).all(|count| {
            let at = from;
            from = from.saturating_add(count);
            from > 256 || good_tree(m, at, count)
        })
}

fn good_counts(m: &Record) -> bool {
    let nodes = run_counts(m).fold(0usize, |a, b| a.saturating_add(b));
    m.dims <= 8 && m.ranges <= 8 && m.results <= 8 && m.constraints <= 32 && nodes <= 256
}

/// The range of x floordiv c and of x mod c where x is in [lo, hi].
pub fn floordiv_range((lo, hi): (i64, i64), c: i64) -> (i64, i64) {
    (lo.div_euclid(c), hi.div_euclid(c))
}

pub fn mod_range((lo, hi): (i64, i64), c: i64) -> (i64, i64) {
    if lo.div_euclid(c) == hi.div_euclid(c) {
        (lo.rem_euclid(c), hi.rem_euclid(c))
    } else {
        (0, c - 1)
    }
}

pub fn product_range((lo, hi): (i64, i64), k: i64) -> Result<(i64, i64), Refused> {
    let (a, b) = (lo as i128 * k as i128, hi as i128 * k as i128);
    Ok((within(a.min(b))?, within(a.max(b))?))
}

/// Whether the reckoned range of every node keeps the limit.
fn judge_ranges(m: &Record) -> Result<(), Refused> {
    let mut stack: Vec<(i64, i64)> = Vec::new();
    for i in 0..run_counts(m).sum() {
        let value = m.values[i];
        let range = match m.kinds[i] {
            VARIABLE => (m.lower[value as usize], m.upper[value as usize]),
            CONSTANT => (value, value),
            SUM => {
                let (b, a) = (stack.pop().unwrap(), stack.pop().unwrap());
                (within(a.0 as i128 + b.0 as i128)?, within(a.1 as i128 + b.1 as i128)?)
            }
            PRODUCT => product_range(stack.pop().unwrap(), value)?,
            FLOORDIV => floordiv_range(stack.pop().unwrap(), value),
            _ => mod_range(stack.pop().unwrap(), value),
        };
        stack.push(range);
    }
    Ok(())
}

pub fn judge(m: &Record) -> Result<(), Refused> {
    if !good_parts(m) {
        return Err(ATTRIBUTE);
    }
    if !good_counts(m) {
        return Err(COUNTS);
    }
    judge_ranges(m)
}
