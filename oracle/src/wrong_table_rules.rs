//! Rules for the judge of tables that are not those of document 02, Q-10: some table must show each of them.

use crate::offset_table::Finding;
use crate::offset_table_by_trial::{Cause, Rules, RULES};
use crate::offset_table_findings::{Findings, Pair};
use crate::refusal::Refusal;

pub const WRONG_TABLE_RULES: [(&str, Rules); 11] = [
    ("the earlier element is searched first", found(by_earlier)),
    ("the pair in the lowest cell is named", found(by_cell)),
    ("only neighbours are compared", found(neighbours)),
    (
        "an offset outside is sought only up to the first pair",
        found(in_one_pass),
    ),
    (
        "a pair is sought before an offset outside",
        found(pair_first),
    ),
    ("an offset outside is refused with 5", found(refused)),
    (
        "the padded size is an offset inside",
        Rules {
            is_inside: |offset, padded| offset <= padded,
            ..RULES
        },
    ),
    (
        "a longer table is accepted",
        Rules {
            is_length: |elements, offsets| elements <= 4096 && offsets as u64 >= elements,
            ..RULES
        },
    ),
    (
        "a shorter table is accepted",
        Rules {
            is_length: |elements, offsets| elements <= 4096 && offsets as u64 <= elements,
            ..RULES
        },
    ),
    (
        "fewer cells than elements are refused",
        Rules {
            judge: &[Cause::Shape, Cause::Length, Cause::FewCells, Cause::Padded],
            ..RULES
        },
    ),
    (
        "4 is judged before a table's length",
        Rules {
            judge: &[Cause::Shape, Cause::Padded, Cause::Length],
            ..RULES
        },
    ),
];

const fn found(finding: fn(&Findings) -> Result<Finding, Refusal>) -> Rules {
    Rules { finding, ..RULES }
}

fn by_later(pair: &Pair) -> (u64, u64) {
    (pair.later as u64, pair.earlier as u64)
}

fn by_earlier(findings: &Findings) -> Result<Finding, Refusal> {
    Ok(findings.outside_first(|pair| (pair.earlier as u64, pair.later as u64)))
}

fn by_cell(findings: &Findings) -> Result<Finding, Refusal> {
    Ok(findings.outside_first(|pair| (pair.cell, pair.later as u64)))
}

fn neighbours(findings: &Findings) -> Result<Finding, Refusal> {
    let is_near = |pair: &&Pair| pair.earlier + 1 == pair.later;
    let near = Findings {
        outside: findings.outside.clone(),
        pairs: findings.pairs.iter().filter(is_near).copied().collect(),
    };
    Ok(near.outside_first(by_later))
}

fn in_one_pass(findings: &Findings) -> Result<Finding, Refusal> {
    let outside = findings.outside.first();
    Ok(match findings.least_pair(by_later) {
        Some(pair) if outside.is_none_or(|element| *element > pair.later) => pair.finding(),
        _ => findings.outside_first(by_later),
    })
}

fn pair_first(findings: &Findings) -> Result<Finding, Refusal> {
    let pair = findings.least_pair(by_later);
    Ok(pair.map_or_else(|| findings.outside_first(by_later), Pair::finding))
}

fn refused(findings: &Findings) -> Result<Finding, Refusal> {
    match findings.outside_first(by_later) {
        Finding::Outside { .. } => Err(Refusal::Outside),
        finding => Ok(finding),
    }
}
