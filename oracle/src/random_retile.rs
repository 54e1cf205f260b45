//! Random lines about re-tiling: pairs of small layouts, and runs that go on from a mark or from one before it.

use crate::damage::damage;
use crate::layout::padded_size;
use crate::random::Random;
use crate::random_pieces::{random_length, random_minor_to_major, Draft};
use crate::random_requests::{joined, layout_text, spaced};
use crate::random_retile_breaks::break_rule;

/// In most lines both padded sizes are at most this one.
const MOST_CELLS: u64 = 300;

/// A re-tiling as it is written. Both layouts have the same sizes.
pub struct RetileDraft {
    pub source: Draft,
    pub destination: Draft,
    /// A mark and an allowance for each run.
    pub runs: Vec<(i64, i64)>,
    pub lengths: Option<(i64, i64)>,
}

pub fn random_retile_line(random: &mut Random) -> Vec<u8> {
    let line = random_request(random).into_bytes();
    if random.percent(12) {
        return damage(random, line);
    }
    if random.percent(12) {
        return spaced(random, &line);
    }
    line
}

fn random_request(random: &mut Random) -> String {
    let mut draft = random_retiling(random);
    if random.percent(25) {
        // Several broken rules show which number is judged first.
        for _ in 0..random.pick(&[1, 1, 1, 2, 2, 3]) {
            break_rule(random, &mut draft);
        }
    }
    text(&draft)
}

fn text(draft: &RetileDraft) -> String {
    let sizes = joined(&draft.source.sizes);
    let source = layout_text(&draft.source);
    let destination = layout_text(&draft.destination);
    let mut line = format!("retile [{sizes}] {source} {destination}");
    for (mark, allowance) in &draft.runs {
        line.push_str(&format!(" {mark}:{allowance}"));
    }
    if let Some((source, destination)) = draft.lengths {
        line.push_str(&format!(" {source} {destination}"));
    }
    line
}

fn random_retiling(random: &mut Random) -> RetileDraft {
    let (source, destination) = random_pair(random);
    let (source_size, padded) = (needed(&source), needed(&destination));
    let runs = random_runs(random, padded as i64);
    let lengths = random.percent(50).then(|| {
        let source = random_length(random, source_size);
        (source, random_length(random, padded))
    });
    RetileDraft {
        source,
        destination,
        runs,
        lengths,
    }
}

/// The padded size, or 1 where it is refused.
pub fn needed(draft: &Draft) -> u64 {
    padded_size(&draft.shape(), &draft.layout()).unwrap_or(1)
}

/// Two layouts of one shape, seldom the same one twice, seldom of any size.
fn random_pair(random: &mut Random) -> (Draft, Draft) {
    let is_free = random.percent(5);
    loop {
        let sizes = random_sizes(random);
        let source = random_layout(random, &sizes);
        let destination = if random.percent(10) {
            source.clone()
        } else {
            random_layout(random, &sizes)
        };
        if is_free || (is_small(&source) && is_small(&destination)) {
            return (source, destination);
        }
    }
}

fn is_small(draft: &Draft) -> bool {
    padded_size(&draft.shape(), &draft.layout()).is_ok_and(|padded| padded <= MOST_CELLS)
}

fn random_sizes(random: &mut Random) -> Vec<i64> {
    let rank = random.pick(&[0, 1, 1, 2, 2, 2, 2, 2, 3, 3, 3, 4, 4, 6]);
    let largest = [1, 40, 9, 5, 4, 3, 2][rank];
    (0..rank).map(|_| random.between(1, largest)).collect()
}

fn random_layout(random: &mut Random, sizes: &[i64]) -> Draft {
    let minor_to_major = random_minor_to_major(random, sizes.len());
    let mut physical_rank = sizes.len();
    let mut tiles = Vec::new();
    for _ in 0..random.pick(&[0, 0, 1, 1, 1, 2, 2, 3, 3]) {
        if physical_rank == 0 {
            break;
        }
        let longest = physical_rank.min(random.pick(&[1, 2, 2, 3, 6]));
        let length = 1 + random.pick_place(longest);
        tiles.push((0..length).map(|_| random_entry(random)).collect());
        physical_rank += length;
    }
    Draft {
        sizes: sizes.to_vec(),
        minor_to_major,
        tiles,
    }
}

fn random_entry(random: &mut Random) -> i64 {
    match random.below(100) {
        0..=89 => random.between(1, 4),
        _ => random.between(5, 16),
    }
}

/// Runs of which most begin where the one before them ended, or one cell before that.
fn random_runs(random: &mut Random, padded: i64) -> Vec<(i64, i64)> {
    let mut mark = if random.percent(80) {
        0
    } else {
        random.between(0, padded)
    };
    let mut runs = Vec::new();
    for _ in 0..random.pick(&[1, 1, 2, 2, 2, 3, 3, 4, 6]) {
        let rest = padded - mark;
        let allowance = random_allowance(random, rest);
        runs.push((mark, allowance));
        // A negative allowance settles what remains.
        let settled = if allowance < 0 {
            rest
        } else {
            allowance.min(rest)
        };
        mark = next_mark(random, mark + settled, padded);
    }
    runs
}

fn random_allowance(random: &mut Random, rest: i64) -> i64 {
    match random.below(100) {
        0..=9 => 0,
        10..=19 => 1,
        20..=59 => random.between(0, rest),
        60..=74 => rest,
        75..=86 => rest + random.between(1, 50),
        87..=94 => random.pick(&[-1, -1, -2, i64::MIN]),
        _ => i64::MAX,
    }
}

/// The mark of the run after one that ended at `reached`.
fn next_mark(random: &mut Random, reached: i64, padded: i64) -> i64 {
    match random.below(100) {
        0..=59 => reached,
        // A cut after the store of a cell and before the store of its mark.
        60..=84 => (reached - 1).max(0),
        85..=92 => random.between(0, padded),
        93..=96 => padded,
        _ => 0,
    }
}
