//! Brute force on re-tiling: runs cut after every single store, and gone on with from the mark that the cut left.

use crate::brute::Tally;
use crate::buffer::{pack, unpack};
use crate::layout::{padded_size, Layout};
use crate::offset::point_at_offset;
use crate::refusal::Refusal;
use crate::retile::{retile, stores, Memory, Retiling};
use crate::shape::{element_count, Shape};
use crate::small_retilings::{layouts, shapes};

/// Up to this padded size the run that goes on is cut a second time.
const CUT_TWICE: u64 = 9;

/// Cells of the destination past its padded size.
const PAST: u64 = 2;

/// A re-tiling, the memory that it starts from, and the memory that it is to end in.
struct Case<'a> {
    retiling: Retiling<'a>,
    padded: u64,
    start: Memory,
    end: Memory,
}

/// Every pair of the small layouts of every small shape.
pub fn brute_retile(tally: &mut Tally) -> Result<(), String> {
    for shape in shapes() {
        let layouts = layouts(&shape);
        for from in &layouts {
            for to in &layouts {
                compare(tally, &shape, from, to)
                    .map_err(|what| format!("{what}: {shape:?} from {from:?} to {to:?}"))?;
            }
        }
    }
    Ok(())
}

/// All comparisons of one pair of layouts.
fn compare(
    tally: &mut Tally,
    shape: &Shape,
    from: &Layout,
    to: &Layout,
) -> Result<(), &'static str> {
    let source_size = padded_size(shape, from).map_err(|_| "the source's padded size")?;
    let padded = padded_size(shape, to).map_err(|_| "the destination's padded size")?;
    // One cell more than needed; no cell holds 0.
    let source: Vec<u32> = (1..=source_size as u32 + 1).collect();
    let retiling = Retiling {
        shape,
        source_layout: from,
        destination_layout: to,
        source: &source,
    };
    let start = Memory {
        destination: (0..(padded + PAST) as u32).map(|o| 9000 + o).collect(),
        mark: 0,
    };
    let end = Memory {
        destination: packed_again(&retiling, &start.destination).map_err(|_| "packing")?,
        mark: padded,
    };
    let case = Case {
        retiling,
        padded,
        start,
        end,
    };
    compare_cuts(tally, &case)?;
    compare_source_padding(tally, &case)?;
    compare_refusals(tally, &case, source_size as usize)
}

/// The destination with the packing of what unpacking the source gives.
fn packed_again(retiling: &Retiling, destination: &[u32]) -> Result<Vec<u32>, Refusal> {
    let shape = retiling.shape;
    let mut elements = vec![0; element_count(shape)? as usize];
    let mut packed = destination.to_vec();
    unpack(
        shape,
        retiling.source_layout,
        retiling.source,
        &mut elements,
    )?;
    pack(shape, retiling.destination_layout, &elements, &mut packed)?;
    Ok(packed)
}

/// The memory after each store of a run from mark 0, and where the run comes to that goes on from there.
fn compare_cuts(tally: &mut Tally, case: &Case) -> Result<(), &'static str> {
    let ways = ways(case.padded);
    let cuts = cuts(case, &case.start, &ways[0])?;
    let complete = cuts.len() as u64 == 2 * case.padded + 1;
    tally.agree(complete, "two stores to each cell")?;
    for way in &ways[1..] {
        let same = self::cuts(case, &case.start, way)? == cuts;
        tally.agree(same, "the same cuts, however the run is parted into calls")?;
    }
    for (stored, cut) in cuts.iter().enumerate() {
        judge_cut(tally, case, cut, stored as u64)?;
        for way in &ways {
            go_on(tally, case, cut, way)?;
        }
        if case.padded <= CUT_TWICE {
            for second in self::cuts(case, cut, &ways[2])? {
                go_on(tally, case, &second, &ways[0])?;
            }
        }
    }
    Ok(())
}

/// Allowances of calls in turn that come to the end from every mark.
fn ways(padded: u64) -> Vec<Vec<u64>> {
    vec![
        vec![u64::MAX],
        vec![1; padded as usize],
        vec![0, 2, 0, 3, padded],
        vec![3; padded.div_ceil(3) as usize],
        vec![padded - 1, 0, 1, 0, 7],
    ]
}

/// The memory before the first store of the calls, and after each of their stores.
fn cuts(case: &Case, start: &Memory, way: &[u64]) -> Result<Vec<Memory>, &'static str> {
    let mut memory = start.clone();
    let mut cuts = vec![memory.clone()];
    for &allowance in way {
        let stores = stores(&case.retiling, &memory, allowance).map_err(|_| "a call refused")?;
        for store in stores {
            memory.apply(store);
            cuts.push(memory.clone());
        }
    }
    Ok(cuts)
}

/// After so many stores of a run from mark 0: the mark and every cell.
fn judge_cut(
    tally: &mut Tally,
    case: &Case,
    cut: &Memory,
    stored: u64,
) -> Result<(), &'static str> {
    tally.agree(cut.mark == stored / 2, "the mark after so many stores")?;
    let cell_at_mark_is_stored = stored % 2 == 1;
    for (offset, value) in cut.destination.iter().enumerate() {
        let before = case.start.destination[offset];
        let after = case.end.destination[offset];
        if (offset as u64) < cut.mark {
            tally.agree(*value == after, "a final cell below the mark")?;
        } else if offset as u64 == cut.mark && cell_at_mark_is_stored {
            tally.agree(*value == after, "a cell stored before its mark")?;
        } else {
            tally.agree(*value == before, "a cell that stays")?;
        }
    }
    Ok(())
}

/// The calls from a memory on: what each settles, and that they come to the end of the uncut run.
fn go_on(tally: &mut Tally, case: &Case, cut: &Memory, way: &[u64]) -> Result<(), &'static str> {
    let mut memory = cut.clone();
    for &allowance in way {
        let rest = case.padded - memory.mark;
        let settled = retile(&case.retiling, &mut memory, allowance);
        tally.agree(settled == Ok(allowance.min(rest)), "the cells settled")?;
    }
    tally.agree(memory == case.end, "the end of a run that was cut")
}

/// Other values in the source's padding and past its padded size leave every store as it is.
fn compare_source_padding(tally: &mut Tally, case: &Case) -> Result<(), &'static str> {
    let retiling = case.retiling;
    let mut source = retiling.source.to_vec();
    for (offset, value) in source.iter_mut().enumerate() {
        let held = point_at_offset(retiling.shape, retiling.source_layout, offset as u64);
        if !matches!(held, Ok(Some(_))) {
            *value = u32::MAX - *value;
        }
    }
    let other = Retiling {
        source: &source,
        ..retiling
    };
    let same = stores(&other, &case.start, u64::MAX) == stores(&retiling, &case.start, u64::MAX);
    tally.agree(same, "stores from a source with other padding")
}

/// Marks at and above the padded size, and buffers of just that size and one cell less, with and without allowance.
fn compare_refusals(
    tally: &mut Tally,
    case: &Case,
    source_size: usize,
) -> Result<(), &'static str> {
    for mark in [0, case.padded, case.padded + 1, u64::MAX] {
        for missing in [(0, 0), (0, 1), (1, 0), (1, 1)] {
            for allowance in [0, u64::MAX] {
                let expected = if mark > case.padded {
                    Err(Refusal::Limit)
                } else if missing != (0, 0) {
                    Err(Refusal::ShortBuffer)
                } else {
                    Ok(allowance.min(case.padded - mark))
                };
                let retiling = Retiling {
                    source: &case.retiling.source[..source_size - missing.0],
                    ..case.retiling
                };
                let mut before = case.start.clone();
                before
                    .destination
                    .truncate(case.padded as usize - missing.1);
                before.mark = mark;
                let mut memory = before.clone();
                let answer = retile(&retiling, &mut memory, allowance);
                tally.agree(answer == expected, "the answer of a call")?;
                let stays = expected.unwrap_or(0) == 0;
                tally.agree(
                    !stays || memory == before,
                    "a call that leaves all as it was",
                )?;
            }
        }
    }
    Ok(())
}
