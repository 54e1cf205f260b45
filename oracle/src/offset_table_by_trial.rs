//! Offset tables a second time: every pair of elements and every layout tried, by rules that can be exchanged.

use crate::layout::{judge_layout, padded_size, Layout};
use crate::offset::point_at_offset;
use crate::offset_table::{Finding, OffsetTable, TableAnswer, TableQuestion};
use crate::offset_table_findings::{findings, Findings};
use crate::refusal::Refusal;
use crate::shape::{element_count, point_of_element};

/// A rule that a request can break.
#[derive(Clone, Copy)]
pub enum Cause {
    Shape,
    Length,
    /// The number of layouts.
    Count,
    Unsound,
    /// The rule of a layout.
    Layouts,
    /// The padded size that is handed in.
    Padded,
    /// The padded size of a layout.
    Sizes,
    // Those below are not of document 02.
    /// Fewer cells than offsets.
    FewCells,
    /// Unsound with a padded size of at most 2^40.
    UnsoundWithin,
    /// A layout that stands in the list twice.
    Repeat,
    /// The rule and the padded size of one layout after the other.
    InTurn,
}

/// How requests are judged, and what is answered.
#[derive(Clone, Copy)]
pub struct Rules {
    /// The causes of the numbers 1 to 4 of the judge, and of the question which layout makes a table, in this order.
    pub judge: &'static [Cause],
    pub which: &'static [Cause],
    /// Whether so many offsets are a table of so many elements.
    pub is_length: fn(u64, usize) -> bool,
    /// Whether a list may have so many layouts.
    pub is_count: fn(usize) -> bool,
    /// Whether an offset is inside a padded size.
    pub is_inside: fn(u64, u64) -> bool,
    pub finding: fn(&Findings) -> Result<Finding, Refusal>,
    /// Whether a layout makes a table: whether the padded sizes are equal, and how to ask whether the offsets are.
    pub makes: fn(bool, &dyn Fn() -> bool) -> bool,
    /// The place that is answered, of all that make the table.
    pub place: fn(&[usize]) -> Option<usize>,
    /// How many layouts of so many are judged for 3 and 4, and how to ask for the first that makes the table.
    pub judged: fn(usize, &dyn Fn() -> Option<usize>) -> usize,
}

/// Sound is: all inside and all different. The pair is the one with the first later element.
pub const RULES: Rules = Rules {
    judge: &[Cause::Shape, Cause::Length, Cause::Padded],
    which: &[
        Cause::Shape,
        Cause::Length,
        Cause::Count,
        Cause::Unsound,
        Cause::Layouts,
        Cause::Padded,
        Cause::Sizes,
    ],
    is_length: |elements, offsets| elements <= 4096 && offsets as u64 == elements,
    is_count: |layouts| (1..=64).contains(&layouts),
    is_inside: |offset, padded| offset < padded,
    finding: |findings| Ok(findings.outside_first(|pair| (pair.later as u64, pair.earlier as u64))),
    makes: |same_size, same_offsets| same_size && same_offsets(),
    place: |places| places.first().copied(),
    judged: |layouts, _| layouts,
};

/// The answer of a question about a table by the rules.
pub fn answer_by_rules(
    table: &OffsetTable,
    question: &TableQuestion,
    rules: &Rules,
) -> Result<TableAnswer, Refusal> {
    let (causes, layouts) = match question {
        TableQuestion::Judge => (rules.judge, &vec![]),
        TableQuestion::Which(layouts) => (rules.which, layouts),
    };
    for cause in causes {
        judge_cause(table, layouts, rules, *cause)?;
    }
    if *question == TableQuestion::Judge {
        return (rules.finding)(&findings(table, rules.is_inside)).map(TableAnswer::Found);
    }
    let place = (rules.place)(&makers(table, layouts, rules));
    place.map(TableAnswer::Layout).ok_or(Refusal::NoLayout)
}

fn judge_cause(
    table: &OffsetTable,
    layouts: &[Layout],
    rules: &Rules,
    cause: Cause,
) -> Result<(), Refusal> {
    let (shape, rank) = (&table.shape, table.shape.sizes.len());
    let is_within = table.padded <= 1 << 40;
    let is_sound = || (rules.finding)(&findings(table, rules.is_inside)) == Ok(Finding::Sound);
    let judged = || {
        let first = || makers(table, layouts, rules).first().copied();
        layouts[..(rules.judged)(layouts.len(), &first)].iter()
    };
    let is_length = || (rules.is_length)(element_count(shape).unwrap_or(0), table.offsets.len());
    let is_repeated = |place: usize| layouts[..place].contains(&layouts[place]);
    match cause {
        Cause::Shape => element_count(shape).map(drop),
        Cause::Length => keeps(is_length(), Refusal::Limit),
        Cause::Count => keeps((rules.is_count)(layouts.len()), Refusal::Limit),
        Cause::Unsound => keeps(is_sound(), Refusal::Limit),
        Cause::Layouts => judged().try_for_each(|layout| judge_layout(rank, layout)),
        Cause::Padded => keeps(is_within, Refusal::PaddedSize),
        Cause::Sizes | Cause::InTurn => {
            judged().try_for_each(|layout| padded_size(shape, layout).map(drop))
        }
        Cause::FewCells => keeps(table.padded >= table.offsets.len() as u64, Refusal::Limit),
        Cause::UnsoundWithin => keeps(!is_within || is_sound(), Refusal::Limit),
        Cause::Repeat => keeps(!(0..layouts.len()).any(is_repeated), Refusal::Layout),
    }
}

fn keeps(kept: bool, refusal: Refusal) -> Result<(), Refusal> {
    kept.then_some(()).ok_or(refusal)
}

/// The places of all layouts that make the table.
fn makers(table: &OffsetTable, layouts: &[Layout], rules: &Rules) -> Vec<usize> {
    let makes = |place: &usize| {
        let size = padded_size(&table.shape, &layouts[*place]);
        let same_offsets = || is_held(table, &layouts[*place]);
        size.is_ok_and(|size| (rules.makes)(size == table.padded, &same_offsets))
    };
    (0..layouts.len()).filter(makes).collect()
}

/// Whether the cell at each element's offset holds, by the layout, that element.
fn is_held(table: &OffsetTable, layout: &Layout) -> bool {
    let elements = element_count(&table.shape).unwrap_or(0);
    let mut offsets = table.offsets.iter().zip(0..elements);
    offsets.all(|(offset, element)| {
        let point = point_of_element(&table.shape, element).map(Some);
        point_at_offset(&table.shape, layout, *offset) == point
    })
}
