//! Offset tables of other makers (document 02, Q-10): what is found in one, and which layout of a list makes it.

use std::collections::HashMap;

use crate::layout::{judge_layout, padded_size, Layout};
use crate::offset::offset_of_element;
use crate::refusal::Refusal;
use crate::shape::{element_count, Shape, MAX_COUNT};

pub const MAX_ELEMENTS: u64 = 4096;
pub const MAX_LAYOUTS: usize = 64;

/// A table as it is handed in: one offset for each element, in row-major order, and the padded size.
#[derive(Clone, Debug, PartialEq, Eq)]
pub struct OffsetTable {
    pub shape: Shape,
    pub padded: u64,
    pub offsets: Vec<u64>,
}

/// What is asked about a table.
#[derive(Clone, Debug, PartialEq, Eq)]
pub enum TableQuestion {
    Judge,
    /// Which of these layouts makes the table?
    Which(Vec<Layout>),
}

#[derive(Clone, Copy, Debug, PartialEq, Eq)]
pub enum TableAnswer {
    Found(Finding),
    /// The place of a layout in the list.
    Layout(usize),
}

/// What is found in a table. Elements are named by their numbers.
#[derive(Clone, Copy, Debug, PartialEq, Eq)]
pub enum Finding {
    Sound,
    /// The first element whose offset is not below the padded size.
    Outside {
        element: usize,
    },
    /// The first later element whose cell an earlier one has, and that one.
    Shared {
        earlier: usize,
        later: usize,
    },
}

pub fn answer_table(table: &OffsetTable, question: &TableQuestion) -> Result<TableAnswer, Refusal> {
    match question {
        TableQuestion::Judge => judge_table(table).map(TableAnswer::Found),
        TableQuestion::Which(layouts) => which_layout(table, layouts).map(TableAnswer::Layout),
    }
}

/// The table of a layout (1, 3, 4).
pub fn table_of(shape: &Shape, layout: &Layout) -> Result<OffsetTable, Refusal> {
    let padded = padded_size(shape, layout)?;
    let offset = |element| offset_of_element(shape, layout, element);
    let offsets: Result<Vec<u64>, Refusal> = (0..element_count(shape)?).map(offset).collect();
    Ok(OffsetTable {
        shape: shape.clone(),
        padded,
        offsets: offsets?,
    })
}

/// What is found in a table (1, 2, 4).
fn judge_table(table: &OffsetTable) -> Result<Finding, Refusal> {
    judge_length(table)?;
    judge_padded(table)?;
    Ok(finding(table))
}

/// The place of the first layout that makes the table (1, 2, 3, 4, 12). An unsound table is 2, whatever its padded size.
fn which_layout(table: &OffsetTable, layouts: &[Layout]) -> Result<usize, Refusal> {
    judge_length(table)?;
    if !(1..=MAX_LAYOUTS).contains(&layouts.len()) || finding(table) != Finding::Sound {
        return Err(Refusal::Limit);
    }
    for layout in layouts {
        judge_layout(table.shape.sizes.len(), layout)?;
    }
    judge_padded(table)?;
    let sizes: Result<Vec<u64>, Refusal> = layouts
        .iter()
        .map(|layout| padded_size(&table.shape, layout))
        .collect();
    let mut sized = layouts.iter().zip(sizes?);
    let place = sized.position(|(layout, size)| size == table.padded && has_offsets(table, layout));
    place.ok_or(Refusal::NoLayout)
}

/// The shape (1), its element count and the table's length (2).
fn judge_length(table: &OffsetTable) -> Result<(), Refusal> {
    let elements = element_count(&table.shape)?;
    if elements > MAX_ELEMENTS || table.offsets.len() as u64 != elements {
        return Err(Refusal::Limit);
    }
    Ok(())
}

/// The padded size that is handed in (4).
fn judge_padded(table: &OffsetTable) -> Result<(), Refusal> {
    if table.padded > MAX_COUNT {
        return Err(Refusal::PaddedSize);
    }
    Ok(())
}

/// An offset outside is sought in the whole table before any pair.
fn finding(table: &OffsetTable) -> Finding {
    let mut offsets = table.offsets.iter();
    if let Some(element) = offsets.position(|offset| *offset >= table.padded) {
        return Finding::Outside { element };
    }
    // The element that each cell was given to.
    let mut owners: HashMap<u64, usize> = HashMap::new();
    for (later, offset) in table.offsets.iter().enumerate() {
        if let Some(earlier) = owners.insert(*offset, later) {
            return Finding::Shared { earlier, later };
        }
    }
    Finding::Sound
}

/// Whether an accepted layout gives every element its offset in the table.
fn has_offsets(table: &OffsetTable, layout: &Layout) -> bool {
    let mut elements = table.offsets.iter().zip(0..);
    elements
        .all(|(offset, element)| offset_of_element(&table.shape, layout, element) == Ok(*offset))
}
