//! Requests about offset tables: SHAPE PADDED TABLE, and for `which` any number of layouts behind them.
//!
//! How a line is read where the form alone leaves a choice:
//! - PADDED and the offsets are read as every unsigned number: a negative one is handed on as 2^64 - 1, one outside 64
//!   signed bits is unreadable.
//! - All offsets and all layouts of the line are read, past 4,096 and 64 too, so an unreadable one among them is seen
//!   before any refusal.
//! - `which` without a layout is read, and asks about a list of none; `table` with one is unreadable at its `{`.

use crate::offset_table::{OffsetTable, TableQuestion};
use crate::reader::{Reader, Unreadable};
use crate::request::layouts;

#[derive(Clone, Debug, PartialEq, Eq)]
pub struct TableRequest {
    pub table: OffsetTable,
    pub question: TableQuestion,
}

/// Reads what stands behind the word `table`.
pub fn read_table(reader: &mut Reader) -> Result<TableRequest, Unreadable> {
    Ok(TableRequest {
        table: offset_table(reader)?,
        question: TableQuestion::Judge,
    })
}

/// Reads what stands behind the word `which`.
pub fn read_which(reader: &mut Reader) -> Result<TableRequest, Unreadable> {
    let table = offset_table(reader)?;
    let list = if reader.at_end() {
        vec![]
    } else {
        layouts(reader)?
    };
    Ok(TableRequest {
        table,
        question: TableQuestion::Which(list),
    })
}

/// Reads SHAPE PADDED TABLE.
fn offset_table(reader: &mut Reader) -> Result<OffsetTable, Unreadable> {
    Ok(OffsetTable {
        shape: reader.shape()?,
        padded: reader.unsigned()?,
        offsets: reader.point()?,
    })
}
