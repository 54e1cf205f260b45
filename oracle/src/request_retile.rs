//! Requests for re-tiling: SHAPE LAYOUT LAYOUT RUN RUN .. and, behind them, two lengths or none.
//!
//! How a line is read where the form alone leaves a choice:
//! - MARK, `:` and ALLOWANCE are three tokens, so spaces may stand around the `:`, and a sign may end the number before
//!   it: `0:3-1:2` is the runs `0:3` and `-1:2`.
//! - Both numbers are read as every unsigned one: a negative one is handed on as 2^64 - 1, one outside 64 signed bits
//!   is unreadable.
//! - What stands behind the layouts is a run. So where there is none the line is unreadable at its end (or at what
//!   stands there instead of a number), and where the first number has no `:` behind it, at the token behind that number.
//! - From the second run on a number belongs to a run exactly if a `:` is the token behind it. Any other number is SOURCE,
//!   and DESTINATION follows it. So a length above 4,096 or below 0 is unreadable at its own column, a line with one length
//!   at its end, and a run behind a length at its `:`, or at its mark where both lengths stand before it.
//! - There may be as many runs as the line has room for.

use crate::layout::Layout;
use crate::reader::{Reader, Unreadable};
use crate::request::two_lengths;
use crate::shape::Shape;

#[derive(Clone, Debug, PartialEq, Eq)]
pub struct RetileRequest {
    pub shape: Shape,
    pub source_layout: Layout,
    pub destination_layout: Layout,
    pub runs: Vec<Run>,
    /// The length of the source that is lent.
    pub source: u64,
    /// The length of the destination that is lent.
    pub destination: u64,
}

/// One call: the mark that it finds and its allowance.
#[derive(Clone, Copy, Debug, PartialEq, Eq)]
pub struct Run {
    pub mark: u64,
    pub allowance: u64,
}

/// Reads what stands behind the word.
pub fn read_retile(reader: &mut Reader) -> Result<RetileRequest, Unreadable> {
    let shape = reader.shape()?;
    let source_layout = reader.layout()?;
    let destination_layout = reader.layout()?;
    let mut runs = vec![run(reader)?];
    while reader.is_number_before(b':') {
        runs.push(run(reader)?);
    }
    let (source, destination) = two_lengths(reader)?;
    Ok(RetileRequest {
        shape,
        source_layout,
        destination_layout,
        runs,
        source,
        destination,
    })
}

/// Reads MARK:ALLOWANCE.
fn run(reader: &mut Reader) -> Result<Run, Unreadable> {
    let mark = reader.unsigned()?;
    reader.symbol(b':')?;
    let allowance = reader.unsigned()?;
    Ok(Run { mark, allowance })
}
