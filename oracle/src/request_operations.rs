//! Requests for the maps of operations: what stands behind each word, and the way.

use crate::operation::{Cut, Operation, Way};
use crate::reader::{Reader, Unreadable};
use crate::request::Request;

pub fn is_operation(word: &[u8]) -> bool {
    const WORDS: [&[u8]; 8] = [
        b"elementwise",
        b"broadcast",
        b"transpose",
        b"reverse",
        b"concatenate",
        b"reduce",
        b"slice",
        b"reshape",
    ];
    WORDS.contains(&word)
}

/// Reads what the word has behind it.
pub fn read_operation(word: &[u8], reader: &mut Reader) -> Result<Request, Unreadable> {
    if word == b"reduce" {
        return reduce(reader);
    }
    let operation = match word {
        b"elementwise" => Operation::Elementwise {
            shape: reader.shape()?,
        },
        b"broadcast" => Operation::Broadcast {
            input: reader.shape()?,
            output: reader.shape()?,
            list: reader.dimensions()?,
        },
        b"transpose" => Operation::Transpose {
            input: reader.shape()?,
            list: reader.dimensions()?,
        },
        b"reverse" => Operation::Reverse {
            input: reader.shape()?,
            list: reader.dimensions()?,
        },
        b"concatenate" => concatenate(reader)?,
        b"slice" => slice(reader)?,
        _ => Operation::Reshape {
            input: reader.shape()?,
            output: reader.shape()?,
        },
    };
    let way = match reader.way() {
        Some(b"out-to-in") => Way::OutToIn,
        Some(b"in-to-out") => Way::InToOut,
        _ => return reader.unreadable(),
    };
    reader.go_past_way();
    Ok(Request::Operation { operation, way })
}

/// Reads SHAPE LIST and one of four ways.
fn reduce(reader: &mut Reader) -> Result<Request, Unreadable> {
    let input = reader.shape()?;
    let list = reader.dimensions()?;
    let (is_init, way) = match reader.way() {
        Some(b"out-to-in") => (false, Way::OutToIn),
        Some(b"in-to-out") => (false, Way::InToOut),
        Some(b"out-to-init") => (true, Way::OutToIn),
        Some(b"init-to-out") => (true, Way::InToOut),
        _ => return reader.unreadable(),
    };
    reader.go_past_way();
    let operation = if is_init {
        Operation::ReduceInit { input, list }
    } else {
        Operation::Reduce { input, list }
    };
    Ok(Request::Operation { operation, way })
}

/// Reads DIM OPERAND and any number of shapes.
fn concatenate(reader: &mut Reader) -> Result<Operation, Unreadable> {
    let dimension = reader.unsigned()?;
    let operand = reader.unsigned()?;
    let mut operands = Vec::new();
    while reader.is_ahead(b'[') {
        operands.push(reader.shape()?);
    }
    Ok(Operation::Concatenate {
        dimension,
        operand,
        operands,
    })
}

/// Reads SHAPE and any number of cuts.
fn slice(reader: &mut Reader) -> Result<Operation, Unreadable> {
    let input = reader.shape()?;
    let mut cuts = Vec::new();
    while reader.is_ahead(b'[') {
        cuts.push(cut(reader)?);
    }
    Ok(Operation::Slice { input, cuts })
}

/// Reads [start:limit:stride].
fn cut(reader: &mut Reader) -> Result<Cut, Unreadable> {
    reader.symbol(b'[')?;
    let start = reader.unsigned()?;
    reader.symbol(b':')?;
    let limit = reader.unsigned()?;
    reader.symbol(b':')?;
    let stride = reader.unsigned()?;
    reader.symbol(b']')?;
    Ok(Cut {
        start,
        limit,
        stride,
    })
}
