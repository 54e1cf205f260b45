//! Requests: what each line can ask, and how it is read.

use crate::layout::Layout;
use crate::map::Map;
use crate::map_reader::read_map;
use crate::map_value::MapPoint;
use crate::operation::{Operation, Way};
use crate::reader::{Reader, Unreadable};
use crate::request_operations::{is_operation, read_operation};
use crate::request_retile::{read_retile, RetileRequest};
use crate::request_table::{read_table, read_which, TableRequest};
use crate::request_tree::read_tree;
use crate::route::Route;
use crate::shape::Shape;
use crate::tree::Tree;

/// The longest buffer that a request can lend, and the length lent where none is given.
pub const MAX_LENGTH: u64 = 4096;

#[derive(Clone, Debug, PartialEq, Eq)]
pub enum Request {
    Number {
        shape: Shape,
        point: Vec<u64>,
    },
    Point {
        shape: Shape,
        element: u64,
    },
    Placed {
        shape: Shape,
        /// The column of the shape's `[`.
        column: usize,
        layout: Layout,
        question: Question,
    },
    Multiplier {
        divisor: u64,
    },
    Quotient {
        number: u64,
        divisor: u64,
    },
    Retile(RetileRequest),
    Route(Route),
    Tree(Tree),
    Table(TableRequest),
    Eval {
        map: Map,
        point: MapPoint,
    },
    Range(Map),
    Fold(Map),
    Compose {
        first: Map,
        second: Map,
    },
    Operation {
        operation: Operation,
        way: Way,
    },
}

/// What is asked about a shape with a layout.
#[derive(Clone, Debug, PartialEq, Eq)]
pub enum Question {
    Padded,
    Offset {
        point: Vec<u64>,
    },
    Cell {
        offset: u64,
    },
    Card,
    Fit {
        limit: u64,
    },
    Pack {
        source: u64,
        cells: u64,
    },
    Unpack {
        cells: u64,
        destination: u64,
    },
    Store {
        element: u64,
        value: u32,
        cells: u64,
    },
    Load {
        element: u64,
        cells: u64,
    },
    Grid,
}

/// Reads a whole line.
pub fn read_request(line: &[u8]) -> Result<Request, Unreadable> {
    let mut reader = Reader::new(line);
    let column = reader.column();
    let request = match reader.word()? {
        b"number" => Request::Number {
            shape: reader.shape()?,
            point: reader.point()?,
        },
        b"point" => Request::Point {
            shape: reader.shape()?,
            element: reader.unsigned()?,
        },
        b"multiplier" => Request::Multiplier {
            divisor: reader.unsigned()?,
        },
        b"quotient" => Request::Quotient {
            number: reader.unsigned()?,
            divisor: reader.unsigned()?,
        },
        b"retile" => Request::Retile(read_retile(&mut reader)?),
        b"route" => Request::Route(route(&mut reader)?),
        b"tree" => Request::Tree(read_tree(&mut reader)?),
        b"table" => Request::Table(read_table(&mut reader)?),
        b"which" => Request::Table(read_which(&mut reader)?),
        b"eval" => eval(&mut reader)?,
        b"range" => Request::Range(read_map(&mut reader)?),
        b"fold" => Request::Fold(read_map(&mut reader)?),
        b"compose" => compose(&mut reader)?,
        word if is_operation(word) => read_operation(word, &mut reader)?,
        word if is_placed(word) => placed(word, &mut reader)?,
        _ => return Err(Unreadable { column }),
    };
    reader.end()?;
    Ok(request)
}

/// Reads SHAPE LIMIT MOVES and the stations, with `;` between them.
fn route(reader: &mut Reader) -> Result<Route, Unreadable> {
    let shape = reader.shape()?;
    let cell_limit = reader.unsigned()?;
    let move_limit = reader.unsigned()?;
    let mut stations = vec![layouts(reader)?];
    while reader.skip(b';') {
        stations.push(layouts(reader)?);
    }
    Ok(Route {
        shape,
        cell_limit,
        move_limit,
        stations,
    })
}

/// Reads layouts, at least one.
pub fn layouts(reader: &mut Reader) -> Result<Vec<Layout>, Unreadable> {
    let mut layouts = vec![reader.layout()?];
    while reader.is_ahead(b'{') {
        layouts.push(reader.layout()?);
    }
    Ok(layouts)
}

/// Reads MAP, the word at, the point, and the range variables' values if they are there.
fn eval(reader: &mut Reader) -> Result<Request, Unreadable> {
    let map = read_map(reader)?;
    reader.exact_word(b"at")?;
    let dimensions = reader.signed_list(b'(', b')')?;
    let mut ranges = Vec::new();
    if reader.is_ahead(b'[') {
        ranges = reader.signed_list(b'[', b']')?;
    }
    let point = MapPoint { dimensions, ranges };
    Ok(Request::Eval { map, point })
}

/// Reads MAP ; MAP.
fn compose(reader: &mut Reader) -> Result<Request, Unreadable> {
    let first = read_map(reader)?;
    reader.symbol(b';')?;
    let second = read_map(reader)?;
    Ok(Request::Compose { first, second })
}

fn is_placed(word: &[u8]) -> bool {
    const WORDS: [&[u8]; 10] = [
        b"padded", b"offset", b"cell", b"card", b"fit", b"pack", b"unpack", b"store", b"load",
        b"grid",
    ];
    WORDS.contains(&word)
}

/// Reads SHAPE LAYOUT and what the word has behind them.
fn placed(word: &[u8], reader: &mut Reader) -> Result<Request, Unreadable> {
    let column = reader.column();
    let shape = reader.shape()?;
    let layout = reader.layout()?;
    let question = question(word, reader)?;
    Ok(Request::Placed {
        shape,
        column,
        layout,
        question,
    })
}

fn question(word: &[u8], reader: &mut Reader) -> Result<Question, Unreadable> {
    Ok(match word {
        b"padded" => Question::Padded,
        b"offset" => Question::Offset {
            point: reader.point()?,
        },
        b"cell" => Question::Cell {
            offset: reader.unsigned()?,
        },
        b"card" => Question::Card,
        b"fit" => Question::Fit {
            limit: reader.unsigned()?,
        },
        b"pack" => {
            let (source, cells) = two_lengths(reader)?;
            Question::Pack { source, cells }
        }
        b"unpack" => {
            let (cells, destination) = two_lengths(reader)?;
            Question::Unpack { cells, destination }
        }
        b"store" => Question::Store {
            element: reader.unsigned()?,
            value: reader.at_most(i64::from(u32::MAX))? as u32,
            cells: one_length(reader)?,
        },
        b"load" => Question::Load {
            element: reader.unsigned()?,
            cells: one_length(reader)?,
        },
        _ => Question::Grid,
    })
}

/// Two buffer lengths, both or none.
pub fn two_lengths(reader: &mut Reader) -> Result<(u64, u64), Unreadable> {
    if reader.at_end() {
        return Ok((MAX_LENGTH, MAX_LENGTH));
    }
    Ok((length(reader)?, length(reader)?))
}

/// One buffer length or none.
fn one_length(reader: &mut Reader) -> Result<u64, Unreadable> {
    if reader.at_end() {
        return Ok(MAX_LENGTH);
    }
    length(reader)
}

fn length(reader: &mut Reader) -> Result<u64, Unreadable> {
    reader.at_most(MAX_LENGTH as i64)
}
