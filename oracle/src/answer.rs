//! Answers: from the bytes of a whole input to the answer blocks of its requests.

use crate::answer_retile::retile_answer;
use crate::answer_table::table_answer;
use crate::buffer::{load, pack, store, unpack};
use crate::compose::compose;
use crate::division::{multiplier, quotient};
use crate::fold::fold;
use crate::grid::grid;
use crate::layout::{padded_size, Layout};
use crate::map::{Interval, Map};
use crate::map_range::result_ranges;
use crate::map_text::{interval_text, map_text};
use crate::map_value::evaluate;
use crate::offset::{offset_of_point, point_at_offset};
use crate::operation_map::operation_map;
use crate::refusal::Refusal;
use crate::request::{read_request, Question, Request};
use crate::route::{best_plan, Plan};
use crate::shape::{element_count, element_number, point_of_element, Shape};
use crate::share::{card, fit, Fit};
use crate::tree::best_tree_plan;

/// The longest line that is read, in bytes without its line end.
pub const MAX_LINE: usize = 65_535;

/// What the cells of `pack` and `store` and the places of `unpack` hold before the call.
const HELD: u32 = 7;

/// The answer blocks of every request of an input.
pub fn answer_input(input: &[u8]) -> Vec<u8> {
    let mut output = Vec::new();
    for line in input.split(|byte| *byte == b'\n') {
        if let Some(answer) = answer_line(line) {
            output.extend_from_slice(answer.as_bytes());
            output.extend_from_slice(b"\n\n");
        }
    }
    output
}

/// The answer of one line; none for a blank line and a comment.
pub fn answer_line(line: &[u8]) -> Option<String> {
    if line.first() == Some(&b'#') || line.iter().all(|byte| *byte == b' ') {
        return None;
    }
    if line.len() > MAX_LINE {
        return Some(unreadable(MAX_LINE + 1));
    }
    Some(match read_request(line) {
        Ok(request) => answer_request(&request),
        Err(error) => unreadable(error.column),
    })
}

fn unreadable(column: usize) -> String {
    format!("error: cannot read the request at column {column}")
}

fn answer_request(request: &Request) -> String {
    let answer = match request {
        Request::Number { shape, point } => {
            element_number(shape, point).map(|element| format!("element {element}"))
        }
        Request::Point { shape, element } => {
            point_of_element(shape, *element).map(|point| format!("point {}", tuple(&point)))
        }
        Request::Placed {
            shape,
            column,
            layout,
            question,
        } => answer_question(shape, *column, layout, question),
        Request::Multiplier { divisor } => {
            multiplier(*divisor).map(|entry| format!("multiplier {entry}"))
        }
        Request::Quotient { number, divisor } => {
            quotient(*number, *divisor).map(|quotient| format!("quotient {quotient}"))
        }
        Request::Retile(request) => retile_answer(request),
        Request::Route(route) => best_plan(route).map(|plan| plan_text(&plan)),
        Request::Tree(tree) => best_tree_plan(tree).map(|plan| plan_text(&plan)),
        Request::Table(request) => table_answer(request),
        Request::Eval { map, point } => {
            evaluate(map, point).map(|values| format!("value {}", tuple(&values)))
        }
        Request::Range(map) => ranges_answer(map),
        Request::Fold(map) => fold(map).map(|folded| map_text(&folded)),
        Request::Compose { first, second } => {
            compose(first, second).map(|composed| map_text(&composed))
        }
        Request::Operation { operation, way } => {
            operation_map(operation, *way).map(|map| map_text(&map))
        }
    };
    answer.unwrap_or_else(Refusal::text)
}

fn answer_question(
    shape: &Shape,
    column: usize,
    layout: &Layout,
    question: &Question,
) -> Result<String, Refusal> {
    match question {
        Question::Padded => padded_size(shape, layout).map(|padded| format!("padded {padded}")),
        Question::Offset { point } => {
            offset_of_point(shape, layout, point).map(|offset| format!("offset {offset}"))
        }
        Question::Cell { offset } => cell_answer(shape, layout, *offset),
        Question::Card => card_answer(shape, layout),
        Question::Fit { limit } => fit_answer(shape, layout, *limit),
        Question::Pack { source, cells } => pack_answer(shape, layout, *source, *cells),
        Question::Unpack { cells, destination } => {
            unpack_answer(shape, layout, *cells, *destination)
        }
        Question::Store {
            element,
            value,
            cells,
        } => store_answer(shape, layout, *element, *value, *cells),
        Question::Load { element, cells } => {
            let value = load(shape, layout, *element, &own_offsets(*cells))?;
            Ok(format!("value {value}"))
        }
        Question::Grid => grid(shape, column, layout),
    }
}

fn cell_answer(shape: &Shape, layout: &Layout, offset: u64) -> Result<String, Refusal> {
    Ok(match point_at_offset(shape, layout, offset)? {
        Some(point) => format!("element {}", tuple(&point)),
        None => "padding".to_string(),
    })
}

fn card_answer(shape: &Shape, layout: &Layout) -> Result<String, Refusal> {
    let card = card(shape, layout)?;
    let (fill, waste) = (card.fill.to_bits(), card.waste.to_bits());
    Ok(format!("fill 0x{fill:016x} waste 0x{waste:016x}"))
}

fn fit_answer(shape: &Shape, layout: &Layout, limit: u64) -> Result<String, Refusal> {
    Ok(match fit(shape, layout, limit)? {
        Fit::Fits(spare) => format!("fits 0x{:016x}", spare.to_bits()),
        Fit::Over(factor) => format!("over 0x{:016x}", factor.to_bits()),
    })
}

fn pack_answer(shape: &Shape, layout: &Layout, source: u64, cells: u64) -> Result<String, Refusal> {
    let source: Vec<u32> = (1..=source as u32).collect();
    let mut cells = vec![HELD; cells as usize];
    pack(shape, layout, &source, &mut cells)?;
    let padded = padded_size(shape, layout)?;
    Ok(row("cells", &cells[..padded as usize]))
}

fn unpack_answer(
    shape: &Shape,
    layout: &Layout,
    cells: u64,
    destination: u64,
) -> Result<String, Refusal> {
    let mut destination = vec![HELD; destination as usize];
    unpack(shape, layout, &own_offsets(cells), &mut destination)?;
    let elements = element_count(shape)?;
    Ok(row("elements", &destination[..elements as usize]))
}

fn store_answer(
    shape: &Shape,
    layout: &Layout,
    element: u64,
    value: u32,
    cells: u64,
) -> Result<String, Refusal> {
    let mut cells = vec![HELD; cells as usize];
    store(shape, layout, element, value, &mut cells)?;
    let padded = padded_size(shape, layout)?;
    Ok(row("cells", &cells[..padded as usize]))
}

fn plan_text(plan: &Plan) -> String {
    let places: Vec<String> = plan.places.iter().map(usize::to_string).collect();
    format!("plan {} total {}", places.join(" "), plan.total)
}

/// Cells that hold their own offsets.
fn own_offsets(length: u64) -> Vec<u32> {
    (0..length as u32).collect()
}

fn ranges_answer(map: &Map) -> Result<String, Refusal> {
    let range_text = |range: &Interval| format!(" {}", interval_text(range));
    let ranges: String = result_ranges(map)?.iter().map(range_text).collect();
    Ok(format!("ranges{ranges}"))
}

fn tuple<T: ToString>(point: &[T]) -> String {
    let coordinates: Vec<String> = point.iter().map(T::to_string).collect();
    format!("({})", coordinates.join(", "))
}

/// A word and the values behind it.
pub fn row(word: &str, values: &[u32]) -> String {
    let mut line = word.to_string();
    for value in values {
        line.push_str(&format!(" {value}"));
    }
    line
}
