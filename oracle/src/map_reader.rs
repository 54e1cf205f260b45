//! Reader of a map: its head, its results, and its domain of bounds and constraints.

use crate::expression_reader::read_expression;
use crate::map::{Constraint, Interval, Map, Tree, Variable};
use crate::reader::{Reader, Unreadable};

/// Reads MAP up to the first token that cannot go on with it.
pub fn read_map(reader: &mut Reader) -> Result<Map, Unreadable> {
    reader.symbol(b'(')?;
    let dimensions = names(reader, b')', Variable::Dimension)?;
    let mut ranges = 0;
    if reader.skip(b'[') {
        ranges = names(reader, b']', Variable::Range)?;
    }
    reader.arrow()?;
    let results = results(reader)?;
    let mut map = Map {
        dimensions: Vec::new(),
        ranges: Vec::new(),
        results,
        constraints: Vec::new(),
    };
    if dimensions + ranges == 0 && !reader.is_ahead(b',') {
        return Ok(map);
    }
    reader.symbol(b',')?;
    reader.exact_word(b"domain")?;
    reader.symbol(b':')?;
    domain(reader, &mut map, dimensions, ranges)?;
    Ok(map)
}

/// Reads the names of a head's variables, in the order of their numbers, and what closes them.
fn names(reader: &mut Reader, close: u8, kind: fn(usize) -> Variable) -> Result<usize, Unreadable> {
    let mut count = 0;
    if reader.skip(close) {
        return Ok(count);
    }
    loop {
        reader.exact_variable(kind(count))?;
        count += 1;
        if !reader.skip(b',') {
            reader.symbol(close)?;
            return Ok(count);
        }
    }
}

fn results(reader: &mut Reader) -> Result<Vec<Tree>, Unreadable> {
    let mut results = Vec::new();
    reader.symbol(b'(')?;
    if reader.skip(b')') {
        return Ok(results);
    }
    loop {
        results.push(read_expression(reader)?);
        if !reader.skip(b',') {
            reader.symbol(b')')?;
            return Ok(results);
        }
    }
}

/// Reads the bounds of every variable in the head's order, then constraints.
fn domain(
    reader: &mut Reader,
    map: &mut Map,
    dimensions: usize,
    ranges: usize,
) -> Result<(), Unreadable> {
    for number in 0..dimensions + ranges {
        if number > 0 {
            reader.symbol(b',')?;
        }
        if number < dimensions {
            let bounds = bounds(reader, Variable::Dimension(number))?;
            map.dimensions.push(bounds);
        } else {
            let bounds = bounds(reader, Variable::Range(number - dimensions))?;
            map.ranges.push(bounds);
        }
    }
    let mut more = if dimensions + ranges == 0 {
        !reader.at_end() && !reader.is_ahead(b';') && !reader.is_word_ahead(b"at")
    } else {
        reader.skip(b',')
    };
    while more {
        let tree = read_expression(reader)?;
        reader.exact_word(b"in")?;
        let interval = interval(reader)?;
        map.constraints.push(Constraint { tree, interval });
        more = reader.skip(b',');
    }
    Ok(())
}

fn bounds(reader: &mut Reader, variable: Variable) -> Result<Interval, Unreadable> {
    reader.exact_variable(variable)?;
    reader.exact_word(b"in")?;
    interval(reader)
}

fn interval(reader: &mut Reader) -> Result<Interval, Unreadable> {
    reader.symbol(b'[')?;
    let low = reader.signed()?;
    reader.symbol(b',')?;
    let high = reader.signed()?;
    reader.symbol(b']')?;
    Ok(Interval { low, high })
}
