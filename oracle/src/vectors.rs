//! Vectors: the files `stdin` and `stdout` that the program is compared with.

use std::fs;
use std::io;
use std::path::Path;

use crate::answer::answer_input;
use crate::random_kinds::{random_lines, Kind};
use crate::vectors_buffers::BUFFERS;
use crate::vectors_composition_counts::composition_counts;
use crate::vectors_compositions::COMPOSITIONS;
use crate::vectors_divisions::{around_reached, DIVISIONS};
use crate::vectors_documents::{documents, formats};
use crate::vectors_grids::GRIDS;
use crate::vectors_layouts::LAYOUTS;
use crate::vectors_long_lines::long_lines;
use crate::vectors_long_routes::long_routes;
use crate::vectors_long_trees::long_trees;
use crate::vectors_map_counts::map_counts;
use crate::vectors_map_rules::MAP_RULES;
use crate::vectors_map_unreadable::{long_maps, MAP_TOKENS};
use crate::vectors_maps::MAPS;
use crate::vectors_operation_rules::{repeats, OPERATION_RULES};
use crate::vectors_operation_unreadable::{long_operations, OPERATION_TOKENS};
use crate::vectors_operations::OPERATIONS;
use crate::vectors_order::ORDER;
use crate::vectors_places::PLACES;
use crate::vectors_retile::{long_retilings, retiling_cuts, RETILINGS};
use crate::vectors_route_repeats::{repeated_places, repeated_stations, ROUTE_REPEATS};
use crate::vectors_routes::{ROUTES, UNREADABLE_ROUTES};
use crate::vectors_row_trees::row_trees;
use crate::vectors_shapes::SHAPES;
use crate::vectors_shares::SHARES;
use crate::vectors_table_requests::table_requests;
use crate::vectors_tokens::TOKENS;
use crate::vectors_tree_parents::TREE_PARENTS;
use crate::vectors_tree_rules::TREE_RULES;
use crate::vectors_trees::trees;
use crate::vectors_unreadable::UNREADABLE;

/// A title, written as a comment, and the request lines under it.
pub type Group = (&'static str, &'static [&'static str]);

/// The tables of groups, in the order in which they are written.
const TABLES: &[&[Group]] = &[
    SHAPES, SHARES, LAYOUTS, PLACES, BUFFERS, ORDER, GRIDS, TOKENS, UNREADABLE,
];

pub const SEED: u64 = 20_010_001;
const RANDOM_REQUESTS: u64 = 3000;
pub const RANDOM_ROUTES: u64 = 2000;
pub const RANDOM_TREES: u64 = 1000;
pub const RANDOM_TABLES: u64 = 600;
const RANDOM_MAPS: u64 = 4000;
const RANDOM_COMPOSITIONS: u64 = 3000;
const RANDOM_OPERATIONS: u64 = 4000;
const RANDOM_DIVISIONS: u64 = 2000;
const RANDOM_RETILINGS: u64 = 60;

/// Writes both files into a directory.
pub fn write_vectors(directory: &str) -> io::Result<()> {
    write_both(directory, &requests())
}

/// Writes the requests about offset tables and their answers into a directory.
pub fn write_table_vectors(directory: &str) -> io::Result<()> {
    let mut requests = Vec::new();
    offset_tables(&mut requests);
    write_both(directory, &requests)
}

fn write_both(directory: &str, requests: &[u8]) -> io::Result<()> {
    let directory = Path::new(directory);
    fs::create_dir_all(directory)?;
    fs::write(directory.join("stdin"), requests)?;
    fs::write(directory.join("stdout"), answer_input(requests))
}

/// The bytes of `stdin`. Its last line ends with the input.
fn requests() -> Vec<u8> {
    let mut bytes = Vec::new();
    layouts(&mut bytes);
    routes(&mut bytes);
    forked_routes(&mut bytes);
    maps(&mut bytes);
    compositions(&mut bytes);
    operations(&mut bytes);
    divisions(&mut bytes);
    retilings(&mut bytes);
    bytes.extend(b"# a last line that ends at the end of the input\n");
    bytes.extend(b"offset [3,5] {1,0:T(2,2)} (2,3)");
    bytes
}

/// The requests about shapes and layouts.
fn layouts(bytes: &mut Vec<u8>) {
    let mut text = String::new();
    documents(&mut text);
    formats(&mut text);
    for (title, lines) in TABLES.iter().copied().flatten() {
        group(&mut text, title, lines.iter());
    }
    long_lines(&mut text);
    bytes.extend(text.bytes());
    random_group(bytes, "requests", RANDOM_REQUESTS, Kind::Layout);
}

/// The requests about routes.
fn routes(bytes: &mut Vec<u8>) {
    let mut text = String::new();
    for (title, lines) in ROUTES.iter().chain(UNREADABLE_ROUTES) {
        group(&mut text, title, lines.iter());
    }
    long_routes(&mut text);
    for (title, lines) in ROUTE_REPEATS {
        group(&mut text, title, lines.iter());
    }
    repeated_places(&mut text);
    repeated_stations(&mut text);
    bytes.extend(text.bytes());
    random_group(bytes, "routes", RANDOM_ROUTES, Kind::Route);
}

/// The requests about trees of stations.
fn forked_routes(bytes: &mut Vec<u8>) {
    let mut text = String::new();
    trees(&mut text);
    for (title, lines) in TREE_PARENTS.iter().chain(TREE_RULES) {
        group(&mut text, title, lines.iter());
    }
    row_trees(&mut text);
    long_trees(&mut text);
    bytes.extend(text.bytes());
    random_group(bytes, "trees", RANDOM_TREES, Kind::Tree);
}

/// The requests about maps.
fn maps(bytes: &mut Vec<u8>) {
    let mut text = String::new();
    for (title, lines) in MAPS.iter().chain(MAP_RULES).chain(MAP_TOKENS) {
        group(&mut text, title, lines.iter());
    }
    map_counts(&mut text);
    long_maps(&mut text);
    bytes.extend(text.bytes());
    random_group(bytes, "maps", RANDOM_MAPS, Kind::Map);
}

/// The requests about composing.
fn compositions(bytes: &mut Vec<u8>) {
    let mut text = String::new();
    for (title, lines) in COMPOSITIONS {
        group(&mut text, title, lines.iter());
    }
    composition_counts(&mut text);
    bytes.extend(text.bytes());
    random_group(bytes, "compositions", RANDOM_COMPOSITIONS, Kind::Compose);
}

/// The requests about operations.
fn operations(bytes: &mut Vec<u8>) {
    let mut text = String::new();
    let tables = OPERATIONS.iter().chain(OPERATION_RULES);
    for (title, lines) in tables.chain(OPERATION_TOKENS) {
        group(&mut text, title, lines.iter());
    }
    repeats(&mut text);
    long_operations(&mut text);
    bytes.extend(text.bytes());
    random_group(bytes, "operations", RANDOM_OPERATIONS, Kind::Operation);
}

/// The requests about divisions.
fn divisions(bytes: &mut Vec<u8>) {
    let mut text = String::new();
    for (title, lines) in DIVISIONS {
        group(&mut text, title, lines.iter());
    }
    around_reached(&mut text);
    bytes.extend(text.bytes());
    random_group(bytes, "divisions", RANDOM_DIVISIONS, Kind::Division);
}

/// The requests about re-tiling.
fn retilings(bytes: &mut Vec<u8>) {
    let mut text = String::new();
    for (title, lines) in RETILINGS {
        group(&mut text, title, lines.iter());
    }
    retiling_cuts(&mut text);
    long_retilings(&mut text);
    bytes.extend(text.bytes());
    random_group(bytes, "re-tilings", RANDOM_RETILINGS, Kind::Retile);
}

/// The requests about offset tables.
fn offset_tables(bytes: &mut Vec<u8>) {
    let mut text = String::new();
    table_requests(&mut text);
    bytes.extend(text.bytes());
    random_group(bytes, "tables", RANDOM_TABLES, Kind::Table);
}

/// Adds a comment, and random lines of one kind.
fn random_group(bytes: &mut Vec<u8>, name: &str, count: u64, kind: Kind) {
    let title = format!("# random {name}, {count} from seed {SEED}\n");
    bytes.extend(title.bytes());
    bytes.extend(random_lines(SEED, count, Some(kind)));
}

/// Adds a comment with the title, and the lines.
pub fn group<T: AsRef<str>>(text: &mut String, title: &str, lines: impl Iterator<Item = T>) {
    text.push_str("# ");
    text.push_str(title);
    text.push('\n');
    for line in lines {
        text.push_str(line.as_ref());
        text.push('\n');
    }
}
