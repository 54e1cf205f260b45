//! Random request lines by kind: layouts, routes, trees, tables, maps, compositions, operations, divisions, re-tilings, or a mix.

use crate::random::Random;
use crate::random_compose_lines::random_compose_line;
use crate::random_divisions::random_division_line;
use crate::random_map_lines::random_map_line;
use crate::random_operation_lines::random_operation_line;
use crate::random_requests::random_line;
use crate::random_retile::random_retile_line;
use crate::random_routes::random_route_line;
use crate::random_tables::random_table_line;
use crate::random_trees::random_tree_line;

#[derive(Clone, Copy, Debug, PartialEq, Eq)]
pub enum Kind {
    Layout,
    Route,
    Tree,
    Table,
    Map,
    Compose,
    Operation,
    Division,
    Retile,
}

/// The kinds of a mix; each stands as often as its share is.
const MIX: [Kind; 12] = [
    Kind::Layout,
    Kind::Layout,
    Kind::Layout,
    Kind::Route,
    Kind::Tree,
    Kind::Table,
    Kind::Map,
    Kind::Map,
    Kind::Compose,
    Kind::Operation,
    Kind::Division,
    Kind::Retile,
];

impl Kind {
    pub fn named(name: &str) -> Option<Kind> {
        match name {
            "layout" => Some(Kind::Layout),
            "route" => Some(Kind::Route),
            "tree" => Some(Kind::Tree),
            "table" => Some(Kind::Table),
            "map" => Some(Kind::Map),
            "compose" => Some(Kind::Compose),
            "operation" => Some(Kind::Operation),
            "division" => Some(Kind::Division),
            "retile" => Some(Kind::Retile),
            _ => None,
        }
    }
}

/// The given number of lines of one kind, or of a mix, each with its line end.
pub fn random_lines(seed: u64, count: u64, kind: Option<Kind>) -> Vec<u8> {
    let mut random = Random::new(seed);
    let mut lines = Vec::new();
    for _ in 0..count {
        let kind = kind.unwrap_or_else(|| random.pick(&MIX));
        lines.extend(match kind {
            Kind::Layout => random_line(&mut random),
            Kind::Route => random_route_line(&mut random),
            Kind::Tree => random_tree_line(&mut random),
            Kind::Table => random_table_line(&mut random),
            Kind::Map => random_map_line(&mut random),
            Kind::Compose => random_compose_line(&mut random),
            Kind::Operation => random_operation_line(&mut random),
            Kind::Division => random_division_line(&mut random),
            Kind::Retile => random_retile_line(&mut random),
        });
        lines.push(b'\n');
    }
    lines
}
