//! The commands of the oracle: answer, random, vectors and brute.

mod answer;
mod answer_retile;
mod answer_table;
mod brute;
mod brute_compose;
mod brute_divisions;
mod brute_maps;
mod brute_operations;
mod brute_random_tables;
mod brute_repeats;
mod brute_retile;
mod brute_routes;
mod brute_tables;
mod brute_trees;
mod buffer;
mod compose;
mod damage;
mod division;
mod expression_reader;
mod fold;
mod fold_rules;
mod fold_sum;
mod grid;
mod layout;
mod map;
mod map_range;
mod map_reader;
mod map_rule;
mod map_text;
mod map_value;
mod offset;
mod offset_table;
mod offset_table_by_trial;
mod offset_table_findings;
mod operation;
mod operation_draft;
mod operation_map;
mod operation_pairs;
mod operation_rule;
mod pad_reshape_transpose;
mod random;
mod random_compose_lines;
mod random_divisions;
mod random_expressions;
mod random_kinds;
mod random_map_lines;
mod random_maps;
mod random_operation_breaks;
mod random_operation_lines;
mod random_operations;
mod random_pair_limits;
mod random_pairs;
mod random_pieces;
mod random_requests;
mod random_retile;
mod random_retile_breaks;
mod random_route_breaks;
mod random_route_limits;
mod random_route_pools;
mod random_route_repeats;
mod random_routes;
mod random_table_breaks;
mod random_table_lists;
mod random_tables;
mod random_tight_maps;
mod random_tree_forms;
mod random_tree_savings;
mod random_trees;
mod reader;
mod reader_maps;
mod refusal;
mod request;
mod request_operations;
mod request_retile;
mod request_table;
mod request_tree;
mod retile;
mod route;
mod route_by_trial;
mod shape;
mod share;
mod small_cases;
mod small_operations;
mod small_retilings;
mod station_rules;
#[cfg(test)]
mod tests;
#[cfg(test)]
mod tests_compose;
#[cfg(test)]
mod tests_divisions;
#[cfg(test)]
mod tests_maps;
#[cfg(test)]
mod tests_operations;
#[cfg(test)]
mod tests_random_retile;
#[cfg(test)]
mod tests_random_routes;
#[cfg(test)]
mod tests_random_tables;
#[cfg(test)]
mod tests_random_trees;
#[cfg(test)]
mod tests_retile;
#[cfg(test)]
mod tests_route_repeats;
#[cfg(test)]
mod tests_routes;
#[cfg(test)]
mod tests_tables;
#[cfg(test)]
mod tests_tables_by_trial;
#[cfg(test)]
mod tests_trees;
#[cfg(test)]
mod tests_trees_by_trial;
mod token;
mod tree;
mod tree_by_trial;
mod vectors;
mod vectors_buffers;
mod vectors_composition_counts;
mod vectors_compositions;
mod vectors_divisions;
mod vectors_documents;
mod vectors_grids;
mod vectors_layouts;
mod vectors_long_lines;
mod vectors_long_routes;
mod vectors_long_tables;
mod vectors_long_trees;
mod vectors_map_counts;
mod vectors_map_rules;
mod vectors_map_unreadable;
mod vectors_maps;
mod vectors_operation_rules;
mod vectors_operation_unreadable;
mod vectors_operations;
mod vectors_order;
mod vectors_own_tables;
mod vectors_places;
mod vectors_retile;
mod vectors_route_repeats;
mod vectors_routes;
mod vectors_row_trees;
mod vectors_shapes;
mod vectors_shares;
mod vectors_table_requests;
mod vectors_table_rules;
mod vectors_table_unreadable;
mod vectors_tables;
mod vectors_tokens;
mod vectors_tree_parents;
mod vectors_tree_rules;
mod vectors_trees;
mod vectors_unreadable;
mod vectors_which;
mod wrong;
mod wrong_list_rules;
mod wrong_table_rules;
mod wrong_tree_rules;

use std::io::{self, Read, Write};
use std::process::ExitCode;

use random_kinds::{random_lines, Kind};

const USAGE: &str = "usage: oracle answer | random SEED N [KIND] | vectors [DIR] | table-vectors DIR | brute
KIND: layout, route, tree, table, map, compose, operation, division or retile";

/// Where `vectors` writes when no directory is given.
const VECTORS_DIRECTORY: &str = "crates/zungatewi";

fn main() -> ExitCode {
    let words: Vec<String> = std::env::args().skip(1).collect();
    let words: Vec<&str> = words.iter().map(String::as_str).collect();
    let done = match words[..] {
        ["answer"] => answer(),
        ["random", seed, count] => random(seed, count, None),
        ["random", seed, count, kind] => match Kind::named(kind) {
            Some(kind) => random(seed, count, Some(kind)),
            None => return usage(),
        },
        ["vectors"] => vectors::write_vectors(VECTORS_DIRECTORY),
        ["vectors", directory] => vectors::write_vectors(directory),
        ["table-vectors", directory] => vectors::write_table_vectors(directory),
        ["brute"] => return brute(),
        _ => return usage(),
    };
    match done {
        Ok(()) => ExitCode::SUCCESS,
        Err(error) => {
            eprintln!("oracle: {error}");
            ExitCode::FAILURE
        }
    }
}

fn usage() -> ExitCode {
    eprintln!("{USAGE}");
    ExitCode::from(2)
}

/// Answers the requests on standard input.
fn answer() -> io::Result<()> {
    let mut input = Vec::new();
    io::stdin().read_to_end(&mut input)?;
    write_out(&answer::answer_input(&input))
}

/// Writes random request lines.
fn random(seed: &str, count: &str, kind: Option<Kind>) -> io::Result<()> {
    match (seed.parse(), count.parse()) {
        (Ok(seed), Ok(count)) => write_out(&random_lines(seed, count, kind)),
        _ => Err(io::Error::other("SEED and N are whole numbers")),
    }
}

fn write_out(bytes: &[u8]) -> io::Result<()> {
    let mut output = io::stdout().lock();
    output.write_all(bytes)?;
    output.flush()
}

fn brute() -> ExitCode {
    match brute::brute() {
        Ok(comparisons) => {
            println!("brute: {comparisons} comparisons, all agree");
            ExitCode::SUCCESS
        }
        Err(case) => {
            println!("brute: disagreement about {case}");
            ExitCode::FAILURE
        }
    }
}
