//! Tests on the stored random tables: every answer, every refusal and the cases that they are made to show are among them.

use std::collections::BTreeMap;

use crate::brute_random_tables::wrong_rules;
use crate::layout::padded_size;
use crate::offset_table::{answer_table, Finding, TableAnswer, TableQuestion};
use crate::offset_table_by_trial::{answer_by_rules, Rules};
use crate::random_kinds::Kind;
use crate::refusal::Refusal;
use crate::request::Request;
use crate::request_table::TableRequest;
use crate::tests_random_routes::{check_counts, stored};
use crate::vectors::RANDOM_TABLES;

/// How often each case stands among the stored requests that can be read.
fn counted(cases: impl Fn(&TableRequest) -> Vec<&'static str>) -> BTreeMap<&'static str, u64> {
    let requests = stored(RANDOM_TABLES, Kind::Table, |request| match request {
        Request::Table(request) => Some(request),
        _ => None,
    });
    let mut counts = BTreeMap::new();
    for case in requests.iter().flat_map(cases) {
        *counts.entry(case).or_default() += 1;
    }
    counts
}

fn answer(request: &TableRequest) -> Result<TableAnswer, Refusal> {
    answer_table(&request.table, &request.question)
}

fn answer_name(request: &TableRequest) -> &'static str {
    let is_judged = request.question == TableQuestion::Judge;
    match (answer(request), is_judged) {
        (Ok(TableAnswer::Found(Finding::Sound)), _) => "sound",
        (Ok(TableAnswer::Found(Finding::Outside { .. })), _) => "outside",
        (Ok(TableAnswer::Found(Finding::Shared { .. })), _) => "shared",
        (Ok(TableAnswer::Layout(0)), _) => "the first layout",
        (Ok(TableAnswer::Layout(_)), _) => "a later layout",
        (Err(Refusal::Shape), true) => "table: 1",
        (Err(Refusal::Limit), true) => "table: 2",
        (Err(Refusal::PaddedSize), true) => "table: 4",
        (Err(Refusal::Shape), false) => "which: 1",
        (Err(Refusal::Limit), false) => "which: 2",
        (Err(Refusal::Layout), false) => "which: 3",
        (Err(Refusal::PaddedSize), false) => "which: 4",
        (Err(Refusal::NoLayout), false) => "which: 12",
        _ => "another",
    }
}

#[test]
fn stored_random_tables_have_every_answer() {
    check_counts(
        &counted(|request| vec![answer_name(request)]),
        &[
            ("sound", 50),
            ("outside", 40),
            ("shared", 30),
            ("the first layout", 50),
            ("a later layout", 40),
            ("table: 1", 3),
            ("table: 2", 10),
            ("table: 4", 10),
            ("which: 1", 3),
            ("which: 2", 40),
            ("which: 3", 10),
            ("which: 4", 10),
            ("which: 12", 20),
        ],
    );
}

/// What a list is made to show beside a table that is sound and breaks no rule.
fn list_cases(request: &TableRequest) -> Vec<&'static str> {
    let TableQuestion::Which(layouts) = &request.question else {
        return vec![];
    };
    let Ok(TableAnswer::Layout(place)) = answer(request) else {
        return vec![];
    };
    let size = |place: usize| padded_size(&request.table.shape, &layouts[place]);
    let mut cases = Vec::new();
    if (0..place).any(|earlier| size(earlier) == Ok(request.table.padded)) {
        cases.push("the same padded size and other offsets before it");
    }
    if (0..place).any(|earlier| size(earlier) != Ok(request.table.padded)) {
        cases.push("another padded size before it");
    }
    if layouts[place + 1..].contains(&layouts[place]) {
        cases.push("the same layout behind it");
    }
    if layouts.len() == 64 {
        cases.push("64 layouts");
        if place == 63 {
            cases.push("the last of 64 layouts");
        }
    }
    cases
}

#[test]
fn stored_random_tables_have_every_list() {
    check_counts(
        &counted(list_cases),
        &[
            ("the same padded size and other offsets before it", 10),
            ("another padded size before it", 20),
            ("the same layout behind it", 10),
            ("64 layouts", 3),
            ("the last of 64 layouts", 1),
        ],
    );
}

#[test]
fn stored_random_tables_show_each_wrong_rule() {
    let names = |request: &TableRequest| {
        let is_wrong = |rules: &Rules| {
            answer_by_rules(&request.table, &request.question, rules) != answer(request)
        };
        let wrong = wrong_rules().filter(|(_, rules)| is_wrong(rules));
        wrong.map(|(name, _)| name).collect()
    };
    let counts = counted(names);
    for (name, _) in wrong_rules() {
        assert!(
            counts.get(name).is_some_and(|count| *count >= 1),
            "{name}: {counts:?}"
        );
    }
}
