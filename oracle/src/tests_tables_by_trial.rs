//! Tests of offset tables against other ways to answer: every pair and every layout by trial, and wrong rules.

use crate::brute::Tally;
use crate::brute_random_tables::{compare_requests, wrong_rules};
use crate::brute_tables::{compare, small_tables};
use crate::offset_table::{Finding, TableAnswer};
use crate::offset_table_by_trial::answer_by_rules;
use crate::refusal::Refusal;
use crate::request::{read_request, Request};
use crate::vectors_table_requests::table_requests;

#[test]
fn small_tables_agree_with_every_pair_and_layout_tried() {
    let mut tally = Tally { comparisons: 0 };
    assert_eq!(small_tables(&mut tally), Ok(()));
    assert!(tally.comparisons > 300_000);
}

#[test]
fn random_requests_agree_with_every_pair_and_layout_tried_and_show_each_wrong_rule() {
    let mut tally = Tally { comparisons: 0 };
    let shown = compare_requests(&mut tally, 7, 4000);
    assert_eq!(shown.map(|shown| shown.len()), Ok(wrong_rules().count()));
}

#[test]
fn stored_requests_agree_with_every_pair_and_layout_tried() {
    let mut text = String::new();
    table_requests(&mut text);
    let mut tally = Tally { comparisons: 0 };
    for line in text.lines() {
        if let Ok(Request::Table(request)) = read_request(line.as_bytes()) {
            let answer = compare(&mut tally, &request.table, &request.question);
            assert!(answer.is_ok(), "{answer:?}");
        }
    }
    assert!(tally.comparisons > 900);
}

/// The answer by the wrong rule of that name.
fn by_wrong_rule(name: &str, line: &str) -> Result<TableAnswer, Refusal> {
    let Ok(Request::Table(request)) = read_request(line.as_bytes()) else {
        panic!("{line}");
    };
    let mut rules = wrong_rules();
    let found = rules.find(|(other, _)| *other == name);
    let (_, rules) = found.expect("the rule is among the wrong ones");
    answer_by_rules(&request.table, &request.question, &rules)
}

/// A wrong rule, a line, and its answer by that rule.
type Case = (&'static str, &'static str, Result<TableAnswer, Refusal>);

fn check_wrong(cases: &[Case]) {
    for (name, line, expected) in cases {
        assert_eq!(by_wrong_rule(name, line), *expected, "{name}: {line}");
    }
}

#[test]
fn a_table_by_each_of_some_wrong_rules() {
    let found = |finding| Ok(TableAnswer::Found(finding));
    let shared = |earlier, later| found(Finding::Shared { earlier, later });
    let one_pass = "an offset outside is sought only up to the first pair";
    check_wrong(&[
        (
            "the earlier element is searched first",
            "table [4] 4 (0,1,1,0)",
            shared(0, 3),
        ),
        (
            "the pair in the lowest cell is named",
            "table [4] 4 (1,0,1,0)",
            shared(1, 3),
        ),
        (
            "only neighbours are compared",
            "table [3] 3 (0,1,0)",
            found(Finding::Sound),
        ),
        (one_pass, "table [3] 3 (0,0,3)", shared(0, 1)),
        (
            one_pass,
            "table [3] 3 (3,0,0)",
            found(Finding::Outside { element: 0 }),
        ),
        (
            "an offset outside is refused with 5",
            "table [] 0 (0)",
            Err(Refusal::Outside),
        ),
    ]);
}

#[test]
fn a_list_by_each_of_some_wrong_rules() {
    let layout = |place| Ok(TableAnswer::Layout(place));
    check_wrong(&[
        (
            "a layout with another padded size is accepted",
            "which [3] 3 (0,1,2) {0:T(4)} {0}",
            layout(0),
        ),
        (
            "the last layout that makes the table is answered",
            "which [3] 3 (0,1,2) {0} {0}",
            layout(1),
        ),
        (
            "an unsound table is asked for its layout",
            "which [2] 2 (0,0) {0}",
            Err(Refusal::NoLayout),
        ),
        (
            "layouts are judged only up to the first that makes the table",
            "which [2] 2 (0,1) {0} {1}",
            layout(0),
        ),
        (
            "an unsound table is refused only up to a padded size of 2^40",
            "which [2] -1 (0,0) {0}",
            Err(Refusal::PaddedSize),
        ),
    ]);
}
