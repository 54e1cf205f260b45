//! Tests on the stored random trees: plans, every refusal and the cases that they are made to show are among them.

use std::collections::BTreeMap;

use crate::random_kinds::Kind;
use crate::refusal::Refusal;
use crate::request::Request;
use crate::route::{best_plan, Plan};
use crate::station_rules::judge_parents;
use crate::tests_random_routes::{check_counts, stored};
use crate::tree::{best_tree_plan, Tree};
use crate::tree_by_trial::tree_plans_by_rules;
use crate::vectors::RANDOM_TREES;
use crate::wrong_tree_rules::WRONG_RULES;

/// The stored random trees that can be read.
fn stored_trees() -> Vec<Tree> {
    stored(RANDOM_TREES, Kind::Tree, |request| match request {
        Request::Tree(tree) => Some(tree),
        _ => None,
    })
}

/// How often each case stands among the stored trees.
fn counted(cases: impl Fn(&Tree) -> Vec<&'static str>) -> BTreeMap<&'static str, u64> {
    let mut counts = BTreeMap::new();
    for case in stored_trees().iter().flat_map(cases) {
        *counts.entry(case).or_default() += 1;
    }
    counts
}

fn answer_name(answer: &Result<Plan, Refusal>) -> &'static str {
    match answer {
        Ok(_) => "plan",
        Err(Refusal::Shape) => "1",
        Err(Refusal::Limit) => "2",
        Err(Refusal::Layout) => "3",
        Err(Refusal::RepeatedLayout { .. }) => "3 of a repeat",
        Err(Refusal::PaddedSize) => "4",
        Err(Refusal::NoPlan) => "10",
        Err(_) => "another",
    }
}

#[test]
fn stored_random_trees_have_every_answer() {
    let counts = counted(|tree| vec![answer_name(&best_tree_plan(tree))]);
    check_counts(
        &counts,
        &[
            ("plan", 400),
            ("1", 20),
            ("2", 100),
            ("3", 30),
            ("3 of a repeat", 30),
            ("4", 12),
            ("10", 80),
        ],
    );
}

/// What a tree with a parent that is not earlier would be answered if the first station were the parent.
fn beside_a_broken_parent(tree: &Tree) -> Vec<&'static str> {
    if judge_parents(&tree.parents).is_ok() {
        return vec![];
    }
    let mut mended = tree.clone();
    for (station, parent) in mended.parents.iter_mut().enumerate() {
        if *parent >= station as u64 {
            *parent = 0;
        }
    }
    vec![answer_name(&best_tree_plan(&mended))]
}

#[test]
fn stored_random_trees_have_every_answer_beside_a_broken_parent() {
    let counts = counted(beside_a_broken_parent);
    check_counts(
        &counts,
        &[
            ("plan", 25),
            ("1", 3),
            ("2", 6),
            ("3", 6),
            ("3 of a repeat", 3),
            ("4", 2),
            ("10", 8),
        ],
    );
}

/// The form of a tree that breaks no rule, and what decides its plan.
fn forms(tree: &Tree) -> Vec<&'static str> {
    let answer = best_tree_plan(tree);
    if !matches!(answer, Ok(_) | Err(Refusal::NoPlan)) {
        return vec![];
    }
    let count = tree.parents.len();
    let later = &tree.parents[1..];
    let mut forms = vec![match count {
        1 => "one station",
        2..=12 => "2 to 12 stations",
        13..=59 => "13 to 59 stations",
        _ => "60 to 64 stations",
    }];
    let is_row = (0..later.len()).all(|station| later[station] == station as u64);
    if count > 2 {
        forms.push(match later.iter().all(|parent| *parent == 0) {
            true => "a star",
            false if is_row => "a row",
            false => "forks and rows",
        });
    }
    if tree.parents[0] >= count as u64 {
        forms.push("the first station names none");
    }
    let mut free = tree.clone();
    free.route.move_limit = 63;
    if answer.is_ok() && answer != best_tree_plan(&free) {
        forms.push("a plan that the limit on moves decides");
    }
    forms
}

#[test]
fn stored_random_trees_have_every_form() {
    check_counts(
        &counted(forms),
        &[
            ("one station", 40),
            ("2 to 12 stations", 400),
            ("13 to 59 stations", 30),
            ("60 to 64 stations", 15),
            ("a star", 60),
            ("a row", 60),
            ("forks and rows", 250),
            ("the first station names none", 150),
            ("a plan that the limit on moves decides", 60),
        ],
    );
}

/// Every plan is tried where there are at most so many.
const MOST_PLANS: usize = 2000;

/// The wrong rules that give a tree another plan.
fn wrong_rules(tree: &Tree) -> Vec<&'static str> {
    let choices = tree.route.stations.iter().map(Vec::len);
    let plans = choices.fold(1, usize::saturating_mul);
    let best = best_tree_plan(tree);
    if plans > MOST_PLANS || !matches!(best, Ok(_) | Err(Refusal::NoPlan)) {
        return vec![];
    }
    let rules = WRONG_RULES.map(|(_, rules)| rules);
    let wrong = tree_plans_by_rules(tree, &rules).expect("a tree that breaks no rule");
    let places = |plan: Option<Plan>| plan.map(|plan| plan.places);
    let best = places(best.ok());
    let names = WRONG_RULES.iter().zip(wrong);
    let mut names: Vec<&str> = names
        .filter(|(_, plan)| places(plan.clone()) != best)
        .map(|((name, _), _)| *name)
        .collect();
    if places(best_plan(&tree.route).ok()) != best {
        names.push("each station's parent is the one before");
    }
    names
}

#[test]
fn stored_random_trees_show_each_wrong_rule() {
    check_counts(
        &counted(wrong_rules),
        &[
            ("moves are counted along each branch by itself", 40),
            ("the moves out of one parent count as one", 20),
            ("ties are settled branch by branch", 5),
            ("ties are settled from the last station", 20),
            ("a parent is paid once for each child, moved or not", 2),
            ("a parent is read once for all children that move", 15),
            ("a move does not read", 30),
            ("each station's parent is the one before", 100),
        ],
    );
}
