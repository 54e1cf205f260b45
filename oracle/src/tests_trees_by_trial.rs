//! Tests of trees against other planners: every plan by trial, wrong rules, and routes for trees without forks.

use crate::answer::answer_line;
use crate::brute::Tally;
use crate::brute_trees::compare_trees;
use crate::random::Random;
use crate::random_kinds::{random_lines, Kind};
use crate::random_routes::small_route;
use crate::request::{read_request, Request};
use crate::route::{best_plan, Route};
use crate::tree::{best_tree_plan, Tree};
use crate::tree_by_trial::{tree_plans_by_rules, RULES};
use crate::vectors_route_repeats::ROUTE_REPEATS;
use crate::vectors_routes::ROUTES;
use crate::vectors_row_trees::as_tree;
use crate::vectors_trees::spelled;
use crate::wrong_tree_rules::WRONG_RULES;

#[test]
fn trees_agree_with_every_plan_tried_and_show_each_wrong_rule() {
    let mut tally = Tally { comparisons: 0 };
    let shown = compare_trees(&mut tally, 7, 2500);
    assert_eq!(shown.map(|shown| shown.len()), Ok(WRONG_RULES.len() + 1));
    assert!(tally.comparisons > 2500);
}

/// The places that each rule, the right one first, gives a tree written with letters.
fn places_by_rule(line: &str) -> Vec<Option<Vec<usize>>> {
    let Ok(Request::Tree(tree)) = read_request(spelled(line).as_bytes()) else {
        panic!("{line}");
    };
    let wrong = WRONG_RULES.map(|(_, rules)| rules);
    let rules = [&[RULES][..], &wrong].concat();
    let plans = tree_plans_by_rules(&tree, &rules).expect("a tree that breaks no rule");
    let places = plans.into_iter().map(|plan| plan.map(|plan| plan.places));
    places.collect()
}

#[test]
fn the_sample_of_two_branches_by_each_order() {
    let sample = "tree [3,5] 9999 1 0 T ; 0 T ; 0 A T ; 1 A T ; 2 A T ; 4 A T ; 3 A T ; 6 A T";
    let places = places_by_rule(sample);
    assert_eq!(places[0], Some(vec![0, 0, 0, 1, 0, 0, 1, 1]));
    let by_branch = WRONG_RULES
        .iter()
        .position(|(name, _)| name.contains("branch by branch"));
    let by_branch = by_branch.expect("the rule is among the wrong ones");
    assert_eq!(places[1 + by_branch], Some(vec![0, 0, 1, 0, 1, 1, 0, 0]));
}

/// The tree without forks that has the stations of a route.
fn row(route: &Route) -> Tree {
    let parent = |station: usize| (station as u64).wrapping_sub(1);
    Tree {
        route: route.clone(),
        parents: (0..route.stations.len()).map(parent).collect(),
    }
}

#[test]
fn trees_without_forks_agree_with_routes() {
    let mut random = Random::new(80);
    for _ in 0..500 {
        let route = small_route(&mut random).route();
        assert_eq!(best_tree_plan(&row(&route)), best_plan(&route), "{route:?}");
    }
    let lines = random_lines(80, 600, Some(Kind::Route));
    for line in lines.split(|byte| *byte == b'\n') {
        if let Ok(Request::Route(route)) = read_request(line) {
            assert_eq!(best_tree_plan(&row(&route)), best_plan(&route), "{route:?}");
        }
    }
}

#[test]
fn stored_routes_as_trees_have_the_same_answers() {
    let lines = ROUTES
        .iter()
        .chain(ROUTE_REPEATS)
        .flat_map(|(_, lines)| *lines);
    let readable = lines.filter(|line| line.starts_with("route [") && !line.ends_with(';'));
    for line in readable {
        let tree = as_tree(line, |station| station.saturating_sub(1));
        let (route, tree) = (answer_line(line.as_bytes()), answer_line(tree.as_bytes()));
        assert_eq!(route, tree, "{line}");
        assert!(
            !route.is_some_and(|answer| answer.starts_with("error")),
            "{line}"
        );
    }
}
