//! Tests on the stored random routes: plans, every refusal and the repeats that they are made to show are among them.

use std::cmp::Ordering;
use std::collections::BTreeMap;

use crate::layout::{padded_size, Layout};
use crate::random_kinds::{random_lines, Kind};
use crate::refusal::Refusal;
use crate::request::{read_request, Request};
use crate::route::{best_plan, Route};
use crate::vectors::{RANDOM_ROUTES, SEED};

/// What the stored random lines of a kind ask, of those that can be read.
pub fn stored<T>(count: u64, kind: Kind, asked: impl Fn(Request) -> Option<T>) -> Vec<T> {
    random_lines(SEED, count, Some(kind))
        .split(|byte| *byte == b'\n')
        .filter_map(|line| read_request(line).ok().and_then(&asked))
        .collect()
}

/// The stored random routes that can be read.
fn stored_routes() -> Vec<Route> {
    stored(RANDOM_ROUTES, Kind::Route, |request| match request {
        Request::Route(route) => Some(route),
        _ => None,
    })
}

/// Checks that each case is there often enough, and no other.
pub fn check_counts(counts: &BTreeMap<&str, u64>, least: &[(&str, u64)]) {
    for (case, least) in least {
        let count = counts.get(case).copied().unwrap_or(0);
        assert!(count >= *least, "{case}: {counts:?}");
    }
    assert_eq!(counts.len(), least.len(), "{counts:?}");
}

#[test]
fn stored_random_routes_have_every_answer() {
    let mut counts = BTreeMap::new();
    for route in stored_routes() {
        let answer = match best_plan(&route) {
            Ok(_) => "plan",
            Err(Refusal::Shape) => "1",
            Err(Refusal::Limit) => "2",
            Err(Refusal::Layout) => "3",
            Err(Refusal::RepeatedLayout { .. }) => "3 of a repeat",
            Err(Refusal::PaddedSize) => "4",
            Err(Refusal::NoPlan) => "10",
            Err(_) => "another",
        };
        *counts.entry(answer).or_default() += 1;
    }
    check_counts(
        &counts,
        &[
            ("plan", 700),
            ("1", 40),
            ("2", 70),
            ("3", 30),
            ("3 of a repeat", 70),
            ("4", 20),
            ("10", 250),
        ],
    );
}

/// How many pairs of equal layouts each station holds.
fn pairs_by_station(route: &Route) -> Vec<usize> {
    let pairs = |layouts: &Vec<Layout>| {
        let mut pairs = 0;
        for (later, layout) in layouts.iter().enumerate() {
            let equals = layouts[..later].iter().filter(|other| *other == layout);
            pairs += equals.count();
        }
        pairs
    };
    route.stations.iter().map(pairs).collect()
}

/// The same route with each layout once in a station.
fn without_repeats(route: &Route) -> Route {
    let mut route = route.clone();
    for station in &mut route.stations {
        let mut different: Vec<Layout> = Vec::new();
        for layout in station.drain(..) {
            if !different.contains(&layout) {
                different.push(layout);
            }
        }
        *station = different;
    }
    route
}

/// Where the first station with a layout refused so stands, seen from the first one with a repeat.
fn refused_beside(route: &Route, repeated: usize, refusal: Refusal) -> Ordering {
    let is_refused = |layout: &Layout| padded_size(&route.shape, layout) == Err(refusal);
    let mut stations = route.stations.iter();
    let station = stations.position(|layouts| layouts.iter().any(is_refused));
    station.map_or(Ordering::Greater, |station| station.cmp(&repeated))
}

/// What a route shows that holds a layout twice at some station.
fn repeat_cases(route: &Route, pairs: &[usize]) -> Vec<&'static str> {
    let Some(repeated) = pairs.iter().position(|count| *count > 0) else {
        return vec![];
    };
    let beside = |refusal| refused_beside(route, repeated, refusal);
    let answer = match best_plan(route) {
        Err(Refusal::RepeatedLayout { .. }) => best_plan(&without_repeats(route)),
        answer => answer,
    };
    let mut cases = vec![match answer {
        Err(Refusal::Shape) => "1 beside it",
        Err(Refusal::Limit) => "2 beside it",
        Err(Refusal::Layout) => match beside(Refusal::Layout) {
            Ordering::Less => "a broken layout before it",
            Ordering::Equal => "a broken layout at its station",
            Ordering::Greater => "a broken layout behind it",
        },
        Err(Refusal::PaddedSize) => match beside(Refusal::PaddedSize) {
            Ordering::Less => "4 before it",
            Ordering::Equal => "4 at its station",
            Ordering::Greater => "4 behind it",
        },
        Err(_) => "no plan but for it",
        Ok(_) => "a plan but for it",
    }];
    if pairs[repeated] > 1 {
        cases.push("several at a station");
    }
    if pairs[repeated + 1..].iter().any(|count| *count > 0) {
        cases.push("several stations");
    }
    cases
}

#[test]
fn stored_random_routes_have_every_repeat() {
    let mut counts = BTreeMap::new();
    for route in stored_routes() {
        for case in repeat_cases(&route, &pairs_by_station(&route)) {
            *counts.entry(case).or_default() += 1;
        }
    }
    check_counts(
        &counts,
        &[
            ("1 beside it", 3),
            ("2 beside it", 6),
            ("a broken layout before it", 2),
            ("a broken layout at its station", 4),
            ("a broken layout behind it", 3),
            ("4 before it", 2),
            ("4 at its station", 3),
            ("4 behind it", 3),
            ("no plan but for it", 15),
            ("a plan but for it", 40),
            ("several at a station", 40),
            ("several stations", 30),
        ],
    );
}
