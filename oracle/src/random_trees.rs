//! Random tree lines: forks of many forms, branches alike, limits that just fit, and every refusal.

use crate::random::Random;
use crate::random_pieces::{random_draft, unsigned, Draft};
use crate::random_route_breaks::{break_rule, break_some_layout};
use crate::random_route_limits::limit_around;
use crate::random_route_repeats::repeat_layouts;
use crate::random_routes::{layouts_text, seldom_damaged, stations, RouteDraft, TOP_COUNT};
use crate::random_tree_forms::{break_parents, random_parents};
use crate::random_tree_savings::saving_tree;
use crate::tree::{costs_by_moves, Costs, Tree};

/// A tree as it is written.
pub struct TreeDraft {
    pub route: RouteDraft,
    pub parents: Vec<i64>,
}

impl TreeDraft {
    pub fn tree(&self) -> Tree {
        tree(&self.route, &self.parents)
    }

    pub fn text(&self) -> String {
        let station_text = |(parent, station): (&i64, &Vec<Draft>)| {
            let layouts = layouts_text(station);
            format!("{parent} {layouts}")
        };
        let stations = self.parents.iter().zip(&self.route.stations);
        let stations: Vec<String> = stations.map(station_text).collect();
        format!("tree {} {}", self.route.limits_text(), stations.join(" ; "))
    }
}

fn tree(route: &RouteDraft, parents: &[i64]) -> Tree {
    Tree {
        route: route.route(),
        parents: unsigned(parents),
    }
}

/// A tree line, seldom damaged, sometimes with other spaces.
pub fn random_tree_line(random: &mut Random) -> Vec<u8> {
    let line = random_tree(random).text().into_bytes();
    seldom_damaged(random, line, b";;{}:,-01")
}

/// A small tree that breaks no rule, for comparing with every plan.
pub fn small_tree(random: &mut Random) -> TreeDraft {
    if random.percent(30) {
        return saving_tree(random, 8);
    }
    loop {
        let (most_stations, most_choices) = random.pick(&[(5, 4), (6, 3), (8, 2), (8, 2)]);
        let draft = good_tree(random, true, most_stations, most_choices);
        if costs_by_moves(&draft.tree()).is_ok() {
            return draft;
        }
    }
}

fn random_tree(random: &mut Random) -> TreeDraft {
    let small = random.percent(88);
    let (most_stations, most_choices) = match random.below(100) {
        0..=54 => (8, 3),
        55..=77 => (12, 4),
        78..=89 => (5, 8),
        90..=93 => (24, 6),
        _ => (64, 3),
    };
    let mut draft = if random.percent(30) {
        let most_stations = random.pick(&[8, 8, 8, 12, 30]);
        saving_tree(random, most_stations)
    } else {
        good_tree(random, small, most_stations, most_choices)
    };
    let breaks_parents = random.percent(12);
    if random.percent(if breaks_parents { 35 } else { 16 }) {
        break_rule(random, &mut draft.route);
        if random.percent(20) {
            break_rule(random, &mut draft.route);
        }
        hang_added_stations(random, &mut draft);
    }
    if breaks_parents {
        break_parents(random, &mut draft.parents);
    }
    if random.percent(8) {
        // The rule of every layout comes before a repeat, the padded sizes behind it.
        if random.percent(35) {
            break_some_layout(random, &mut draft.route);
        }
        repeat_layouts(random, &mut draft.route);
    }
    draft
}

/// A tree with limits around what it needs. Only the shape may break a rule.
fn good_tree(
    random: &mut Random,
    small: bool,
    most_stations: u64,
    most_choices: usize,
) -> TreeDraft {
    let sizes = random_draft(random, small).sizes;
    let mut stations = stations(random, &sizes, most_stations, most_choices);
    if random.percent(40) {
        liken_stations(random, &mut stations);
    }
    let parents = random_parents(random, stations.len());
    let mut route = RouteDraft {
        sizes,
        cell_limit: TOP_COUNT,
        move_limit: 63,
        stations,
    };
    let costs = |route: &RouteDraft| costs_by_moves(&tree(route, &parents)).unwrap_or_default();
    let needed = |route: &RouteDraft| fewest_moves(&costs(route));
    let best = |route: &RouteDraft| moves_of_least(&costs(route));
    limit_around(random, &mut route, needed, best);
    TreeDraft { route, parents }
}

/// Gives stations the layouts of a neighbour, in the same order or from the last, so that branches save alike.
fn liken_stations(random: &mut Random, stations: &mut [Vec<Draft>]) {
    for station in 1..stations.len() {
        if random.percent(60) {
            let before = station - 1 - random.pick_place(station.min(2));
            stations[station] = stations[before].clone();
            if random.percent(30) {
                stations[station].reverse();
            }
        }
    }
}

/// Names a parent for each station that was added.
fn hang_added_stations(random: &mut Random, draft: &mut TreeDraft) {
    for station in draft.parents.len()..draft.route.stations.len() {
        draft.parents.push(random.pick_place(station) as i64);
    }
}

/// The fewest moves of a plan; 0 where there is none.
fn fewest_moves(costs: &Costs) -> i64 {
    let moves = costs.iter().position(Option::is_some);
    moves.unwrap_or(0) as i64
}

/// The fewest moves of a plan of least cost; 0 where there is none.
fn moves_of_least(costs: &Costs) -> i64 {
    let least = costs.iter().flatten().min().copied();
    let moves = costs.iter().position(|cost| *cost == least);
    moves.unwrap_or(0) as i64
}
