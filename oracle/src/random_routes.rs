//! Random route lines: ties, moves between like layouts, limits that just fit, and every refusal.

use crate::random::Random;
use crate::random_pieces::{random_draft, Draft};
use crate::random_requests::{joined, layout_text, spaced};
use crate::random_route_breaks::{break_rule, break_some_layout};
use crate::random_route_limits::limit;
use crate::random_route_pools::{random_pool, untiled};
use crate::random_route_repeats::repeat_layouts;
use crate::refusal::Refusal;
use crate::route::{best_plan, Route};

/// The largest cell limit.
pub const TOP_COUNT: i64 = 1 << 40;

/// A route as it is written; each draft has the shape's sizes.
pub struct RouteDraft {
    pub sizes: Vec<i64>,
    pub cell_limit: i64,
    pub move_limit: i64,
    pub stations: Vec<Vec<Draft>>,
}

impl RouteDraft {
    pub fn route(&self) -> Route {
        let layouts = |station: &Vec<Draft>| station.iter().map(Draft::layout).collect();
        let unsigned = |number: i64| u64::try_from(number).unwrap_or(u64::MAX);
        Route {
            shape: untiled(&self.sizes).shape(),
            cell_limit: unsigned(self.cell_limit),
            move_limit: unsigned(self.move_limit),
            stations: self.stations.iter().map(layouts).collect(),
        }
    }

    pub fn text(&self) -> String {
        let station_text = |station: &Vec<Draft>| layouts_text(station);
        let stations: Vec<String> = self.stations.iter().map(station_text).collect();
        format!("route {} {}", self.limits_text(), stations.join(" ; "))
    }

    /// SHAPE LIMIT MOVES.
    pub fn limits_text(&self) -> String {
        let sizes = joined(&self.sizes);
        format!("[{sizes}] {} {}", self.cell_limit, self.move_limit)
    }
}

/// The layouts of a station.
pub fn layouts_text(station: &[Draft]) -> String {
    let layouts: Vec<String> = station.iter().map(layout_text).collect();
    layouts.join(" ")
}

/// A route line, seldom damaged, sometimes with other spaces.
pub fn random_route_line(random: &mut Random) -> Vec<u8> {
    let line = random_route(random).text().into_bytes();
    seldom_damaged(random, line, b";;;{}:,")
}

/// A line as it is, or damaged, or with one of the marks more, or with other spaces.
pub fn seldom_damaged(random: &mut Random, mut line: Vec<u8>, marks: &[u8]) -> Vec<u8> {
    match random.below(100) {
        0..=2 => crate::damage::damage(random, line),
        3..=6 => {
            let place = random.below(line.len() as u64 + 1) as usize;
            line.insert(place, random.pick(marks));
            line
        }
        7..=16 => spaced(random, &line),
        _ => line,
    }
}

/// A small route that breaks no rule, for comparing with every plan.
pub fn small_route(random: &mut Random) -> RouteDraft {
    loop {
        let sizes = random_draft(random, true).sizes;
        let stations = stations(random, &sizes, 6, 4);
        let mut draft = RouteDraft {
            sizes,
            cell_limit: TOP_COUNT,
            move_limit: 63,
            stations,
        };
        limit(random, &mut draft);
        if matches!(best_plan(&draft.route()), Ok(_) | Err(Refusal::NoPlan)) {
            return draft;
        }
    }
}

fn random_route(random: &mut Random) -> RouteDraft {
    let small = random.percent(85);
    let sizes = random_draft(random, small).sizes;
    let (most_stations, most_choices) = match random.below(100) {
        0..=59 => (6, 4),
        60..=84 => (12, 8),
        85..=96 => (3, 3),
        _ => (64, 3),
    };
    let stations = stations(random, &sizes, most_stations, most_choices);
    let mut draft = RouteDraft {
        sizes,
        cell_limit: TOP_COUNT,
        move_limit: 63,
        stations,
    };
    limit(random, &mut draft);
    if random.percent(16) {
        break_rule(random, &mut draft);
        if random.percent(25) {
            break_rule(random, &mut draft);
        }
    }
    if random.percent(10) {
        // The rule of every layout comes before a repeat, the padded sizes behind it.
        if random.percent(35) {
            break_some_layout(random, &mut draft);
        }
        repeat_layouts(random, &mut draft);
    }
    draft
}

/// Stations whose layouts, different ones, come from one small pool, so that neighbours often agree.
pub fn stations(
    random: &mut Random,
    sizes: &[i64],
    most_stations: u64,
    most_choices: usize,
) -> Vec<Vec<Draft>> {
    let pool = random_pool(random, sizes, most_choices);
    let count = match most_stations {
        64 => random.between(60, 64) as u64,
        _ => 1 + random.below(most_stations),
    };
    let mut stations = Vec::new();
    for _ in 0..count {
        let choices = (1 + random.pick_place(most_choices)).min(pool.len());
        let mut left = pool.clone();
        let pick = |_| left.swap_remove(random.pick_place(left.len()));
        stations.push((0..choices).map(pick).collect());
    }
    stations
}
