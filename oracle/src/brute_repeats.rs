//! Brute force on repeated layouts: all pairs that are written alike, and which of them other orders of search find first.

use crate::brute::Tally;
use crate::random::Random;
use crate::random_requests::layout_text;
use crate::random_route_repeats::repeat_layouts;
use crate::random_routes::{small_route, RouteDraft};
use crate::refusal::Refusal;
use crate::route::{best_plan, MAX_CHOICES, MAX_STATIONS};

const SEED: u64 = 9;
const ROUTES: usize = 5000;

/// At least so many of the routes hold a repeat, and at least so many hold several.
const LEAST_REPEATED: usize = 3500;
const LEAST_SEVERAL: usize = 1500;

/// Two places of a station with the same text.
#[derive(Clone, Copy, PartialEq, Eq)]
struct Pair {
    station: usize,
    earlier: usize,
    later: usize,
}

/// A search finds the pair first for which this is least.
type Order = fn(&Pair) -> (usize, usize, usize);

/// The order of document 02, Q-9.
const ORDER: Order = |pair| (pair.station, pair.later, pair.earlier);

const OTHER_ORDERS: [(&str, Order); 3] = [
    ("the later place is sought from the back", |pair| {
        (pair.station, MAX_CHOICES - pair.later, pair.earlier)
    }),
    ("the stations are searched from the last", |pair| {
        (MAX_STATIONS - pair.station, pair.later, pair.earlier)
    }),
    ("the earlier place is sought first", |pair| {
        (pair.station, pair.earlier, pair.later)
    }),
];

/// A route as it is written, and all its pairs.
struct Case {
    draft: RouteDraft,
    pairs: Vec<Pair>,
}

/// Compares the refusal with the least of all pairs, and shows that the order of search decides it.
pub fn brute_repeats(tally: &mut Tally) -> Result<(), String> {
    let mut random = Random::new(SEED);
    let cases: Vec<Case> = (0..ROUTES).map(|_| random_case(&mut random)).collect();
    for case in &cases {
        let refusal = best_plan(&case.draft.route()).err();
        let found = refusal.filter(|refusal| refusal.number() == 3);
        let same = found == case.first(ORDER).map(refusal_of);
        tally
            .agree(same, "a repeated layout")
            .map_err(|what| format!("{what}: {}", case.draft.text()))?;
    }
    count_repeats(tally, &cases)?;
    for (name, order) in OTHER_ORDERS {
        compare_order(tally, &cases, name, order)?;
    }
    Ok(())
}

/// A small route that breaks no rule but, most often, this one.
fn random_case(random: &mut Random) -> Case {
    let mut draft = small_route(random);
    if random.percent(80) {
        repeat_layouts(random, &mut draft);
    }
    let pairs = pairs(&draft);
    Case { draft, pairs }
}

/// Every pair of places of every station whose layouts have the same text.
fn pairs(draft: &RouteDraft) -> Vec<Pair> {
    let mut pairs = Vec::new();
    for (station, layouts) in draft.stations.iter().enumerate() {
        let texts: Vec<String> = layouts.iter().map(layout_text).collect();
        for earlier in 0..texts.len() {
            let alike = (earlier + 1..texts.len()).filter(|later| texts[*later] == texts[earlier]);
            pairs.extend(alike.map(|later| Pair {
                station,
                earlier,
                later,
            }));
        }
    }
    pairs
}

impl Case {
    fn first(&self, order: Order) -> Option<Pair> {
        self.pairs.iter().min_by_key(|pair| order(pair)).copied()
    }
}

fn refusal_of(pair: Pair) -> Refusal {
    Refusal::RepeatedLayout {
        station: pair.station,
        earlier: pair.earlier,
        later: pair.later,
    }
}

/// Enough of the routes hold a repeat, and enough hold several.
fn count_repeats(tally: &mut Tally, cases: &[Case]) -> Result<(), &'static str> {
    let repeated = cases.iter().filter(|case| !case.pairs.is_empty()).count();
    let several = cases.iter().filter(|case| case.pairs.len() > 1).count();
    tally.agree(repeated >= LEAST_REPEATED, "enough repeated layouts")?;
    tally.agree(several >= LEAST_SEVERAL, "enough routes with several")?;
    println!("brute: {repeated} of {ROUTES} routes have a layout twice in a station, {several} have several such pairs");
    Ok(())
}

/// Another order of search finds another pair first in some of the routes.
fn compare_order(
    tally: &mut Tally,
    cases: &[Case],
    name: &str,
    order: Order,
) -> Result<(), &'static str> {
    let is_changed = |case: &&Case| case.first(order) != case.first(ORDER);
    let changed: Vec<&Case> = cases.iter().filter(is_changed).collect();
    tally.agree(!changed.is_empty(), "a repeat that the order decides")?;
    let (count, first) = (changed.len(), changed[0].draft.text());
    println!(
        "brute: {count} of {ROUTES} routes have another repeat where {name}, the first: {first}"
    );
    Ok(())
}
