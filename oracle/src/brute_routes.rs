//! Brute force on routes: random small ones, solved a second time by trying every plan, and at other prices of a move.

use crate::brute::Tally;
use crate::random::Random;
use crate::random_routes::{small_route, RouteDraft};
use crate::route::{best_plan, Plan};
use crate::route_by_trial::{plan_at_price, plan_by_trial, Price};

const SEED: u64 = 64;
const ROUTES: u64 = 5000;

/// Prices of a move that are not those of document 02, Q-4.
const OTHER_PRICES: [(&str, Price); 2] = [
    ("the later layout alone", |_, later| later),
    ("the earlier layout alone", |earlier, _| earlier),
];

/// Compares both solvers on routes of up to 6 stations of up to 4 layouts, and shows that the price decides plans.
pub fn brute_routes(tally: &mut Tally) -> Result<(), String> {
    let mut random = Random::new(SEED);
    let routes: Vec<RouteDraft> = (0..ROUTES).map(|_| small_route(&mut random)).collect();
    for draft in &routes {
        let route = draft.route();
        let same = best_plan(&route) == plan_by_trial(&route);
        tally
            .agree(same, "a route")
            .map_err(|what| format!("{what}: {}", draft.text()))?;
    }
    for (name, price) in OTHER_PRICES {
        compare_price(tally, &routes, name, price)?;
    }
    Ok(())
}

/// Another price refuses the same routes, and gives some of them another plan.
fn compare_price(
    tally: &mut Tally,
    routes: &[RouteDraft],
    name: &str,
    price: Price,
) -> Result<(), String> {
    let places = |plan: Plan| plan.places;
    let mut changed: Vec<&RouteDraft> = Vec::new();
    for draft in routes {
        let best = plan_by_trial(&draft.route()).map(places);
        let other = plan_at_price(&draft.route(), price).map(places);
        tally
            .agree(best.is_ok() == other.is_ok(), "a refusal by price")
            .map_err(|what| format!("{what}: {}", draft.text()))?;
        if best != other {
            changed.push(draft);
        }
    }
    tally.agree(!changed.is_empty(), "a plan that the price decides")?;
    let (count, all, first) = (changed.len(), routes.len(), changed[0].text());
    println!("brute: {count} of {all} routes have another plan where a move costs {name}, the first: {first}");
    Ok(())
}
