//! Brute force on trees: random small ones, solved a second time by trying every plan, and by wrong rules.

use crate::brute::Tally;
use crate::random::Random;
use crate::random_trees::{small_tree, TreeDraft};
use crate::refusal::Refusal;
use crate::route::{best_plan, Plan};
use crate::tree::best_tree_plan;
use crate::tree_by_trial::{tree_plans_by_rules, Rules, RULES};
use crate::wrong::Wrong;
use crate::wrong_tree_rules::WRONG_RULES;

const SEED: u64 = 11;
const TREES: usize = 10_000;

/// Compares both planners on trees of up to 8 stations, and shows that the rules decide plans.
pub fn brute_trees(tally: &mut Tally) -> Result<(), String> {
    for wrong in compare_trees(tally, SEED, TREES)? {
        println!("brute: {wrong}");
    }
    Ok(())
}

/// Compares both planners on so many trees. Says of each wrong planner where it shows.
pub fn compare_trees(tally: &mut Tally, seed: u64, count: usize) -> Result<Vec<String>, String> {
    let mut random = Random::new(seed);
    let names = WRONG_RULES.iter().map(|(name, _)| *name);
    let mut wrong: Vec<Wrong> = names
        .chain(["each station's parent is the one before"])
        .map(Wrong::new)
        .collect();
    for _ in 0..count {
        let draft = small_tree(&mut random);
        compare_tree(tally, &draft, &mut wrong)
            .map_err(|what| format!("{what}: {}", draft.text()))?;
    }
    wrong
        .iter()
        .map(|wrong| wrong.shown(tally, count, "trees"))
        .collect()
}

/// Compares both planners on one tree, and tries the wrong ones.
fn compare_tree(
    tally: &mut Tally,
    draft: &TreeDraft,
    wrong: &mut [Wrong],
) -> Result<(), &'static str> {
    let tree = draft.tree();
    let rules: Vec<Rules> = [RULES]
        .into_iter()
        .chain(WRONG_RULES.map(|(_, rules)| rules))
        .collect();
    let mut plans = tree_plans_by_rules(&tree, &rules).map_err(|_| "a tree that breaks no rule")?;
    let best = plans.remove(0);
    let found = best_tree_plan(&tree);
    tally.agree(found == best.clone().ok_or(Refusal::NoPlan), "a tree")?;
    plans.push(best_plan(&tree.route).ok());
    let places = |plan: Option<Plan>| plan.map(|plan| plan.places);
    let best = places(best);
    for (wrong, plan) in wrong.iter_mut().zip(plans) {
        if places(plan) != best {
            wrong.add(draft.text());
        }
    }
    Ok(())
}
