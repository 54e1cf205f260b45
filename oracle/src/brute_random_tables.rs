//! Brute force on random requests about offset tables: answered a second time by trial, and by wrong rules.

use crate::brute::Tally;
use crate::brute_tables::compare;
use crate::offset_table_by_trial::{answer_by_rules, Rules};
use crate::random::Random;
use crate::random_tables::random_table;
use crate::wrong::Wrong;
use crate::wrong_list_rules::WRONG_LIST_RULES;
use crate::wrong_table_rules::WRONG_TABLE_RULES;

const SEED: u64 = 10;
const REQUESTS: usize = 10_000;

/// Compares both ways on random requests, and shows that the rules decide answers.
pub fn brute_random_tables(tally: &mut Tally) -> Result<(), String> {
    for wrong in compare_requests(tally, SEED, REQUESTS)? {
        println!("brute: {wrong}");
    }
    Ok(())
}

/// Compares both ways on random requests. Says of each wrong rule where it shows.
pub fn compare_requests(tally: &mut Tally, seed: u64, count: usize) -> Result<Vec<String>, String> {
    let mut random = Random::new(seed);
    let mut wrong: Vec<(Wrong, Rules)> = wrong_rules()
        .map(|(name, rules)| (Wrong::new(name), rules))
        .collect();
    for _ in 0..count {
        let draft = random_table(&mut random);
        let request = draft.request();
        let answer = compare(tally, &request.table, &request.question)?;
        for (wrong, rules) in &mut wrong {
            if answer_by_rules(&request.table, &request.question, rules) != answer {
                wrong.add(draft.text());
            }
        }
    }
    wrong
        .iter()
        .map(|(wrong, _)| wrong.shown(tally, count, "requests about tables"))
        .collect()
}

/// All wrong rules with their names.
pub fn wrong_rules() -> impl Iterator<Item = (&'static str, Rules)> {
    WRONG_TABLE_RULES.into_iter().chain(WRONG_LIST_RULES)
}
