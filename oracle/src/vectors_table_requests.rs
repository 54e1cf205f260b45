//! All vectors about offset tables but the random ones, in the order in which they are written.

use crate::vectors::group;
use crate::vectors_long_tables::long_tables;
use crate::vectors_own_tables::own_tables;
use crate::vectors_table_rules::{broken_rules, TABLE_RULES};
use crate::vectors_table_unreadable::TABLE_TOKENS;
use crate::vectors_tables::TABLES;
use crate::vectors_which::{which_of_many, WHICH};

pub fn table_requests(text: &mut String) {
    let tables = TABLES.iter().chain(WHICH).chain(TABLE_RULES);
    for (title, lines) in tables.chain(TABLE_TOKENS) {
        group(text, title, lines.iter());
    }
    own_tables(text);
    which_of_many(text);
    broken_rules(text);
    long_tables(text);
}
