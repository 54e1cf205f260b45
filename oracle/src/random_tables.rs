//! Random lines about offset tables: the tables of random layouts, as they are or damaged, and lists to find the layout in.

use crate::offset_table::{table_of, OffsetTable, TableQuestion};
use crate::random::Random;
use crate::random_pieces::{unsigned, Draft};
use crate::random_requests::joined;
use crate::random_route_pools::{different_layouts, untiled};
use crate::random_routes::{layouts_text, seldom_damaged};
use crate::random_table_breaks::{break_rule, damage_offset, other_padded};
use crate::random_table_lists::random_list;
use crate::request_table::TableRequest;

/// A request about a table as it is written; without a list it asks for the judge.
pub struct TableDraft {
    pub sizes: Vec<i64>,
    pub padded: i64,
    pub offsets: Vec<i64>,
    pub layouts: Option<Vec<Draft>>,
}

impl TableDraft {
    pub fn request(&self) -> TableRequest {
        let table = OffsetTable {
            shape: untiled(&self.sizes).shape(),
            padded: u64::try_from(self.padded).unwrap_or(u64::MAX),
            offsets: unsigned(&self.offsets),
        };
        let question = match &self.layouts {
            None => TableQuestion::Judge,
            Some(layouts) => TableQuestion::Which(layouts.iter().map(Draft::layout).collect()),
        };
        TableRequest { table, question }
    }

    pub fn text(&self) -> String {
        let (sizes, offsets) = (joined(&self.sizes), joined(&self.offsets));
        let table = format!("[{sizes}] {} ({offsets})", self.padded);
        match &self.layouts {
            None => format!("table {table}"),
            Some(layouts) => format!("which {table} {}", layouts_text(layouts)),
        }
    }
}

/// A line about a table, seldom damaged, sometimes with other spaces.
pub fn random_table_line(random: &mut Random) -> Vec<u8> {
    let line = random_table(random).text().into_bytes();
    seldom_damaged(random, line, b"()()[]{},,-01")
}

/// A request for the judge, or with a list of layouts. Either may break rules.
pub fn random_table(random: &mut Random) -> TableDraft {
    let sizes = random_sizes(random);
    let maker = different_layouts(random, &sizes, 1).remove(0);
    let mut draft = draft_of(&maker);
    if random.percent(55) {
        draft.layouts = Some(random_list(random, &maker));
    }
    let is_judged = draft.layouts.is_none();
    if random.percent(if is_judged { 70 } else { 15 }) {
        for _ in 0..random.pick(&[1, 1, 1, 2, 2, 3, 5]) {
            damage_offset(random, &mut draft);
        }
    }
    if random.percent(if is_judged { 25 } else { 10 }) {
        draft.padded = other_padded(random, &draft);
    }
    if random.percent(if is_judged { 15 } else { 30 }) {
        // Several broken rules show which number is judged first.
        for _ in 0..random.pick(&[1, 1, 1, 2, 2, 3]) {
            break_rule(random, &mut draft);
        }
    }
    draft
}

/// Sizes of at most 81 elements.
fn random_sizes(random: &mut Random) -> Vec<i64> {
    let rank = random.pick(&[0, 1, 1, 2, 2, 2, 2, 3, 3, 3, 4, 5, 6]);
    let largest = [1, 30, 7, 4, 3, 2, 2][rank];
    (0..rank).map(|_| random.between(1, largest)).collect()
}

/// The table of an accepted layout, as the judge is asked about it.
fn draft_of(maker: &Draft) -> TableDraft {
    let table = made_by(maker);
    TableDraft {
        sizes: maker.sizes.clone(),
        padded: table.padded as i64,
        offsets: table.offsets.iter().map(|offset| *offset as i64).collect(),
        layouts: None,
    }
}

/// The table of an accepted layout.
pub fn made_by(maker: &Draft) -> OffsetTable {
    table_of(&maker.shape(), &maker.layout()).expect("a layout that is accepted")
}
