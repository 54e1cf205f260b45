//! Brute force on offset tables: every small table, and the tables of all small layouts, answered a second time by trial.

use crate::brute::Tally;
use crate::brute_random_tables::brute_random_tables;
use crate::layout::{padded_size, Layout};
use crate::offset_table::{
    answer_table, table_of, Finding, OffsetTable, TableAnswer, TableQuestion,
};
use crate::offset_table_by_trial::{answer_by_rules, RULES};
use crate::refusal::Refusal;
use crate::shape::{element_count, Shape};
use crate::small_cases::{permutations, shapes, tile_lists, tuples};

/// Compares both ways of answering, and shows that the rules decide answers.
pub fn brute_tables(tally: &mut Tally) -> Result<(), String> {
    small_tables(tally)?;
    own_tables(tally)?;
    brute_random_tables(tally)
}

/// Every table of up to four offsets from 0 to 5 with padded sizes from 0 to 6, for small shapes and a broken one.
pub fn small_tables(tally: &mut Tally) -> Result<(), String> {
    let sizes: [&[u64]; 9] = [&[], &[1], &[2], &[3], &[4], &[2, 2], &[1, 3], &[0], &[5]];
    let tables: Vec<Vec<u64>> = (0..=4)
        .flat_map(|length| tuples(&[0, 1, 2, 3, 4, 5], length))
        .collect();
    for sizes in sizes {
        let shape = Shape {
            sizes: sizes.to_vec(),
        };
        let layouts = some_layouts(&shape);
        let reversed: Vec<Layout> = layouts.iter().rev().cloned().collect();
        let questions = [
            TableQuestion::Judge,
            TableQuestion::Which(vec![]),
            TableQuestion::Which(layouts),
            TableQuestion::Which(reversed),
        ];
        for (offsets, padded) in tables
            .iter()
            .flat_map(|table| (0..=6).map(move |p| (table, p)))
        {
            let table = OffsetTable {
                shape: shape.clone(),
                padded,
                offsets: offsets.clone(),
            };
            for question in &questions {
                compare(tally, &table, question).map(drop)?;
            }
        }
    }
    Ok(())
}

/// Up to 64 accepted layouts, every order with no tile and with small ones, and for a broken shape the untiled ones.
fn some_layouts(shape: &Shape) -> Vec<Layout> {
    let mut layouts = Vec::new();
    for minor_to_major in permutations(shape.sizes.len()) {
        for tiles in tile_lists() {
            layouts.push(Layout {
                minor_to_major: minor_to_major.clone(),
                tiles,
            });
        }
    }
    let is_small = |layout: &Layout| padded_size(shape, layout).is_ok_and(|padded| padded <= 6);
    let is_kept = |layout: &Layout| match element_count(shape) {
        Ok(_) => is_small(layout),
        Err(_) => layout.tiles.is_empty(),
    };
    layouts.retain(is_kept);
    layouts.truncate(64);
    layouts
}

/// The table of every small layout is sound, and the layout is found in a list that holds it.
fn own_tables(tally: &mut Tally) -> Result<(), String> {
    let tile_lists = tile_lists();
    for shape in shapes() {
        let plain = Layout {
            minor_to_major: (0..shape.sizes.len() as u64).rev().collect(),
            tiles: vec![],
        };
        for minor_to_major in permutations(shape.sizes.len()) {
            for tiles in &tile_lists {
                let layout = Layout {
                    minor_to_major: minor_to_major.clone(),
                    tiles: tiles.clone(),
                };
                if let Ok(table) = table_of(&shape, &layout) {
                    own_table(tally, &table, &plain, &layout)?;
                }
            }
        }
    }
    Ok(())
}

fn own_table(
    tally: &mut Tally,
    table: &OffsetTable,
    plain: &Layout,
    maker: &Layout,
) -> Result<(), String> {
    let found = compare(tally, table, &TableQuestion::Judge)?;
    let is_sound = found == Ok(TableAnswer::Found(Finding::Sound));
    let list = TableQuestion::Which(vec![plain.clone(), maker.clone()]);
    let place = compare(tally, table, &list)?;
    let is_plain = table.padded == table.offsets.len() as u64 && table.offsets.is_sorted();
    let is_found = place == Ok(TableAnswer::Layout(usize::from(!is_plain)));
    tally
        .agree(is_sound && is_found, "an own table")
        .map_err(|what| format!("{what}: {table:?} {maker:?}"))
}

/// Compares both ways on one request, and hands on the answer.
pub fn compare(
    tally: &mut Tally,
    table: &OffsetTable,
    question: &TableQuestion,
) -> Result<Result<TableAnswer, Refusal>, String> {
    let answer = answer_table(table, question);
    let same = answer == answer_by_rules(table, question, &RULES);
    tally
        .agree(same, "a table")
        .map_err(|what| format!("{what}: {table:?} {question:?}"))?;
    Ok(answer)
}
