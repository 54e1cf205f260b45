//! Vectors about long offset tables: 4,096 elements and 4,097, 64 layouts for them, and lines as long as they can be.

use crate::answer::MAX_LINE;
use crate::offset_table::OffsetTable;
use crate::vectors::group;
use crate::vectors_own_tables::{own_table, table_text};

const SHAPE: &str = "[64,64]";
const MAKER: &str = "{1,0:T(8,16)}";

/// Tables of 4,096 elements and more.
pub fn long_tables(text: &mut String) {
    let table = own_table(SHAPE, MAKER);
    let judged = |change: &dyn Fn(&mut OffsetTable)| {
        let mut table = table.clone();
        change(&mut table);
        format!("table {SHAPE} {}", table_text(&table))
    };
    let rows = |count: u64| joined(0..count);
    let lines = [
        judged(&|_| ()),
        // The last pair that is looked at, and an offset outside behind a pair.
        judged(&|table| table.offsets[4095] = table.offsets[4094]),
        judged(&|table| {
            table.offsets[1] = table.offsets[0];
            table.offsets[4095] = table.padded;
        }),
        judged(&|table| table.offsets.push(4096)),
        judged(&|table| table.offsets.truncate(4095)),
        format!("table [4096] 4096 ({})", rows(4096)),
        format!("table [4097] 4097 ({})", rows(4097)),
    ];
    group(
        text,
        "tables: 4,096 elements, and one more or less",
        lines.iter(),
    );
    long_list(text, &table);
    full_lines(text);
}

/// Only the last of 64 layouts makes the table.
fn long_list(text: &mut String, table: &OffsetTable) {
    let tiles = ["1,1", "2,1", "4,2", "8,4", "16,8", "8,8", "16,16", "32,2"];
    let mut layouts = Vec::new();
    for order in ["0,1", "1,0"] {
        for tile in tiles {
            let more = ["", "(2,1)", "(1)", "(4,4)"];
            layouts.extend(more.map(|more| format!("{{{order}:T({tile}){more}}}")));
        }
    }
    layouts[63] = MAKER.to_string();
    let line = format!("which {SHAPE} {} {}", table_text(table), layouts.join(" "));
    let title = "which: 4,096 elements, the last of 64 layouts";
    group(text, title, [line].iter());
}

/// Lines of 65,535 bytes, one that is longer, and as many offsets and layouts as a line holds.
fn full_lines(text: &mut String) {
    const TOP: u64 = 1 << 40;
    let wide = joined((0..4096).map(|element| TOP - 1 - element * 268_435_399));
    let filled = |layouts: usize| {
        let start = format!("which {SHAPE} {TOP} ({wide}) ");
        let list = "{1,0:T(1023,1022)(1021,1020,1019)(1018,1017)}".repeat(layouts);
        let spaces = " ".repeat(MAX_LINE - start.len() - list.len());
        format!("{start}{spaces}{list}")
    };
    let longest = joined((0..4096).map(|element| i64::MAX as u64 - element));
    let offsets = "table [1] 1 (0";
    let layouts = "which [1] 1 (0)";
    let lines = [
        filled(64),
        filled(65),
        format!("table [4096] {TOP} ({longest})"),
        format!(
            "{offsets}{})",
            ",0".repeat((MAX_LINE - offsets.len() - 1) / 2)
        ),
        format!("{layouts}{}", "{0}".repeat((MAX_LINE - layouts.len()) / 3)),
        // Unreadable behind what must be held.
        format!("{offsets}{},x)", ",0".repeat(5000)),
        format!("{layouts}{}{{x}}", "{0}".repeat(80)),
    ];
    let title = "tables: full lines, one that is too long, and unreadable ends";
    group(text, title, lines.iter());
}

fn joined(numbers: impl Iterator<Item = u64>) -> String {
    let words: Vec<String> = numbers.map(|number| number.to_string()).collect();
    words.join(",")
}
