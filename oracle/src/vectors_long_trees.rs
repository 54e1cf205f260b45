//! Vectors about long trees: 64 stations and 65 in every form, the largest total, and lines as long as they can be.

use crate::answer::MAX_LINE;
use crate::vectors::group;
use crate::vectors_trees::planted;

/// The forms of trees: the parent of each station but the first.
const FORMS: [fn(usize) -> usize; 8] = [
    // A row, and all from the first station.
    |station| station - 1,
    |_| 0,
    // Two children to each, and two, nine or 21 rows side by side.
    |station| (station - 1) / 2,
    |station| station.saturating_sub(2),
    |station| station.saturating_sub(9),
    |station| station.saturating_sub(21),
    // A row with one more at each station, and a row with all others from its end.
    |station| (station - 1) / 2 * 2,
    |station| (station - 1).min(40),
];

/// Stations of which four of five may be small, where that saves more than the moves cost.
const SAVING: [&str; 5] = [
    "{0:T(9)}",
    "{0} {0:T(9)}",
    "{0:T(9)} {0}",
    "{0:T(3)} {0} {0:T(9)}",
    "{0} {0:T(9)} {0:T(3)}",
];

const EIGHT: &str = "{0:T(3)} {0:T(4)} {0:T(1)} {0:T(3)(1)} {0:T(4)(1)} {0:T(1)(1)} {0:T(2)} {0}";
const TURNED: &str = "{0} {0:T(2)} {0:T(1)(1)} {0:T(4)(1)} {0:T(3)(1)} {0:T(1)} {0:T(4)} {0:T(3)}";

/// The parents of so many stations, the first one's a number that is not read.
fn parents(form: fn(usize) -> usize, count: usize) -> Vec<usize> {
    let later = (1..count).map(form);
    std::iter::once(count).chain(later).collect()
}

/// Trees of 64 stations and 65, with limits around what they need.
pub fn long_trees(text: &mut String) {
    let mut lines = Vec::new();
    for form in FORMS {
        let tree = |count: usize, layouts: &[&str]| planted(&parents(form, count), layouts);
        for moves in [63, 62, 32, 31, 0] {
            let stations = tree(64, &["{0}", "{0:T(2)}"]);
            lines.push(format!("tree [3] 4 {moves} {stations}"));
        }
        for moves in [63, 17, 12, 5, 3, 0] {
            lines.push(format!("tree [2] 9 {moves} {}", tree(64, &SAVING)));
        }
        lines.push(format!("tree [3] 4 63 {}", tree(64, &[EIGHT, TURNED])));
        lines.push(format!(
            "tree [3] 3 63 {}",
            tree(64, &[EIGHT, "{0:T(1)} {0}"])
        ));
        lines.push(format!("tree [3] 4 63 {}", tree(65, &["{0}"])));
    }
    group(
        text,
        "trees: 64 stations and 65, in every form",
        lines.iter(),
    );
    largest_totals(text);
    long_refusals(text);
    full_tree(text);
}

/// The largest total: every station at 2^40 cells and 63 moves.
fn largest_totals(text: &mut String) {
    let star = format!("7 {{1,0}}{}", " ; 0 {0,1}".repeat(63));
    let row = planted(&parents(FORMS[0], 64), &["{1,0}", "{0,1}"]);
    let top: u64 = 1 << 40;
    let mut lines = Vec::new();
    for stations in [star, row] {
        for (cells, moves) in [(top, 63), (top, 62), (top - 1, 63)] {
            lines.push(format!("tree [1048576,1048576] {cells} {moves} {stations}"));
        }
    }
    let title = "trees: the largest total, and limits one below";
    group(text, title, lines.iter());
}

/// Broken rules among 64 stations and more.
fn long_refusals(text: &mut String) {
    // One station of so many names that parent.
    let named = |count: usize, station: usize, parent: usize| {
        let mut parents = parents(FORMS[2], count);
        parents[station] = parent;
        planted(&parents, &["{0}"])
    };
    let good = |count: usize| named(count, 0, 0);
    let stations = [
        named(64, 63, 62),
        named(64, 63, 63),
        named(64, 63, 64),
        named(64, 32, 31),
        named(64, 32, 32),
        named(64, 1, 63),
        // The station that is one too many, and those behind it.
        named(65, 64, 64),
        named(65, 64, 99),
        named(65, 3, 3),
        named(66, 65, 0),
        named(70, 69, 1000),
        // Other rules at the last station.
        format!("{} ; 0 {{1}}", good(63)),
        format!("{} ; 63 {{1}}", good(63)),
        format!("{} ; 0 {{0}} {{0}}", good(63)),
        format!("{} ; 63 {{0}} {{0}}", good(63)),
        format!("{} ; 0 {{1}}", good(64)),
        // Unreadable behind the stations that are held.
        format!("{} ; {{0}}", good(64)),
        format!("{} ; {{0}} ; 0 {{0}}", good(80)),
        format!("{} ; 0 ; 0 {{0}}", good(80)),
    ];
    let mut lines: Vec<String> = stations
        .map(|stations| format!("tree [3] 9 0 {stations}"))
        .into();
    lines.push(format!("tree [0] 9 0 {}", named(65, 64, 64)));
    lines.push(format!("tree [0] 9 0 {}", named(64, 63, 63)));
    let title = "trees: broken rules among 64 stations and more";
    group(text, title, lines.iter());
}

/// A line that is full.
fn full_tree(text: &mut String) {
    let start = "tree [3] 9 0 0{0}";
    let full = format!("{start}{}", ";0{0}".repeat((MAX_LINE - start.len()) / 5));
    let title = "trees: as many stations as a line holds";
    group(text, title, [full].iter());
}
