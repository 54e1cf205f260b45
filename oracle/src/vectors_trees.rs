//! Vectors about trees of stations (document 02, Q-11): samples, moves over all branches, ties, and the cell limit.

use crate::vectors::{group, Group};

/// The layouts that a letter stands for in the lines below.
const LETTERS: [(&str, &str); 9] = [
    ("A", "{1,0}"),
    ("B", "{0,1}"),
    ("T", "{1,0:T(8,128)}"),
    ("U", "{1,0:T(2,2)}"),
    ("a", "{0}"),
    ("t", "{0:T(2)}"),
    ("u", "{0:T(4)}"),
    ("v", "{0:T(8)}"),
    ("w", "{0:T(64)}"),
];

const TREES: &[Group] = &[
    (
        "document 02, Q-11, samples of trees: A untiled, T one tile (8,128)",
        &[
            "tree [3,5] 9999 2 7 A ; 0 T ; 0 T",
            "tree [3,5] 9999 1 7 A ; 0 T ; 0 T",
            "tree [3,5] 9999 2 7 A ; 0 T ; 1 T",
            "tree [3,5] 9999 1 7 A ; 0 T ; 1 T",
            "tree [3,5] 1099511627776 1 0 T ; 0 T ; 0 A T ; 1 A T ; 2 A T ; 4 A T ; 3 A T ; 6 A T",
            "tree [3,5] 1099511627776 1 0 A T ; 0 T A ; 1 T",
            "tree [3,5] 1099511627776 0 0 A T ; 0 T A ; 1 T",
            "tree [3,5] 1099511627776 1 0 A T ; 0 T A ; 0 T",
            "tree [3,5] 1099511627776 0 0 T ; 0 A",
            "tree [4,4] 1099511627776 0 0 A B",
            "tree [] 1 0 0 {} ; 0 {} ; 0 {}",
        ],
    ),
    (
        "trees: the moves of all branches are counted together",
        &[
            "tree [3] 9 0 0 a ; 0 a ; 0 a ; 1 a ; 1 a",
            "tree [3] 9 0 0 a ; 0 t ; 0 a",
            "tree [3] 9 1 0 a ; 0 t ; 0 a",
            "tree [3] 9 1 0 a ; 0 t ; 0 t",
            "tree [3] 9 2 0 a ; 0 t ; 0 t",
            "tree [3] 9 1 0 a ; 0 t ; 1 t",
            "tree [3] 9 1 0 a t ; 0 t ; 0 t",
            "tree [3] 9 0 0 a t ; 0 t ; 0 t",
            "tree [3] 9 1 0 a t ; 0 t ; 0 a",
            "tree [3] 9 0 0 a t ; 0 t ; 0 a",
            "tree [3] 9 2 0 a ; 0 a ; 0 a ; 1 t ; 2 t",
            "tree [3] 9 1 0 a ; 0 a ; 0 a ; 1 t ; 2 t",
            "tree [3] 9 3 0 a ; 0 t ; 0 t ; 1 a ; 2 t",
            "tree [3] 9 2 0 a ; 0 t ; 0 t ; 1 a ; 2 t",
            "tree [3] 9 4 0 a ; 0 t ; 0 t ; 1 a ; 2 u",
            "tree [3] 9 3 0 a ; 0 t ; 0 t ; 1 a ; 2 u",
            "tree [3] 9 2 0 a t ; 0 t ; 0 t ; 1 a ; 2 u",
            "tree [3] 9 1 0 a t ; 0 t ; 0 t ; 1 a ; 2 u",
        ],
    ),
    (
        "trees: a parent is read for each child that moves, and paid once by itself",
        &[
            "tree [4] 8 0 0 v ; 0 v ; 0 v ; 0 v",
            "tree [4] 8 3 0 v ; 0 a ; 0 a ; 0 a",
            "tree [4] 8 3 0 a ; 0 v ; 0 v ; 0 v",
            "tree [4] 8 3 0 a v ; 0 v ; 0 v ; 0 v",
            "tree [4] 8 3 0 v a ; 0 v a ; 0 v a ; 0 v a",
            "tree [4] 8 3 0 v ; 0 v a ; 0 v a ; 0 v a",
            "tree [4] 8 1 0 v ; 0 v a ; 1 v a ; 1 v a",
            "tree [4] 8 1 0 v ; 0 v a ; 1 v a ; 1 v a ; 1 v a",
            "tree [4] 8 1 0 v ; 0 v a ; 1 v a ; 1 v a ; 1 v a ; 1 v a",
            "tree [4] 8 2 0 v ; 0 v a ; 1 v a ; 1 v a ; 1 v a ; 1 v a ; 1 v",
            "tree [4] 64 2 0 w v ; 0 a w ; 0 a w",
            "tree [4] 64 2 0 w ; 0 a w ; 0 a w ; 1 a w ; 2 a w",
            "tree [4] 64 1 0 w ; 0 a w ; 0 a w ; 1 a w ; 2 a w",
            "tree [4] 64 1 0 w ; 0 a w ; 0 a w ; 1 a w ; 2 a w ; 2 a w",
            "tree [4] 64 1 0 w ; 0 a w ; 0 a w ; 1 a w ; 2 v w ; 2 v w",
        ],
    ),
    (
        "trees: the first plan by station number among equals",
        &[
            "tree [4,4] 99 1 0 A B ; 0 A ; 0 B",
            "tree [4,4] 99 1 0 B A ; 0 A ; 0 B",
            "tree [4,4] 99 63 0 A B ; 0 A B ; 0 B A ; 1 B A ; 2 B A",
            "tree [4,4] 99 63 0 {1,0:T(1)} A B ; 0 B A {1,0:T(1)} ; 0 A {1,0:T(1)} B",
            "tree [4,4] 99 2 0 B ; 0 A B ; 1 A ; 0 B A ; 3 A",
            "tree [4,4] 99 1 0 B ; 0 A B ; 1 A ; 0 B A ; 3 A",
            "tree [3,5] 9999 1 0 T ; 0 T ; 0 A T ; 1 A T ; 2 A T ; 3 A T",
            "tree [3,5] 9999 1 0 T ; 0 T ; 0 T A ; 1 T A ; 2 T A ; 3 T A",
            "tree [3,5] 9999 1 0 T ; 0 A T ; 0 T ; 1 A T ; 2 A T ; 4 A T",
            "tree [3,5] 9999 1 0 T ; 0 T A ; 0 T ; 1 T A ; 2 T A ; 4 T A",
            "tree [3,5] 9999 0 0 T ; 0 T ; 0 A T ; 1 A T ; 2 A T ; 3 A T",
            "tree [3,5] 9999 2 0 T ; 0 T ; 0 A T ; 1 A T ; 2 A T ; 3 A T",
            "tree [3,5] 9999 1 0 T ; 0 T ; 0 T ; 0 A T ; 2 A T ; 1 A T ; 3 A T ; 4 A T ; 5 A T",
            "tree [3,5] 9999 2 0 T ; 0 T ; 0 T ; 0 A T ; 2 A T ; 1 A T ; 3 A T ; 4 A T ; 5 A T",
            "tree [3,5] 9999 1 0 T ; 0 T ; 0 T ; 2 A T ; 1 A T ; 3 A T ; 4 A T",
            "tree [3,5] 9999 1 0 T ; 0 T ; 0 A B T ; 1 B A T ; 2 B A T ; 3 A B T",
            "tree [3,5] 9999 2 0 T ; 0 T ; 0 A B T ; 1 B A T ; 2 B A T ; 3 A B T",
        ],
    ),
    (
        "trees: the cell limit at a padded size and one below",
        &[
            "tree [3,5] 24 1 0 A ; 0 A ; 0 U",
            "tree [3,5] 23 1 0 A ; 0 A ; 0 U",
            "tree [3,5] 24 0 0 U A ; 0 U ; 0 A U",
            "tree [3,5] 23 0 0 U A ; 0 U ; 0 A U",
            "tree [3,5] 23 0 0 U A ; 0 U A ; 0 A U",
            "tree [3,5] 15 0 0 U A ; 0 U A ; 1 A U ; 0 A",
            "tree [3,5] 14 63 0 U A ; 0 U A ; 1 A U ; 0 A",
            "tree [3,5] 1024 1 0 A T ; 0 T ; 0 U T ; 2 U",
            "tree [3,5] 1023 1 0 A T ; 0 T ; 0 U T ; 2 U",
            "tree [1048576,1048576] 1099511627776 2 0 A ; 0 B ; 0 B",
            "tree [1048576,1048576] 1099511627775 2 0 A ; 0 B ; 0 B",
        ],
    ),
    (
        "trees: layouts that differ as written move, whatever their cells",
        &[
            "tree [4,4] 99 1 0 A ; 0 A ; 0 {1,0:T(1)}",
            "tree [4,4] 99 0 0 A ; 0 A ; 0 {1,0:T(1)}",
            "tree [4,4] 99 0 0 A ; 0 A ; 0 {1,0:T(1)} A",
            "tree [4,4] 99 1 0 {1,0:T(1)} ; 0 {1,0:T(1,1)} ; 0 {1,0:T(1)}",
            "tree [4,4] 99 0 0 {1,0:T(2)(1)} ; 0 {1,0:T(2)} ; 0 {1,0:T(2)(1)}",
            "tree [4,4] 99 1 0 {1,0:T(2)(1)} ; 0 {1,0:T(2)} ; 0 {1,0:T(2)(1)}",
            "tree [1,1] 1 0 0 A ; 0 A ; 0 B",
            "tree [1,1] 1 1 0 A ; 0 A ; 0 B",
            "tree [1,1] 1 2 0 A ; 0 B ; 0 B",
            "tree [1,1] 1 1 0 A ; 0 B ; 1 B",
        ],
    ),
];

/// The groups above, and every tree of three, four and five stations, each with the limits on moves that decide.
pub fn trees(text: &mut String) {
    for (title, lines) in TREES {
        group(text, title, lines.iter().map(|line| spelled(line)));
    }
    let stations = [
        "{0:T(9)}",
        "{0} {0:T(9)}",
        "{0:T(9)} {0}",
        "{0} {0:T(9)}",
        "{0:T(3)} {0}",
    ];
    let mut lines = Vec::new();
    for count in [3, 4, 5] {
        for parents in all_parents(count) {
            for moves in 0..3 {
                let stations = planted(&parents, &stations[..count]);
                lines.push(format!("tree [2] 9 {moves} {stations}"));
            }
        }
    }
    let title = "trees: every form of three, four and five stations";
    group(text, title, lines.iter());
}

/// The line with the layouts that its letters stand for.
pub fn spelled(line: &str) -> String {
    let layout = |word| {
        let mut letters = LETTERS.iter();
        let found = letters.find(|(letter, _)| *letter == word);
        found.map_or(word, |(_, layout)| *layout)
    };
    let words: Vec<&str> = line.split(' ').map(layout).collect();
    words.join(" ")
}

/// Every choice of earlier parents for so many stations.
fn all_parents(count: usize) -> Vec<Vec<usize>> {
    let mut all = vec![vec![0]];
    for station in 1..count {
        let mut longer = Vec::new();
        for parents in &all {
            longer.extend((0..station).map(|parent| [&parents[..], &[parent]].concat()));
        }
        all = longer;
    }
    all
}

/// Stations with their parents, the layouts taken from a list in turn.
pub fn planted(parents: &[usize], layouts: &[&str]) -> String {
    let station = |(k, parent): (usize, &usize)| format!("{parent} {}", layouts[k % layouts.len()]);
    let stations: Vec<String> = parents.iter().enumerate().map(station).collect();
    stations.join(" ; ")
}
