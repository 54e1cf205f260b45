//! Tests of trees of stations (document 02, Q-11): samples, parents, the order of the numbers and unreadable lines.

use crate::tests::{check, check_columns};
use crate::vectors_trees::spelled;

/// Checks lines whose layouts are written as letters: A untiled, T one tile (8,128).
fn check_spelled(cases: &[(&str, &str)]) {
    for (request, expected) in cases {
        check(&[(&spelled(request), expected)]);
    }
}

#[test]
fn samples() {
    check_spelled(&[
        // 15 + 1,024 + 1,024 and two moves of 1,039 each; as a row there is one move.
        ("tree [3,5] 9999 2 7 A ; 0 T ; 0 T", "plan 0 0 0 total 4141"),
        ("tree [3,5] 9999 1 7 A ; 0 T ; 0 T", "refused 10"),
        ("tree [3,5] 9999 2 7 A ; 0 T ; 1 T", "plan 0 0 0 total 3102"),
        // One branch may move, both save alike: station 2 decides, not the branch of station 1.
        (
            "tree [3,5] 9999 1 0 T ; 0 T ; 0 A T ; 1 A T ; 2 A T ; 4 A T ; 3 A T ; 6 A T",
            "plan 0 0 0 1 0 0 1 1 total 6204",
        ),
        // The samples of 01, as rows.
        (
            "tree [3,5] 1099511627776 1 0 A T ; 0 T A ; 1 T",
            "plan 0 1 0 total 2093",
        ),
        (
            "tree [3,5] 1099511627776 0 0 A T ; 0 T A ; 1 T",
            "plan 1 0 0 total 3072",
        ),
        ("tree [3,5] 1099511627776 0 0 T ; 0 A", "refused 10"),
        ("tree [4,4] 1099511627776 0 0 A B", "plan 0 total 16"),
    ]);
}

#[test]
fn moves_of_all_branches() {
    check_spelled(&[
        ("tree [3] 9 2 0 a ; 0 t ; 0 t", "plan 0 0 0 total 25"),
        ("tree [3] 9 1 0 a ; 0 t ; 0 t", "refused 10"),
        ("tree [3] 9 1 0 a ; 0 t ; 1 t", "plan 0 0 0 total 18"),
        // A move in each of two branches, each branch with one.
        (
            "tree [3] 9 2 0 a ; 0 a ; 0 a ; 1 t ; 2 t",
            "plan 0 0 0 0 0 total 31",
        ),
        ("tree [3] 9 1 0 a ; 0 a ; 0 a ; 1 t ; 2 t", "refused 10"),
        // 8 + 8 + 8 + 8 without a move, though the first station has three children.
        (
            "tree [4] 8 3 0 v ; 0 v ; 0 v ; 0 v",
            "plan 0 0 0 0 total 32",
        ),
        // 8 + 4 + 4 + 4 and three moves of 12.
        (
            "tree [4] 8 3 0 v ; 0 a ; 0 a ; 0 a",
            "plan 0 0 0 0 total 56",
        ),
        // Of two branches the longer one saves more by the move that is left.
        (
            "tree [4] 64 1 0 w ; 0 a w ; 0 a w ; 1 a w ; 2 a w ; 2 a w",
            "plan 0 1 0 1 0 0 total 272",
        ),
    ]);
}

#[test]
fn ties_by_station_number() {
    check_spelled(&[
        (
            "tree [3,5] 9999 1 0 T ; 0 T ; 0 A T ; 1 A T ; 2 A T ; 3 A T",
            "plan 0 0 0 1 0 1 total 5165",
        ),
        (
            "tree [3,5] 9999 1 0 T ; 0 T ; 0 T A ; 1 T A ; 2 T A ; 3 T A",
            "plan 0 0 0 1 0 1 total 5165",
        ),
        (
            "tree [3,5] 9999 1 0 T ; 0 A T ; 0 T ; 1 A T ; 2 A T ; 4 A T",
            "plan 0 0 0 0 1 1 total 5165",
        ),
        ("tree [4,4] 99 1 0 A B ; 0 A ; 0 B", "plan 0 0 0 total 80"),
        ("tree [4,4] 99 1 0 B A ; 0 A ; 0 B", "plan 0 0 0 total 80"),
    ]);
}

#[test]
fn parents() {
    check_spelled(&[
        ("tree [3] 9 0 0 a ; 0 a ; 1 a", "plan 0 0 0 total 9"),
        ("tree [3] 9 0 0 a ; 1 a", "refused 2"),
        ("tree [3] 9 0 0 a ; 2 a ; 0 a", "refused 2"),
        ("tree [3] 9 0 0 a ; 0 a ; 2 a", "refused 2"),
        ("tree [3] 9 0 0 a ; 0 a ; 3 a", "refused 2"),
        ("tree [3] 9 0 0 a ; 4294967296 a", "refused 2"),
        ("tree [3] 9 0 0 a ; 9223372036854775807 a", "refused 2"),
        ("tree [3] 9 0 0 a ; -1 a", "refused 2"),
        ("tree [3] 9 0 0 a ; -9223372036854775808 a", "refused 2"),
        ("tree [3] 9 0 0 a ; -0 a", "plan 0 0 total 6"),
        // The first station's number is not read.
        ("tree [3] 9 0 1 a", "plan 0 total 3"),
        ("tree [3] 9 0 -1 a ; 0 a", "plan 0 0 total 6"),
        (
            "tree [3] 9 0 9223372036854775807 a ; 0 a",
            "plan 0 0 total 6",
        ),
        (
            "tree [3] 9 0 -9223372036854775808 a ; 0 a",
            "plan 0 0 total 6",
        ),
    ]);
}

#[test]
fn the_order_of_the_numbers() {
    let top = "tree [1048576,1048576] 1099511627776";
    check(&[
        ("tree [0] 0 64 0 {1} ; 1 {1}", "refused 1"),
        ("tree [0] 1 0 0 {0} ; 1 {0}", "refused 1"),
        ("tree [1] 0 0 0 {1} ; 0 {1}", "refused 2"),
        ("tree [1] 1 64 0 {1} ; 0 {1}", "refused 2"),
        ("tree [1] 1 0 0 {1} ; 1 {0}", "refused 2"),
        ("tree [1] 1 0 0 {0} {0} ; 0 {1} ; 2 {0}", "refused 2"),
        (&format!("{top} 0 0 {{1,0:T(3)}} ; 1 {{1,0}}"), "refused 2"),
        ("tree [2] 1 63 0 {0} ; 1 {0}", "refused 2"),
        ("tree [1] 1 0 0 {0} {0} ; 0 {1}", "refused 3"),
        (
            "tree [1] 1 0 0 {0} ; 0 {0} ; 0 {0} {0}",
            "refused 3 at 2 0 1",
        ),
        (
            &format!("{top} 0 0 {{1,0:T(3)}} ; 0 {{1,0}} {{1,0}}"),
            "refused 3 at 1 0 1",
        ),
        (&format!("{top} 0 0 {{1,0:T(3)}} ; 0 {{1,0}}"), "refused 4"),
        (&format!("{top} 0 0 {{1,0}} ; 0 {{0,1}}"), "refused 10"),
    ]);
}

#[test]
fn many_stations() {
    let star = |count: usize| " ; 0 {0,1}".repeat(count - 1);
    let top = "tree [1048576,1048576] 1099511627776";
    let places = ["0"; 64].join(" ");
    let total = 190 * (1u64 << 40);
    check(&[
        (
            &format!("{top} 63 9 {{1,0}}{}", star(64)),
            &format!("plan {places} total {total}"),
        ),
        (&format!("{top} 62 9 {{1,0}}{}", star(64)), "refused 10"),
        (&format!("{top} 63 9 {{1,0}}{}", star(65)), "refused 2"),
        (
            &format!("{top} 63 9 {{1,0}}{} ; 64 {{1,0}}", star(64)),
            "refused 2",
        ),
        (
            &format!("{top} 63 9 {{1,0}}{} ; 63 {{1,0}}", star(63)),
            "refused 2",
        ),
        (
            &format!("tree [1048577] 0 63 9 {{1,0}}{} ; 64 {{1,0}}", star(64)),
            "refused 1",
        ),
    ]);
}

#[test]
fn columns_of_unreadable_trees() {
    check_columns(&[
        ("tree", 5),
        ("tree [3] 9 0", 13),
        ("tree [3] 9 0 {0}", 14),
        ("tree [3] 9 0 0", 15),
        ("tree [3] 9 0 0 ; 0 {0}", 16),
        ("tree [3] 9 0 0 {0} ;", 21),
        ("tree [3] 9 0 0 {0} ; {0}", 22),
        ("tree [3] 9 0 0 {0} ; 0", 23),
        ("tree [3] 9 0 0 {0} ; 0 ; 0 {0}", 24),
        ("tree [3] 9 0 0 {0} 0 {0}", 20),
        ("tree [3] 9 0 0 {0} ; 0 0 {0}", 24),
        ("tree [3] 9 0 9223372036854775808 {0}", 14),
        ("tree [3] 9 0 0 {0} ; 9223372036854775808 {0}", 22),
        ("trees [3] 9 0 0 {0}", 1),
    ]);
}
