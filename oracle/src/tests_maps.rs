//! Tests of maps: the samples of 01 and 000 and the readings' examples, worked out by hand.

use crate::brute_maps::read;
use crate::fold::fold;
use crate::tests::{check, check_columns};

/// Folds a map and compares its results and, where given, its last constraint.
fn check_fold(cases: &[(&str, &str, &str, &str)]) {
    for (head, results, domain, folded) in cases {
        let request = format!("fold {head} -> ({results}), domain: {domain}");
        let domain = domain.replace("], ", "],\n");
        let expected = format!("{head} -> ({folded}),\ndomain:\n{domain}");
        check(&[(&request, &expected)]);
    }
}

#[test]
fn marked_samples_of_01() {
    check_fold(&[(
        "(d0, d1)",
        "(d0 * 8 + d1) floordiv 1",
        "d0 in [0, 3], d1 in [0, 7]",
        "d0 * 8 + d1",
    )]);
    check(&[(
        "fold (d0, d1, d2) -> ((d0 - 5) floordiv 1, (d1 - 3) floordiv 7, (d2 + 0) floordiv 2), \
         domain: d0 in [5, 9], d1 in [3, 17], d2 in [0, 48], \
         (d0 - 5) mod 1 in [0, 0], (d1 - 3) mod 7 in [0, 0], (d2 + 0) mod 2 in [0, 0]",
        "(d0, d1, d2) -> (d0 - 5, (d1 + 4) floordiv 7 - 1, d2 floordiv 2),\ndomain:\n\
         d0 in [5, 9],\nd1 in [3, 17],\nd2 in [0, 48],\n(d1 + 4) mod 7 in [0, 0],\nd2 mod 2 in [0, 0]",
    )]);
    // Printed whole in 01, from the map that reshape gives.
    check(&[(
        "fold (d0, d1, d2) -> ((d0 * 16 + d1 * 4 + d2) floordiv 8, \
         ((d0 * 16 + d1 * 4 + d2) floordiv 1) mod 8), \
         domain: d0 in [0, 1], d1 in [0, 3], d2 in [0, 3]",
        "(d0, d1, d2) -> (d0 * 2 + d1 floordiv 2, d2 + (d1 mod 2) * 4),\ndomain:\n\
         d0 in [0, 1],\nd1 in [0, 3],\nd2 in [0, 3]",
    )]);
    check(&[
        (
            "eval (d0) -> (d0 floordiv 7, d0 mod 7), domain: d0 in [-1, 0] at (-1)",
            "value (-1, 6)",
        ),
        ("fold () -> (-1 floordiv 7, -1 mod 7)", "() -> (-1, 6)"),
    ]);
}

#[test]
fn simplifier_examples_of_000() {
    check_fold(&[
        (
            "(d0, d1)",
            "d0 + d1 floordiv 16, d1 mod 16",
            "d0 in [0, 6], d1 in [0, 14]",
            "d0, d1",
        ),
        (
            "(d0, d1, d2)",
            "(d0 * 100 + d1 * 10 + d2) floordiv 100, \
             ((d0 * 100 + d1 * 10 + d2) mod 100) floordiv 10, d2 mod 10",
            "d0 in [0, 9], d1 in [0, 9], d2 in [0, 9]",
            "d0, d1, d2",
        ),
        (
            "(d0, d1, d2)",
            "(d0 * 16 + d1 * 4 + d2) floordiv 8, (d0 * 16 + d1 * 4 + d2) mod 8",
            "d0 in [0, 9], d1 in [0, 9], d2 in [0, 9]",
            "d0 * 2 + (d1 * 4 + d2) floordiv 8, (d1 * 4 + d2) mod 8",
        ),
        (
            "(d0, d1)",
            "-((d0 * -11 - d1 + 109) floordiv 11) + 9",
            "d0 in [0, 9], d1 in [0, 10]",
            "d0",
        ),
    ]);
    // A constraint that always holds goes.
    check(&[(
        "fold (d0)[s0] -> (d0), domain: d0 in [0, 5], s0 in [1, 3], d0 + s0 in [0, 20]",
        "(d0)[s0] -> (d0),\ndomain:\nd0 in [0, 5],\ns0 in [1, 3]",
    )]);
}

#[test]
fn examples_of_the_readings() {
    check_fold(&[
        (
            "(d0, d1)",
            "(d0 + d1) mod 5 + (d1 + 3) mod 5",
            "d0 in [0, 5], d1 in [0, 9]",
            "(d1 + 3) mod 5 + (d0 + d1) mod 5",
        ),
        (
            "(d0)",
            "d0 mod 5 + (d0 * -2) mod 5",
            "d0 in [0, 9]",
            "(d0 * -2) mod 5 + d0 mod 5",
        ),
        (
            "(d0)",
            "((d0 * 8) floordiv 3) floordiv 8",
            "d0 in [-1, 2]",
            "d0 floordiv 3",
        ),
        (
            "(d0, d1)",
            "(d0 * 2 + d1) mod 4",
            "d0 in [0, 5], d1 in [2, 3]",
            "d1 + ((d0 + 1) mod 2) * 2 - 2",
        ),
        (
            "(d0, d1, d2)",
            "((d0 * 100 + d1 * 10 + d2) floordiv 20) floordiv 5, \
             ((d0 * 100 + d1 * 10 + d2) floordiv 20) mod 5 * 2 + \
             ((d0 * 100 + d1 * 10 + d2) mod 20) floordiv 10, \
             ((d0 * 100 + d1 * 10 + d2) mod 20) mod 10",
            "d0 in [0, 9], d1 in [0, 9], d2 in [0, 9]",
            "d0, (d1 floordiv 2) * 2 + d1 mod 2, d2",
        ),
    ]);
}

#[test]
fn a_fold_that_grows_and_one_that_is_refused() {
    let nodes = |text: &str| read(text).expect("a map").nodes();
    let map = "(d0, d1) -> ((d0 * 2 + d1) mod 4), domain: d0 in [0, 5], d1 in [2, 3]";
    let folded = fold(&read(map).expect("a map")).expect("a fold");
    assert_eq!((nodes(map), folded.nodes()), (5, 9));
    check(&[(
        "fold (d0) -> (d0 * 4611686018427387904 * 4 + d0 * 4611686018427387904 * -4), \
         domain: d0 in [0, 0]",
        "refused 8",
    )]);
}

#[test]
fn values_and_ranges() {
    let map = "(d0, d1)[s0] -> (d0 * 8 + d1, s0), domain: d0 in [0, 3], d1 in [0, 7], \
               s0 in [0, 1], (d0 + d1) mod 2 in [0, 0]";
    check(&[
        (&format!("range {map}"), "ranges [0, 31] [0, 1]"),
        (&format!("eval {map} at (1,3) [1]"), "value (11, 1)"),
        (&format!("eval {map} at (1,2) [1]"), "refused 5"),
        (&format!("eval {map} at (4,0) [0]"), "refused 5"),
        (&format!("eval {map} at (1,3)"), "refused 6"),
        (&format!("eval {map} at (1) [0]"), "refused 6"),
        ("range () -> ()", "ranges"),
        ("eval () -> () at () []", "value ()"),
        (
            "range (d0) -> (d0 mod 4, (d0 + 2) mod 4, d0 * -3, d0 floordiv 2), domain: d0 in [-5, -2]",
            "ranges [0, 3] [0, 3] [6, 15] [-3, -1]",
        ),
        (
            "range (d0) -> (d0 mod 4), domain: d0 in [-4, -2]",
            "ranges [0, 2]",
        ),
    ]);
}

#[test]
fn trees_as_they_are_read() {
    let text = |expression: &str| {
        let map = read(&format!(
            "(d0, d1) -> ({expression}), domain: d0 in [0, 1], d1 in [0, 1]"
        ));
        crate::map_text::tree_text(&map.expect("a map").results[0])
    };
    assert_eq!(text("-d0 * 3"), "(-d0) * 3");
    assert_eq!(text("-(d0 * 3)"), "-(d0 * 3)");
    assert_eq!(text("d0-3"), "d0 - 3");
    assert_eq!(text("d0 - (-(3))"), "d0 + 3");
    assert_eq!(text("d0 - 3 * 2"), "d0 - (3 * 2)");
    assert_eq!(text("d0 - d1 * 2"), "d0 - (d1 * 2)");
    assert_eq!(text("d0 + d1 * -2"), "d0 - d1 * 2");
    assert_eq!(text("--5"), "5");
    assert_eq!(text("- -d0"), "-(-d0)");
    assert_eq!(text("d0 + (d1 + 1)"), "d0 + (d1 + 1)");
    assert_eq!(
        text("d0 * 2 floordiv 3 mod 4"),
        "((d0 * 2) floordiv 3) mod 4"
    );
    assert_eq!(text("d0 * -2 + -7"), "d0 * -2 - 7");
    assert_eq!(text("(-7) * 2 + d0 * -1"), "(-7) * 2 - d0");
}

#[test]
fn refusals_of_maps() {
    let range = |results: &str, low: i64, high: i64| {
        format!("range (d0) -> ({results}), domain: d0 in [{low}, {high}]")
    };
    check(&[
        (&range("d0", 1, 0), "refused 2"),
        (&range("d0", 0, 1 << 40), "ranges [0, 1099511627776]"),
        (&range("d0", 0, (1 << 40) + 1), "refused 2"),
        (&range("d0 floordiv 0", 0, 1), "refused 2"),
        (&range("d0 mod 1099511627776", 0, 1), "ranges [0, 1]"),
        (&range("d0 mod 1099511627777", 0, 1), "refused 2"),
        (&range("d1", 0, 1), "refused 2"),
        (&range("s0", 0, 1), "refused 2"),
        (&range("4611686018427387905", 0, 1), "refused 2"),
        (
            &range("4611686018427387904", 0, 1),
            "ranges [4611686018427387904, 4611686018427387904]",
        ),
        (&range("4611686018427387904 + d0", 0, 1), "refused 8"),
        (
            &range("d0 * 4194304", 0, 1 << 40),
            "ranges [0, 4611686018427387904]",
        ),
        (&range("d0 * 4194305", 0, 1 << 40), "refused 8"),
        (&range("1,1,1,1,1,1,1,1,1", 0, 1), "refused 7"),
        (&range("1,1,1,1,1,1,1,1,d1", 0, 1), "refused 7"),
        (&range("1,1,1,1,1,1,1,d1,1", 0, 1), "refused 2"),
    ]);
    let sum = |terms: usize| vec!["d0"; terms].join(" + ");
    check(&[
        (
            &range(&format!("{}, d0", sum(128)), 0, 1),
            "ranges [0, 128] [0, 1]",
        ),
        (&range(&sum(129), 0, 1), "refused 7"),
        (&range(&format!("{}, d1", sum(128)), 0, 1), "refused 2"),
        (&range(&format!("{}, d0 + d1", sum(128)), 0, 1), "refused 7"),
    ]);
}

#[test]
fn working_that_passes_the_limit() {
    let top = 1i64 << 40;
    let domain =
        format!("domain: d0 in [{top}, {top}], d1 in [{top}, {top}], s0 in [{top}, {top}]");
    let fold = |result: &str| format!("fold (d0, d1)[s0] -> ({result}), {domain}");
    check(&[
        // A prefix in the order of atoms, a term, a rest R, and a constant.
        (
            &fold("d0 * 4194304 + s0 * -4194304 + d1 * 4194304"),
            "refused 8",
        ),
        (
            &fold("d0 * 4194304 + d1 * -4194304 + d0 * 4194304"),
            "refused 8",
        ),
        (
            &fold("(d0 * 4194303 + d1 * -4194304 + s0 * 4194303) mod 2"),
            "refused 8",
        ),
        (
            "fold (d0) -> (d0 + 4611686018427387904 + 1), domain: d0 in [-1, -1]",
            "refused 8",
        ),
        // The outcome of a mod: 2^62, then three times a mod.
        (
            "fold (d0)[s0] -> ((d0 * 4194304 + s0 * 3) mod 12), \
             domain: d0 in [1099511627776, 1099511627776], s0 in [-9, 0]",
            "refused 8",
        ),
    ]);
}

#[test]
fn columns_of_unreadable_maps() {
    check_columns(&[
        ("fold", 5),
        ("fold (d1) -> ()", 7),
        ("fold (d0) -> (d0)", 18),
        ("fold (d0){rt0} -> (d0), domain: d0 in [0, 1]", 10),
        ("fold () - > ()", 9),
        ("fold () -> (d 0)", 13),
        ("fold () -> (5 floordiv -2)", 24),
        ("fold () -> (5 * - 2)", 17),
        ("fold () -> (5 * 5 5)", 19),
        ("fold () -> (5 -> 6)", 16),
        ("fold () -> (5),", 16),
        ("fold () -> (5), domain: 5 in [0, 1],", 37),
        ("fold (d0) -> (5), domain: d0 + 1 in [0, 1]", 30),
        ("fold () -> (-9223372036854775809)", 13),
        ("fold () -> (1 -9223372036854775808)", 16),
        ("eval () -> (5)", 15),
        ("eval () -> (5) at", 18),
        ("eval () -> (5) at () [] 1", 25),
        ("range () -> ((5)", 17),
    ]);
    check(&[
        ("fold () -> (5), domain:", "() -> (5)"),
        ("eval()[]->(5),domain:at()", "value (5)"),
        ("fold () -> (-9223372036854775808)", "refused 2"),
        ("fold () -> (0 - -9223372036854775808)", "refused 2"),
    ]);
}
