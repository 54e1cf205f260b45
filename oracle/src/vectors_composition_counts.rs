//! Vectors about the counts of composed maps (7): range variables, constraints and nodes, and numbers beside them.

use crate::vectors::group;

/// A node whose range passes 2^62 in the map given.
const WIDE: &str = "4611686018427387904 + 1 in [0, 1]";

pub fn composition_counts(text: &mut String) {
    ranges(text);
    constraints(text);
    nodes(text);
    more_than_a_record_holds(text);
}

fn names(letter: &str, count: usize) -> Vec<String> {
    let name = |number| format!("{letter}{number}");
    (0..count).map(name).collect()
}

/// A map whose variables all lie in [0, 1].
fn map(dimensions: usize, ranges: usize, results: &str, constraints: &[&str]) -> String {
    let (d, s) = (names("d", dimensions), names("s", ranges));
    let bounds = d.iter().chain(&s).map(|name| format!("{name} in [0, 1]"));
    let constraints = constraints.iter().map(|constraint| constraint.to_string());
    let domain: Vec<String> = bounds.chain(constraints).collect();
    let (d, s, domain) = (d.join(", "), s.join(", "), domain.join(", "));
    format!("({d})[{s}] -> ({results}), domain: {domain}")
}

fn ranges(text: &mut String) {
    let line = |own: usize, others: usize, wide: &[&str]| {
        let f = map(1, own, "d0", wide);
        let g = map(1, others, "d0", &[]);
        format!("compose {f} ; {g}")
    };
    let last = |own: usize, others: usize| {
        let f = map(1, own, &format!("d0 + s{}", own - 1), &[]);
        let g = map(1, others, &format!("d0, s0, s{}", others - 1), &[]);
        format!("compose {f} ; {g}")
    };
    let lines = [
        line(8, 0, &[]),
        line(0, 8, &[]),
        line(4, 4, &[]),
        last(1, 7),
        last(7, 1),
        last(4, 4),
        line(8, 1, &[]),
        line(1, 8, &[]),
        line(5, 4, &[]),
        line(8, 8, &[]),
        line(9, 0, &[]),
        line(0, 9, &[]),
        line(5, 4, &[WIDE]),
        line(4, 4, &[WIDE]),
        line(5, 4, &["d0 mod 0 in [0, 1]"]),
    ];
    group(
        text,
        "composing: 8 range variables in all, and 9",
        lines.iter(),
    );
}

fn constraints(text: &mut String) {
    let line = |own: usize, results: usize, others: usize, last: &[&str]| {
        let f = map(
            1,
            0,
            &vec!["d0"; results].join(", "),
            &vec!["d0 in [0, 0]"; own],
        );
        let g = map(
            results,
            0,
            "5",
            &[&vec!["5 in [0, 9]"; others], last].concat(),
        );
        format!("compose {f} ; {g}")
    };
    let lines = [
        line(31, 1, 0, &[]),
        line(0, 1, 31, &[]),
        line(12, 8, 12, &[]),
        line(24, 8, 0, &[]),
        line(32, 0, 0, &[]),
        line(32, 1, 0, &[]),
        line(0, 1, 32, &[]),
        line(12, 8, 13, &[]),
        line(25, 8, 0, &[]),
        line(32, 8, 32, &[]),
        line(33, 0, 0, &[]),
        line(12, 8, 12, &[WIDE]),
        line(12, 8, 11, &[WIDE]),
        line(12, 8, 12, &["5 in [1, 0]"]),
    ];
    group(
        text,
        "composing: 32 constraints in all, and 33",
        lines.iter(),
    );
}

/// Sums of d0: f's result has m terms, g's has n; 2m - 1 nodes once and, for each of g's terms, again.
fn nodes(text: &mut String) {
    let sum = |terms: usize| vec!["d0"; terms].join(" + ");
    let line = |own: &str, others: &str, last: &[&str]| {
        let (f, g) = (map(1, 0, own, &[]), map(1, 0, others, last));
        format!("compose {f} ; {g}")
    };
    let more = |terms: usize, rest: &str| format!("{}{rest}", sum(terms));
    let lines = [
        // f has 3 nodes; g's n terms give 3n + n - 1: together 4n + 2.
        line(&sum(2), &sum(63), &[]),
        line(&sum(2), &more(63, " + 1"), &[]),
        line(&sum(2), &more(63, " + 1 * 1"), &[]),
        line(&sum(2), &sum(64), &[]),
        line(&sum(2), &more(63, " + 1 * 1"), &[WIDE]),
        line(&sum(2), &more(62, " + 1"), &["5 in [0, 9]", "5 in [0, 9]"]),
        line(&sum(2), &more(62, " + 1"), &["5 in [0, 9]", "d0 in [0, 1]"]),
        // f alone nearly fills the places, and g alone does.
        line(&sum(64), "d0", &[]),
        line(&sum(64), "d0 * 2", &[]),
        line(&sum(64), "d0 * 2 * 1", &[]),
        line(&sum(64), "d0 * 2 * 1 * 1", &[]),
        line("d0", &sum(128), &[]),
        line("d0", &more(127, " * 1"), &[]),
        line("d0", &more(127, " * 1 * 1"), &[]),
        line("d0", &more(127, " * 1 * 1 * 1"), &[]),
        line("d0", &sum(129), &[]),
        // Far past the limit: 127 nodes for each of 128 terms.
        line(&sum(64), &sum(128), &[]),
        line(&sum(128), &sum(128), &[]),
        line(&sum(129), &sum(128), &[]),
        line(&format!("{}, 5", sum(64)), &sum(128), &[]),
    ];
    group(text, "composing: 256 nodes in all, and 257", lines.iter());
}

/// Maps that name more than a record holds: 2 of what is held, then 6 by the counts as written, then 7.
fn more_than_a_record_holds(text: &mut String) {
    let line = |results: usize, dimensions: usize, own: &str, others: &str| {
        let mut trees = vec!["d0"; results];
        trees[results - 1] = own;
        let (f, g) = (
            map(1, 0, &trees.join(", "), &[]),
            map(dimensions, 0, others, &[]),
        );
        format!("compose {f} ; {g}")
    };
    let cut_off = format!("{}, d5 + d12", vec!["d0"; 128].join(" + "));
    let cases = [
        (9, 9, "d0", "d0"),
        (9, 9, "d5", "d0"),
        (9, 9, "d0", "d8"),
        (9, 9, "d0", "d9"),
        (9, 8, "d0", "d0"),
        (9, 8, "d5", "d0"),
        (8, 9, "d0", "d0"),
        (8, 9, "d5", "d0"),
        (8, 8, "d0", "d7"),
        (9, 10, "d0", "d0"),
        (300, 300, "d0", "d0"),
        (300, 299, "d0", "d0"),
        (300, 44, "d0", "d0"),
        (257, 1, "d0", "d0"),
        (9, 9, "d0", &cut_off),
        (8, 8, "d0", &cut_off),
        (8, 7, "d0", &cut_off),
    ];
    let lines =
        cases.map(|(results, dimensions, own, others)| line(results, dimensions, own, others));
    let title = "composing: maps that name more than a record holds";
    group(text, title, lines.iter());
}
