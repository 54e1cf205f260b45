//! Vectors about the counts of maps (7): variables, results, constraints and nodes, and what is judged beside them.

use crate::vectors::group;

/// A map by its counts: all variables in [0, 1], results and constraints as given.
fn map(dimensions: usize, ranges: usize, results: &[String], constraints: &[String]) -> String {
    let names = |letter: &str, count: usize| -> Vec<String> {
        (0..count)
            .map(|number| format!("{letter}{number}"))
            .collect()
    };
    let (d, s) = (names("d", dimensions), names("s", ranges));
    let bounds = d.iter().chain(&s).map(|name| format!("{name} in [0, 1]"));
    let domain: Vec<String> = bounds.chain(constraints.iter().cloned()).collect();
    let (d, s, results) = (d.join(", "), s.join(", "), results.join(", "));
    let domain = domain.join(", ");
    format!("({d})[{s}] -> ({results}), domain: {domain}")
}

fn copies(text: &str, count: usize) -> Vec<String> {
    vec![text.to_string(); count]
}

/// An expression of d0 with exactly that many nodes.
fn filler(nodes: usize) -> String {
    let mut terms = copies("d0", nodes.div_ceil(2));
    if nodes.is_multiple_of(2) {
        terms[0] = "d0 * 2".to_string();
    }
    terms.join(" + ")
}

/// An expression of s0 in [0, 999] with exactly that many nodes, which folding keeps as it is.
fn kept(nodes: usize) -> String {
    let count = (nodes + 1) / 3;
    let mut terms: Vec<String> = (0..count).map(|k| format!("s0 mod {}", k + 2)).collect();
    match nodes - (3 * count - 1) {
        0 => {}
        1 => terms[0] = "(s0 mod 2) * 2".to_string(),
        _ => terms.push("1".to_string()),
    }
    terms.join(" + ")
}

pub fn map_counts(text: &mut String) {
    variables(text);
    trees(text);
    nodes(text);
    nodes_of_readings(text);
    grown(text);
    nearly_full(text);
}

fn variables(text: &mut String) {
    let one = copies("d0", 1);
    let line = |dimensions, ranges, results: &str| {
        format!("fold {}", map(dimensions, ranges, &copies(results, 1), &[]))
    };
    let coordinates = |count: usize| copies("0", count).join(",");
    let eval = |dimensions, point: usize| {
        let map = map(dimensions, 0, &one, &[]);
        format!("eval {map} at ({})", coordinates(point))
    };
    let nine = map(9, 0, &one, &[]);
    let lines = [
        line(8, 8, "d7 + s7"),
        line(9, 0, "d0"),
        line(9, 0, "d8"),
        line(0, 9, "s0"),
        line(0, 9, "s8"),
        line(12, 12, "d0 + s0"),
        line(300, 0, "d0"),
        format!("fold {}", nine.replace("d8 in [0, 1]", "d8 in [1, 0]")),
        format!("fold {}", nine.replace("d7 in [0, 1]", "d7 in [1, 0]")),
        eval(8, 8),
        eval(8, 9),
        eval(9, 9),
        eval(9, 8),
        eval(12, 12),
        eval(300, 300),
        eval(300, 299),
    ];
    group(text, "maps: 8 variables and 9", lines.iter());
}

fn trees(text: &mut String) {
    let results = |count| copies("d0", count);
    let constraints = |count| copies("d0 in [0, 0]", count);
    let line = |results: Vec<String>, constraints: Vec<String>| {
        format!("fold {}", map(1, 0, &results, &constraints))
    };
    let mut last_broken = results(9);
    last_broken[8] = "d0 mod 0".to_string();
    let mut eighth_broken = results(9);
    eighth_broken[7] = "d0 mod 0".to_string();
    let with = |count: usize, broken: &str| [constraints(count), copies(broken, 1)].concat();
    let lines = [
        line(results(8), vec![]),
        line(results(9), vec![]),
        line(last_broken, vec![]),
        line(eighth_broken, vec![]),
        line(results(1), constraints(32)),
        line(results(1), constraints(33)),
        line(results(1), with(31, "d0 in [1, 0]")),
        line(results(1), with(32, "d0 in [1, 0]")),
        line(results(1), with(31, "d5 in [0, 1]")),
        line(results(1), with(32, "d5 in [0, 1]")),
        line(results(1), copies("d0 in [0, 1]", 33)),
        line(results(9), copies("d0 in [1, 0]", 1)),
    ];
    group(
        text,
        "maps: 8 results and 9, 32 constraints and 33",
        lines.iter(),
    );
}

fn nodes(text: &mut String) {
    let line = |results: &[String], constraints: &[String]| {
        format!("range {}", map(1, 0, results, constraints))
    };
    let constraint = |nodes| format!("{} in [0, 0]", filler(nodes));
    let broken = |nodes: usize| format!("{} in [0, 0]", filler(nodes).replacen("d0", "d5", 1));
    let lines = [
        line(&[filler(255), filler(1)], &[]),
        line(&[filler(256)], &[]),
        line(&[filler(257)], &[]),
        line(&[filler(128)], &[constraint(128)]),
        line(&[filler(128)], &[constraint(129)]),
        line(&[filler(250)], &[broken(6)]),
        line(&[filler(250)], &[broken(7)]),
        line(&[filler(250)], &[broken(6), constraint(9)]),
        line(&[filler(250)], &[constraint(7), broken(1)]),
        line(&[filler(257).replacen("d0", "d5", 1)], &[]),
        line(&[filler(257)], &[broken(1)]),
        line(&[filler(257)], &["d0 in [1, 0]".to_string()]),
        line(&[filler(3000)], &[broken(1)]),
        // The ninth result takes no place: the constraint behind it is judged.
        line(&[copies("d0", 8), vec![filler(300)]].concat(), &[broken(3)]),
        line(
            &[copies("d0", 8), vec![filler(300)]].concat(),
            &[constraint(248), broken(1)],
        ),
    ];
    group(
        text,
        "maps: 256 nodes and 257, and runs that are cut off",
        lines.iter(),
    );
}

/// Each expression stands in a map of 256 nodes, if it has that many nodes, and in one of 257.
fn nodes_of_readings(text: &mut String) {
    let expressions = [
        ("d0 - 5", 3),
        ("d0-5", 3),
        ("d0 - (5)", 3),
        ("d0 - -(-5)", 3),
        ("d0 - d0", 4),
        ("d0 - 5 * 3", 5),
        ("-5", 1),
        ("-(5)", 1),
        ("- - 5", 1),
        ("-d0", 2),
        ("--d0", 3),
        ("-(-(d0))", 3),
        ("-5 * 3", 2),
        ("-d0 * 3", 3),
        ("-(d0 + 1)", 4),
        ("((((d0))))", 1),
        ("d0 * 1", 2),
        ("d0 + 0", 3),
    ];
    let mut lines = Vec::new();
    for (expression, nodes) in expressions {
        for fill in [256 - nodes, 257 - nodes] {
            let results = [filler(fill), expression.to_string()];
            lines.push(format!("range {}", map(1, 0, &results, &[])));
        }
    }
    group(text, "maps: the nodes of what is read", lines.iter());
}

/// Folds that have more nodes than the map given.
fn grown(text: &mut String) {
    let grow = "(d0 * 2 + d1) mod 4";
    let domain = "domain: d0 in [0, 5], d1 in [2, 3]";
    let line = |results: usize, constraints: usize, last: &str| {
        let results = copies(grow, results).join(", ");
        let constraints = format!(", {grow} in [0, 2]").repeat(constraints);
        format!("fold (d0, d1) -> ({results}), {domain}{constraints}{last}")
    };
    let four = ", d0 in [0, 4], d0 in [0, 3], d0 in [0, 2], d0 in [0, 1]";
    let node = ", d0 * 4611686018427387904 * 4 in [0, 0]";
    let working = ", d1 * -1 + 4611686018427387904 + 1 in [0, 0]";
    let lines = [
        line(1, 0, ""),
        line(8, 20, ""),
        line(8, 20, four),
        line(8, 20, &format!("{four}, d1 in [2, 2]")),
        line(8, 21, ""),
        line(8, 32, ""),
        line(8, 31, node),
        line(8, 31, working),
        line(1, 0, working),
    ];
    let title = "maps: nodes of the fold, alone and beside number 8";
    group(text, title, lines.iter());
    let chain = |length: usize| {
        let mut text = "d1".to_string();
        for _ in 0..length {
            text = format!("(d0 * 2 + ({text}) mod 2) mod 4");
        }
        format!("fold (d0, d1) -> ({text}), {domain}")
    };
    let lines = [1, 2, 5, 20].map(chain);
    group(text, "maps: divisions nested up to 40 deep", lines.iter());
}

/// Folds of maps near 256 nodes, one of whose results grows from 5 nodes to 9.
fn nearly_full(text: &mut String) {
    let grow = "(d0 * 2 + d1) mod 4";
    let bounds = "domain: d0 in [0, 5], d1 in [2, 3], s0 in [0, 999]";
    let line = |nodes: usize, last: &str| {
        let results = format!("{grow}, {}", kept(nodes));
        format!("fold (d0, d1)[s0] -> ({results}), {bounds}{last}")
    };
    let alone = |nodes: usize| format!("fold (d0, d1)[s0] -> ({}), {bounds}", kept(nodes));
    let working = ", d1 * -1 + 4611686018427387904 + 1 in [0, 0]";
    let lines = [
        alone(255),
        alone(256),
        alone(257),
        // 252, 253, 256 and 257 nodes given; the fold has 256, 257 and 260.
        line(247, ""),
        line(248, ""),
        line(251, ""),
        line(252, ""),
        // 7 of the result with 8 of the working, and 7 of the map given with 2.
        line(245, working),
        line(252, ", d0 in [1, 0]"),
        line(252, "").replace("d1 in [2, 3]", "d1 in [3, 2]"),
    ];
    let title = "maps: folds of 256 nodes and 257";
    group(text, title, lines.iter());
}
