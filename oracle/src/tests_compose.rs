//! Tests of composing: the fusions of 000, the order of the numbers, and what the random requests reach.

use std::collections::BTreeMap;

use crate::answer::answer_line;
use crate::compose::composed_nodes;
use crate::map::Map;
use crate::map_rule::{judge_counts, judge_map, judge_pieces, judge_ranges};
use crate::random_kinds::{random_lines, Kind};
use crate::request::{read_request, Request};
use crate::tests::{check, check_columns};

fn answer(request: &str) -> String {
    let answer = answer_line(request.as_bytes()).expect("an answer");
    assert!(!answer.starts_with("error"), "{request}: {answer}");
    answer
}

/// The map of an operation request, on one line.
pub fn map_of(request: &str) -> String {
    answer(request).replace('\n', " ")
}

/// The requests' maps composed from the left and folded at the end.
pub fn fusion(requests: &[&str]) -> String {
    let mut whole = map_of(requests[0]);
    for request in &requests[1..] {
        whole = map_of(&format!("compose {whole} ; {}", map_of(request)));
    }
    answer(&format!("fold {whole}"))
}

#[test]
fn an_input_with_several_maps() {
    let add = "elementwise [1000,1000] out-to-in";
    let transpose = "transpose [1000,1000] {1,0} out-to-in";
    let domain = "domain:\nd0 in [0, 999],\nd1 in [0, 999]";
    assert_eq!(fusion(&[add]), format!("(d0, d1) -> (d0, d1),\n{domain}"));
    assert_eq!(
        fusion(&[add, transpose]),
        format!("(d0, d1) -> (d1, d0),\n{domain}")
    );
    let composed = format!("compose {} ; {}", map_of(add), map_of(transpose));
    check(&[(
        &composed,
        &format!("(d0, d1) -> (d1, d0),\n{domain},\nd0 in [0, 999],\nd1 in [0, 999]"),
    )]);
}

#[test]
fn chains_of_transposes_that_give_one_map() {
    let left = fusion(&[
        "elementwise [10,50,20] out-to-in",
        "transpose [10,20,50] {0,2,1} out-to-in",
        "elementwise [10,20,50] out-to-in",
        "transpose [20,10,50] {1,0,2} out-to-in",
    ]);
    let right = fusion(&[
        "elementwise [10,50,20] out-to-in",
        "transpose [50,10,20] {1,0,2} out-to-in",
        "elementwise [50,10,20] out-to-in",
        "transpose [20,10,50] {2,1,0} out-to-in",
    ]);
    assert_eq!(left, right);
    let domain = "domain:\nd0 in [0, 9],\nd1 in [0, 49],\nd2 in [0, 19]";
    assert_eq!(left, format!("(d0, d1, d2) -> (d2, d0, d1),\n{domain}"));
}

#[test]
fn softmax() {
    let reduced = fusion(&[
        "elementwise [2,65,125] out-to-in",
        "broadcast [2,65] [2,65,125] {0,1} out-to-in",
        "reduce [2,65,125] {2} out-to-in",
    ]);
    let dimensions = "d0 in [0, 1],\nd1 in [0, 64],\nd2 in [0, 124]";
    let expected =
        format!("(d0, d1, d2)[s0] -> (d0, d1, s0),\ndomain:\n{dimensions},\ns0 in [0, 124]");
    assert_eq!(reduced, expected);
    let direct = fusion(&["elementwise [2,65,125] out-to-in"]);
    let expected = format!("(d0, d1, d2) -> (d0, d1, d2),\ndomain:\n{dimensions}");
    assert_eq!(direct, expected);
}

#[test]
fn reshapes_as_compositions() {
    let collapse_then_expand = fusion(&[
        "reshape [32] [2,4,4] out-to-in",
        "reshape [4,8] [32] out-to-in",
    ]);
    assert_eq!(
        collapse_then_expand,
        answer("reshape [4,8] [2,4,4] out-to-in")
    );
    let back = fusion(&[
        "reshape [4,8] [32] in-to-out",
        "reshape [32] [2,4,4] in-to-out",
    ]);
    assert_eq!(back, answer("reshape [4,8] [2,4,4] in-to-out"));
    let subshapes = fusion(&[
        "reshape [32,12] [32,3,4] out-to-in",
        "reshape [4,8,12] [32,12] out-to-in",
    ]);
    assert_eq!(subshapes, answer("reshape [4,8,12] [32,3,4] out-to-in"));
    let back = fusion(&[
        "reshape [4,8,12] [32,12] in-to-out",
        "reshape [32,12] [32,3,4] in-to-out",
    ]);
    assert_eq!(back, answer("reshape [4,8,12] [32,3,4] in-to-out"));
}

#[test]
fn reshapes_that_cancel() {
    let chained = fusion(&[
        "reshape [50,20] [10,10,10] out-to-in",
        "reshape [10,10,10] [50,20] out-to-in",
    ]);
    // 000 prints (d0, d1, d2), equal in value: no rule of 01 joins the two terms.
    assert_eq!(
        chained,
        "(d0, d1, d2) -> (d0, (d1 floordiv 2) * 2 + d1 mod 2, d2),\n\
         domain:\nd0 in [0, 9],\nd1 in [0, 9],\nd2 in [0, 9]"
    );
}

#[test]
fn places_of_variables_and_constraints() {
    check(&[
        ("compose () -> () ; () -> ()", "() -> ()"),
        (
            "compose () -> (5) ; (d0) -> (d0 * 2), domain: d0 in [0, 3]",
            "() -> (5 * 2),\ndomain:\n5 in [0, 3]",
        ),
        (
            "compose (d0)[s0] -> (d0 + s0), domain: d0 in [0, 3], s0 in [0, 1], d0 in [1, 2] ; \
             (d0)[s0, s1] -> (d0 mod 2, s1 - s0), domain: d0 in [0, 3], s0 in [-5, -4], \
             s1 in [7, 8], d0 + s1 in [0, 9]",
            "(d0)[s0, s1, s2] -> ((d0 + s0) mod 2, s2 - s1),\ndomain:\nd0 in [0, 3],\n\
             s0 in [0, 1],\ns1 in [-5, -4],\ns2 in [7, 8],\nd0 in [1, 2],\n\
             d0 + s0 in [0, 3],\nd0 + s0 + s2 in [0, 9]",
        ),
    ]);
}

#[test]
fn the_lowest_number_of_a_composition() {
    let line = |results: &str, domain: &str, other: &str, more: &str| {
        format!(
            "compose (d0) -> ({results}), domain: d0 in [0, {domain}] ; \
             (d0) -> ({other}), domain: d0 in [0, 1]{more}"
        )
    };
    let wide = ", 4611686018427387904 + 1 in [0, 1]";
    let nine = "1,1,1,1,1,1,1,1,1";
    check(&[
        (&line("d0, d0", "-1", "d0", ""), "refused 2"),
        (&line("d0, d0", "1", "d0 mod 0", ""), "refused 2"),
        (&line("d0, d0", "1", nine, ""), "refused 6"),
        (&line("d0, d0", "1", "d0", wide), "refused 6"),
        (&line("d0", "1", nine, wide), "refused 7"),
        (&line("d0", "1", "d0", wide), "refused 8"),
        (
            &line("d0", "1", "d0 * 4611686018427387904", ""),
            "(d0) -> (d0 * 4611686018427387904),\ndomain:\nd0 in [0, 1],\nd0 in [0, 1]",
        ),
        (
            &line("d0", "2", "d0 * 4611686018427387904", ""),
            "refused 8",
        ),
    ]);
}

#[test]
fn columns_of_unreadable_compositions() {
    check_columns(&[
        ("compose", 8),
        ("compose () -> ()", 17),
        ("compose () -> () ;", 19),
        ("compose () -> () () -> ()", 18),
        ("compose () -> () ; () -> () ;", 29),
        ("compose () -> () ; () -> () at ()", 29),
        ("compose () -> (), domain: at ; () -> ()", 27),
        ("compose (d0) -> (d0) ; () -> ()", 22),
    ]);
}

/// What a random pair shows, by name.
fn cases(f: &Map, g: &Map) -> Vec<&'static str> {
    let pieces = judge_pieces(f).and(judge_pieces(g)).is_ok();
    let counts = judge_counts(f).and(judge_counts(g)).is_ok();
    let numbered = f.results.len() == g.dimensions.len();
    let mut cases = Vec::new();
    if !numbered {
        cases.push(match (pieces, counts) {
            (false, _) => "6 beside 2",
            (true, false) => "6 beside 7 of a given map",
            _ if judge_ranges(f).and(judge_ranges(g)).is_err() => "6 beside 8",
            _ => "6 alone",
        });
        return cases;
    }
    if !pieces || !counts {
        return cases;
    }
    let ranges = f.ranges.len() + g.ranges.len();
    let constraints = f.constraints.len() + f.results.len() + g.constraints.len();
    let nodes = composed_nodes(f, g);
    let passes = ranges > 8 || constraints > 32 || nodes > 256;
    let exact = [
        (ranges == 8 && !passes, "8 range variables"),
        (ranges == 9, "9 range variables"),
        (constraints == 32 && !passes, "32 constraints"),
        (constraints == 33, "33 constraints"),
        (nodes == 256 && !passes, "256 nodes"),
        (nodes == 257, "257 nodes"),
    ];
    cases.extend(exact.iter().filter(|case| case.0).map(|case| case.1));
    let accepted = judge_map(f).and(judge_map(g)).is_ok();
    if passes && !accepted {
        cases.push("7 of the result beside 8 of a given map");
    }
    if !passes && accepted && crate::compose::compose(f, g).is_err() {
        cases.push("8 of the result alone");
    }
    cases
}

#[test]
fn random_compositions_reach_every_case() {
    let mut counts: BTreeMap<&str, u64> = BTreeMap::new();
    let lines = random_lines(17, 3000, Some(Kind::Compose));
    for line in lines.split(|byte| *byte == b'\n') {
        if let Ok(Request::Compose { first, second }) = read_request(line) {
            for case in cases(&first, &second) {
                *counts.entry(case).or_default() += 1;
            }
        }
    }
    assert_eq!(counts.len(), 12, "{counts:?}");
    assert!(counts.values().all(|count| *count >= 10), "{counts:?}");
}
