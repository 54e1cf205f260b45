//! Tests of operations: every map that 000 prints for them, the samples of 01, and the rules.

use crate::answer::answer_line;
use crate::random_kinds::{random_lines, Kind};
use crate::tests::{check, check_columns};

/// Compares the map of a request with its first line and its domain.
fn check_maps(cases: &[(&str, &str, &str)]) {
    for (request, head, domain) in cases {
        let domain = domain.replace("], ", "],\n");
        check(&[(*request, &format!("{head},\ndomain:\n{domain}"))]);
    }
}

#[test]
fn elementwise_broadcast_and_transpose_of_000() {
    check_maps(&[
        (
            "elementwise [10,20] out-to-in",
            "(d0, d1) -> (d0, d1)",
            "d0 in [0, 9], d1 in [0, 19]",
        ),
        (
            "elementwise [10,20] in-to-out",
            "(d0, d1) -> (d0, d1)",
            "d0 in [0, 9], d1 in [0, 19]",
        ),
        (
            "broadcast [20] [10,20,30] {1} out-to-in",
            "(d0, d1, d2) -> (d1)",
            "d0 in [0, 9], d1 in [0, 19], d2 in [0, 29]",
        ),
        (
            "broadcast [20] [10,20,30] {1} in-to-out",
            "(d0)[s0, s1] -> (s0, d0, s1)",
            "d0 in [0, 19], s0 in [0, 9], s1 in [0, 29]",
        ),
        (
            "transpose [3,12288,6,128] {0,2,3,1} out-to-in",
            "(d0, d1, d2, d3) -> (d0, d3, d1, d2)",
            "d0 in [0, 2], d1 in [0, 5], d2 in [0, 127], d3 in [0, 12287]",
        ),
        (
            "transpose [3,12288,6,128] {0,2,3,1} in-to-out",
            "(d0, d1, d2, d3) -> (d0, d2, d3, d1)",
            "d0 in [0, 2], d1 in [0, 12287], d2 in [0, 5], d3 in [0, 127]",
        ),
    ]);
}

#[test]
fn reverse_of_000() {
    for way in ["out-to-in", "in-to-out"] {
        check_maps(&[(
            &format!("reverse [1,17,9,9] {{1,2}} {way}"),
            "(d0, d1, d2, d3) -> (d0, -d1 + 16, -d2 + 8, d3)",
            "d0 in [0, 0], d1 in [0, 16], d2 in [0, 8], d3 in [0, 8]",
        )]);
    }
}

#[test]
fn reduce_of_000() {
    check_maps(&[
        (
            "reduce [256,10] {0} out-to-in",
            "(d0)[s0] -> (s0, d0)",
            "d0 in [0, 9], s0 in [0, 255]",
        ),
        (
            "reduce [256,10] {0} out-to-init",
            "(d0) -> ()",
            "d0 in [0, 9]",
        ),
        (
            "reduce [256,10] {0} in-to-out",
            "(d0, d1) -> (d1)",
            "d0 in [0, 255], d1 in [0, 9]",
        ),
        (
            "reduce [256,10] {0} init-to-out",
            "()[s0] -> (s0)",
            "s0 in [0, 9]",
        ),
        // 000 writes r0 and r1 for the range variables in its first example.
        (
            "reduce [2,4,8,16] {0,3} out-to-in",
            "(d0, d1)[s0, s1] -> (s0, d0, d1, s1)",
            "d0 in [0, 3], d1 in [0, 7], s0 in [0, 1], s1 in [0, 15]",
        ),
        // The range variables follow the dimensions, whatever the order of the list.
        (
            "reduce [2,4,8,16] {3,0} out-to-in",
            "(d0, d1)[s0, s1] -> (s0, d0, d1, s1)",
            "d0 in [0, 3], d1 in [0, 7], s0 in [0, 1], s1 in [0, 15]",
        ),
    ]);
}

#[test]
fn slice_and_concatenate_of_000() {
    check_maps(&[
        (
            "slice [10,20,50] [5:10:1] [3:20:7] [0:50:2] out-to-in",
            "(d0, d1, d2) -> (d0 + 5, d1 * 7 + 3, d2 * 2)",
            "d0 in [0, 4], d1 in [0, 2], d2 in [0, 24]",
        ),
        // 000 prints (d1 - 3) floordiv 7 with (d1 - 3) mod 7, equal in value; 01 says that our rules decide.
        (
            "slice [10,20,50] [5:10:1] [3:20:7] [0:50:2] in-to-out",
            "(d0, d1, d2) -> (d0 - 5, (d1 + 4) floordiv 7 - 1, d2 floordiv 2)",
            "d0 in [5, 9], d1 in [3, 17], d2 in [0, 48], (d1 + 4) mod 7 in [0, 0], \
             d2 mod 2 in [0, 0]",
        ),
    ]);
    let operands = "[2,5,7] [2,11,7] [2,17,7]";
    let cases = [
        ("d1", "[0, 4]", "d1", "[0, 4]"),
        ("d1 - 5", "[5, 15]", "d1 + 5", "[0, 10]"),
        ("d1 - 16", "[16, 32]", "d1 + 16", "[0, 16]"),
    ];
    for (operand, (back, joined, forth, own)) in cases.iter().enumerate() {
        for (way, result, bounds) in [("out-to-in", back, joined), ("in-to-out", forth, own)] {
            check_maps(&[(
                &format!("concatenate 1 {operand} {operands} {way}"),
                &format!("(d0, d1, d2) -> (d0, {result}, d2)"),
                &format!("d0 in [0, 1], d1 in {bounds}, d2 in [0, 6]"),
            )]);
        }
    }
}

#[test]
fn reshape_of_000() {
    let collapsed = ("(d0, d1) -> (d0 * 8 + d1)", "d0 in [0, 3], d1 in [0, 7]");
    let expanded = ("(d0) -> (d0 floordiv 8, d0 mod 8)", "d0 in [0, 31]");
    check_maps(&[
        ("reshape [4,8] [32] out-to-in", expanded.0, expanded.1),
        ("reshape [4,8] [32] in-to-out", collapsed.0, collapsed.1),
        ("reshape [32] [4,8] out-to-in", collapsed.0, collapsed.1),
        ("reshape [32] [4,8] in-to-out", expanded.0, expanded.1),
        (
            "reshape [4,8] [2,4,4] out-to-in",
            "(d0, d1, d2) -> (d0 * 2 + d1 floordiv 2, d2 + (d1 mod 2) * 4)",
            "d0 in [0, 1], d1 in [0, 3], d2 in [0, 3]",
        ),
        (
            "reshape [4,8] [2,4,4] in-to-out",
            "(d0, d1) -> (d0 floordiv 2, d1 floordiv 4 + (d0 mod 2) * 2, d1 mod 4)",
            "d0 in [0, 3], d1 in [0, 7]",
        ),
        (
            "reshape [4,8,12] [32,3,4] out-to-in",
            "(d0, d1, d2) -> (d0 floordiv 8, d0 mod 8, d1 * 4 + d2)",
            "d0 in [0, 31], d1 in [0, 2], d2 in [0, 3]",
        ),
        (
            "reshape [4,8,12] [32,3,4] in-to-out",
            "(d0, d1, d2) -> (d0 * 8 + d1, d2 floordiv 4, d2 mod 4)",
            "d0 in [0, 3], d1 in [0, 7], d2 in [0, 11]",
        ),
    ]);
}

#[test]
fn rank_0_and_single_places() {
    check(&[
        ("elementwise [] out-to-in", "() -> ()"),
        (
            "broadcast [] [3] {} in-to-out",
            "()[s0] -> (s0),\ndomain:\ns0 in [0, 2]",
        ),
        ("reduce [] {} init-to-out", "() -> ()"),
        ("slice [] in-to-out", "() -> ()"),
        ("reshape [] [1,1] in-to-out", "() -> (0, 0)"),
        (
            "reshape [] [1,1] out-to-in",
            "(d0, d1) -> (),\ndomain:\nd0 in [0, 0],\nd1 in [0, 0]",
        ),
        ("concatenate 0 0 [] out-to-in", "refused 2"),
        // One place taken: the constraint always holds and goes.
        (
            "slice [10] [2:10:11] in-to-out",
            "(d0) -> (0),\ndomain:\nd0 in [2, 2]",
        ),
        (
            "slice [10] [2:10:8] out-to-in",
            "(d0) -> (d0 * 8 + 2),\ndomain:\nd0 in [0, 0]",
        ),
    ]);
}

#[test]
fn rules_of_operations() {
    check(&[
        ("broadcast [20] [10,20,30] {0} out-to-in", "refused 2"),
        ("broadcast [20] [10,20,30] {1,1} out-to-in", "refused 2"),
        ("broadcast [3,3] [3] {0,0} out-to-in", "refused 2 at 0 1"),
        ("transpose [3,5] {1} out-to-in", "refused 2"),
        ("transpose [3,5,7] {2,0,2} out-to-in", "refused 2 at 0 2"),
        ("reverse [3,5] {0,1,1,0} out-to-in", "refused 2 at 1 2"),
        ("reverse [3,5] {0,1,1,2} out-to-in", "refused 2"),
        ("reverse [0] {0,0} out-to-in", "refused 1"),
        ("reduce [3,5] {-1,-1} out-to-init", "refused 2"),
        ("slice [10] [0:10:1048577] out-to-in", "refused 2"),
        ("slice [10] [3:3:1] out-to-in", "refused 2"),
        ("slice [10] [3:11:1] out-to-in", "refused 2"),
        ("slice [10] [3:10:0] out-to-in", "refused 2"),
        ("slice [10,10] [3:10:1] out-to-in", "refused 2"),
        ("reshape [4,8] [31] out-to-in", "refused 2"),
        ("concatenate 0 0 out-to-in", "refused 2"),
        ("concatenate 0 2 [3] [3] out-to-in", "refused 2"),
        ("concatenate 1 0 [3] [3] out-to-in", "refused 2"),
        ("concatenate 0 0 [3,2] [3,3] out-to-in", "refused 2"),
        ("concatenate 0 0 [1048576] [1] out-to-in", "refused 1"),
        ("concatenate 0 2 [1048576] [1] out-to-in", "refused 2"),
        (
            "concatenate 1 0 [1048576,1,2] [1048576,524288,2] out-to-in",
            "refused 1",
        ),
    ]);
    let nine = |ninth: &str| format!("concatenate 0 0 {}{ninth} out-to-in", "[1] ".repeat(8));
    check(&[(&nine("[0]"), "refused 2"), (&nine("[1]"), "refused 2")]);
    check(&[(&nine("[1] [1]").replacen("[1]", "[0]", 1), "refused 1")]);
}

#[test]
fn columns_of_unreadable_operations() {
    check_columns(&[
        ("elementwise [3]", 16),
        ("elementwise [3] ", 17),
        ("elementwise [3] out-to-init", 17),
        ("elementwise [3] out-to-in-", 17),
        ("elementwise [3] out-to-in5", 26),
        ("elementwise [3] out-to-in in-to-out", 27),
        ("reduce [3] {0} init-to-in", 16),
        ("broadcast [3] {0} out-to-in", 15),
        ("transpose [3] {0:T(2)} out-to-in", 17),
        ("concatenate 0 [3] out-to-in", 15),
        ("slice [3] [0:3] out-to-in", 15),
        ("slice [3] [0:3:1:1] out-to-in", 17),
        ("reverse [0] {0} out-to-i", 17),
        ("dynamic-slice 0 [4] {4} out-to-in", 1),
    ]);
}

#[test]
fn random_operations_reach_every_number() {
    let lines = random_lines(19, 4000, Some(Kind::Operation));
    let answers: Vec<String> = lines
        .split(|byte| *byte == b'\n')
        .filter_map(answer_line)
        .collect();
    let count = |start: &str| {
        let starts = answers.iter().filter(|answer| answer.starts_with(start));
        starts.count()
    };
    for start in ["refused 1", "refused 2", "error", "("] {
        assert!(count(start) > 200, "{start}");
    }
    for later in 1..6 {
        for earlier in 0..later {
            let start = format!("refused 2 at {earlier} {later}");
            assert!(count(&start) > 0, "{start}");
        }
    }
    // Folding refused none of those that keep the rules.
    assert_eq!(count("refused 7") + count("refused 8"), 0);
}
