//! Vectors about the order of the rules of offset tables: every choice of broken ones, for both questions.

use crate::vectors::{group, Group};

/// Has more than 2^40 cells for a shape of rank 2.
const OVER: &str = "{1,0:T(1024)(1024,1024)(1024,1024,1024,1024)}";

pub const TABLE_RULES: &[Group] = &[
    (
        "which: a layout that breaks its rule, before and behind the one that makes the table",
        &[
            "which [2,2] 4 (0,1,2,3) {1,0} {1,1}",
            "which [2,2] 4 (0,1,2,3) {1,1} {1,0}",
            "which [2,2] 4 (0,1,2,3) {1,0} {0}",
            "which [2,2] 4 (0,1,2,3) {1,0} {}",
            "which [2,2] 4 (0,1,2,3) {1,0} {2,1,0}",
            "which [2,2] 4 (0,1,2,3) {1,0} {0,1} {-1,0}",
            "which [2,2] 4 (0,1,2,3) {1,0} {1,0:T()}",
            "which [2,2] 4 (0,1,2,3) {1,0} {1,0:T(0)}",
            "which [2,2] 4 (0,1,2,3) {1,0} {1,0:T(1025)}",
            "which [2,2] 4 (0,1,2,3) {1,0} {1,0:T(1,1,1)}",
            "which [2,2] 4 (0,1,2,3) {1,0} {1,0:T(1)(1)(1)(1)}",
            "which [2,2] 4 (0,1,2,3) {1,0} {1,0:T(1)(1)(1)}",
            "which [2,2] 4 (0,1,2,3) {0,1} {1,1}",
            "which [] 1 (0) {} {0}",
            "which [] 1 (0) {} {:T(1)}",
        ],
    ),
    (
        "which: a layout of 2^40 cells and one of more, before and behind the one that makes the table",
        &[
            "which [1,1] 1 (0) {1,0} {1,0:T(1024,1024)(1024,1024,1024,1024)}",
            "which [1,1] 1 (0) {1,0:T(1024,1024)(1024,1024,1024,1024)} {1,0}",
            "which [1,1] 1 (0) {1,0} {1,0:T(1024,1024)(1024,1024,1024,1024)(1,1,1,3)}",
            "which [1,1] 1 (0) {1,0:T(1024,1024)(1024,1024,1024,1024)(1,1,1,3)} {1,0}",
            "which [1,1] 1099511627776 (0) {1,0} {1,0:T(1024,1024)(1024,1024,1024,1024)}",
            "which [1,1] 1099511627776 (0) {1,0:T(1024,1024)(1024,1024,1024,1024)} {1,0:T(1024,1024)(1024,1024,1024,1024)(1,1,1,3)}",
            "which [1,1] 1099511627776 (1) {1,0} {1,0:T(1024,1024)(1024,1024,1024,1024)}",
            "which [1,1] 1099511627776 (0) {1,0} {0,1}",
            "which [1,1] 1099511627777 (0) {1,0}",
            "which [1,1] 1099511627777 (0) {1,0} {1,1}",
            "which [1,1] 1099511627777 (0) {1,0:T(1024,1024)(1024,1024,1024,1024)}",
            "which [1,1] 1099511627777 (0) {1,0:T(1024,1024)(1024,1024,1024,1024)(1,1,1,3)}",
            "which [1,1] 1099511627777 (0) {1,0:T(1024,1024)(1024,1024,1024,1024)(1,1,1,3)} {0}",
        ],
    ),
];

/// A good shape and a broken one.
const SHAPES: [&str; 2] = ["[2,2]", "[2,0]"];

/// Every choice of broken rules.
pub fn broken_rules(text: &mut String) {
    let tables = [
        "0,1,2,3",
        "0,1,2",
        "0,1,2,3,0",
        "",
        "0,1,2,2",
        "0,1,9223372036854775807,1",
        "0,1,-1,1",
    ];
    let sizes = ["4", "0", "3", "1099511627776", "1099511627777", "-1"];
    let mut lines = Vec::new();
    for shape in SHAPES {
        for table in tables {
            for padded in sizes {
                lines.push(format!("table {shape} {padded} ({table})"));
            }
        }
    }
    group(text, "tables: every choice of broken rules", lines.iter());
    broken_lists(text);
}

/// The same with lists: no layout, broken ones at several places, and too many.
fn broken_lists(text: &mut String) {
    let lists = [
        vec![],
        vec!["{1,0}"],
        vec!["{0,1}"],
        vec!["{1,0}", "{1,1}"],
        vec!["{1,1}", "{1,0}"],
        vec!["{1,0}", OVER],
        vec![OVER, "{1,0}"],
        vec!["{1,1}", OVER],
        vec![OVER, "{1,0}", "{1,1}"],
        vec!["{1,0}"; 65],
        [&["{1,0}"; 64][..], &[OVER, "{1,1}"]].concat(),
    ];
    let mut lines = Vec::new();
    for shape in SHAPES {
        for table in ["0,1,2,3", "0,1,2", "0,1,2,2", "0,1,-1,2"] {
            for padded in ["4", "1099511627777"] {
                for list in &lists {
                    let list = list.join(" ");
                    lines.push(format!("which {shape} {padded} ({table}) {list}"));
                }
            }
        }
    }
    group(text, "which: every choice of broken rules", lines.iter());
}
