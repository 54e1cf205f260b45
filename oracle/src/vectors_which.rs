//! Vectors about which layout makes a table (document 02, Q-10): the first of several, near ones, lists of 0 to 71.

use crate::small_cases::permutations;
use crate::vectors::{group, Group};
use crate::vectors_own_tables::{own_table, table_text};

pub const WHICH: &[Group] = &[
    (
        "which: the first of several layouts, the same one twice too",
        &[
            "which [2,2] 4 (0,1,2,3) {1,0}",
            "which [2,2] 4 (0,1,2,3) {1,0} {0,1}",
            "which [2,2] 4 (0,1,2,3) {0,1} {1,0}",
            "which [2,2] 4 (0,1,2,3) {1,0} {1,0}",
            "which [2,2] 4 (0,1,2,3) {0,1} {1,0} {1,0}",
            "which [2,2] 4 (0,1,2,3) {0,1} {0,1} {1,0}",
            "which [2,2] 4 (0,1,2,3) {0,1} {0,1}",
            "which [2,2] 4 (0,1,2,3) {1,0:T(1)} {1,0}",
            "which [2,2] 4 (0,1,2,3) {0,1} {1,0:T(2,2)} {1,0:T(1,1)(1)(1)} {1,0}",
            "which [2,2] 4 (0,2,1,3) {1,0:T(2)} {0,1:T(2)} {0,1}",
            "which [2,2] 4 (0,2,1,3) {1,0:T(2,1)} {0,1}",
            "which [] 1 (0) {}",
            "which [] 1 (0) {} {} {}",
            "which [1,1] 1 (0) {0,1} {1,0}",
            "which [1,1,1,1,1,1] 1 (0) {5,4,3,2,1,0} {0,1,2,3,4,5}",
        ],
    ),
    (
        "which: the same offsets and another padded size",
        &[
            "which [3] 3 (0,1,2) {0:T(4)}",
            "which [3] 3 (0,1,2) {0:T(4)} {0}",
            "which [3] 4 (0,1,2) {0}",
            "which [3] 4 (0,1,2) {0} {0:T(4)}",
            "which [3] 4 (0,1,2) {0:T(8)} {0:T(3)} {0:T(2)} {0:T(4)}",
            "which [3] 5 (0,1,2) {0:T(8)} {0:T(3)} {0:T(2)} {0:T(4)}",
            "which [3] 1024 (0,1,2) {0:T(8)} {0:T(1023)} {0:T(1024)}",
            "which [3] 1099511627776 (0,1,2) {0}",
            "which [3] 1099511627776 (0,1,2) {0} {0:T(1024)(1024,1024)(1024,1024,1024,1024)}",
            "which [3] 1099511627775 (0,1,2) {0} {0:T(1024)(1024,1024)(1024,1024,1024,1024)}",
            "which [2,2] 5 (0,1,2,3) {1,0}",
            "which [2,2] 6 (0,1,2,3) {1,0} {1,0:T(3,2)}",
            "which [2,2] 4 (0,1,2,3) {1,0:T(3,2)} {1,0:T(4,2)}",
            "which [2,2] 2 (0,1,2,3) {1,0}",
            "which [2,2] 4294967300 (0,1,2,3) {1,0}",
            "which [] 2 (0) {}",
        ],
    ),
    (
        "which: the same padded size and other offsets",
        &[
            "which [2,2] 4 (0,1,2,3) {0,1}",
            "which [2,2] 4 (3,2,1,0) {1,0} {0,1}",
            "which [2,2] 4 (0,3,1,2) {1,0} {0,1} {1,0:T(2)} {1,0:T(2,1)}",
            "which [2,2] 4 (1,0,2,3) {1,0}",
            "which [2,2] 4 (0,1,3,2) {1,0}",
            "which [2] 2 (1,0) {0}",
            "which [3] 4 (0,1,3) {0:T(2)}",
            "which [3] 4 (1,2,3) {0:T(2)} {0:T(4)}",
            "which [1] 4 (1) {0:T(4)}",
            "which [1] 4 (4294967296) {0:T(4)}",
            "which [2] 1099511627776 (0,4294967297) {0:T(1024)(1024,1024)(1024,1024,1024,1024)}",
            "which [4,8] 32 (0,2,4,6,8,10,12,14,1,3,5,7,9,11,13,15,16,18,20,22,24,26,28,30,17,19,21,23,25,27,29,31) {1,0:T(2,4)} {1,0:T(2,4)(2,1)}",
            "which [4,8] 32 (0,2,4,6,8,10,12,14,1,3,5,7,9,11,13,15,16,18,20,22,24,26,28,30,17,19,21,23,25,27,31,29) {1,0:T(2,4)} {1,0:T(2,4)(2,1)}",
        ],
    ),
    (
        "which: an unsound table, for any padded size",
        &[
            "which [2,2] 4 (0,1,2,2) {1,0}",
            "which [2,2] 4 (0,1,2,4) {1,0}",
            "which [2,2] 3 (0,1,2,3) {1,0}",
            "which [2,2] 0 (0,1,2,3) {1,0}",
            "which [] 0 (0) {}",
            "which [2,2] 4 (0,1,2,-1) {1,0}",
            "which [2] 1099511627776 (0,1099511627776) {0}",
            "which [2] 1099511627777 (0,1099511627776) {0}",
            "which [2] 1099511627777 (0,1099511627777) {0}",
            "which [2] 1099511627777 (0,0) {0}",
            "which [2] 1099511627777 (0,1) {0}",
            "which [2] 9223372036854775807 (0,9223372036854775806) {0}",
            "which [2] 9223372036854775807 (0,9223372036854775807) {0}",
            "which [2] 9223372036854775807 (1,1) {0}",
            "which [2] -1 (0,1) {0}",
            "which [2] -1 (0,9223372036854775807) {0}",
            "which [2] -1 (0,-1) {0}",
            "which [2] -1 (7,7) {0}",
        ],
    ),
];

/// Every order of a shape by every order, and lists of 0 to 70 layouts.
pub fn which_of_many(text: &mut String) {
    let order_text = |order: Vec<u64>| {
        let dimensions: Vec<String> = order.iter().map(u64::to_string).collect();
        format!("{{{}}}", dimensions.join(","))
    };
    let orders: Vec<String> = permutations(3).into_iter().map(order_text).collect();
    let mut lines = Vec::new();
    for shape in ["[2,3,4]", "[2,2,2]", "[2,1,3]"] {
        for order in &orders {
            let table = table_text(&own_table(shape, order));
            lines.push(format!("which {shape} {table} {}", orders.join(" ")));
        }
    }
    group(text, "which: every order of three dimensions", lines.iter());
    let mut lines = Vec::new();
    for count in [0, 1, 2, 63, 64, 65, 66, 70] {
        let list = |layout: &str| format!(" {layout}").repeat(count);
        for layout in ["{0}", "{0:T(2)}", "{0:T(4)}", "{1}"] {
            lines.push(format!("which [3] 3 (0,1,2){}", list(layout)));
        }
        // The one that makes the table stands behind all others.
        lines.push(format!("which [3] 4 (0,1,2){} {{0:T(4)}}", list("{0}")));
        lines.push(format!("which [3] 4 (0,1,2){} {{1}}", list("{0}")));
        lines.push(format!("which [3] 4 (0,1,1){}", list("{0:T(4)}")));
        lines.push(format!("which [0] 4 (0,1,1){}", list("{0:T(4)}")));
    }
    group(text, "which: lists of 0, 1, 2 and 63 to 71", lines.iter());
}
