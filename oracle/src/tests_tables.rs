//! Tests of offset tables (document 02, Q-10): samples, what is found first, lengths, layouts, order, unreadable lines.

use crate::tests::{check, check_columns};
use crate::vectors_own_tables::{own_table, table_text};

#[test]
fn samples() {
    check(&[
        ("table [2,2] 4 (0, 1, 2, 2)", "shared 2 3"),
        ("table [2,2] 4 (0, 1, 9, 1)", "outside 2"),
        ("table [] 0 (0)", "outside 0"),
        ("table [2,2] 4 (0, 1, 2)", "refused 2"),
        (
            "which [2,2] 4 (0, 2, 1, 3) {1,0} {0,1} {0,1:T(1)}",
            "layout 1",
        ),
        ("which [2,2] 5 (0, 2, 1, 3) {1,0} {0,1}", "refused 12"),
    ]);
}

#[test]
fn what_is_found_first() {
    check(&[
        ("table [4] 4 (3,1,0,2)", "sound"),
        // By the earlier element the pair would be 0 and 3.
        ("table [4] 4 (0,1,1,0)", "shared 1 2"),
        ("table [4] 4 (0,1,0,1)", "shared 0 2"),
        ("table [3] 3 (2,2,2)", "shared 0 1"),
        // The whole table is searched for an offset outside.
        ("table [3] 3 (0,0,3)", "outside 2"),
        ("table [3] 3 (3,3,3)", "outside 0"),
        ("table [2] 4 (0,-1)", "outside 1"),
        ("table [2] 1099511627776 (0,1099511627776)", "outside 1"),
        ("table [2] 1099511627776 (0,1099511627775)", "sound"),
        // Offsets that agree in 32 bits are different.
        ("table [2] 1099511627776 (0,4294967296)", "sound"),
        // Fewer cells than elements break no rule.
        ("table [2,2] 3 (0,1,2,2)", "shared 2 3"),
        ("table [2,2] 3 (0,1,2,3)", "outside 3"),
    ]);
}

#[test]
fn lengths_and_shapes() {
    check(&[
        ("table [] 1 (0)", "sound"),
        ("table [] 1 ()", "refused 2"),
        ("table [2] 3 (0,1,2)", "refused 2"),
        ("table [2] 2 (0,1,1)", "refused 2"),
        ("table [0] 0 ()", "refused 1"),
        ("table [1048576,1048576] 1 (0)", "refused 2"),
        ("table [1048576,1048576,2] 1 (0)", "refused 1"),
        ("table [1,1,1,1,1,1,1] 1 (0)", "refused 1"),
    ]);
    let table = |count: u64, shape: &str| {
        let offsets: Vec<String> = (0..count).map(|offset| offset.to_string()).collect();
        format!("table {shape} 5000 ({})", offsets.join(","))
    };
    check(&[
        (&table(4096, "[4096]"), "sound"),
        (&table(4096, "[64,64]"), "sound"),
        (&table(4097, "[64,64]"), "refused 2"),
        (&table(4095, "[64,64]"), "refused 2"),
        (&table(4097, "[4097]"), "refused 2"),
    ]);
}

#[test]
fn tables_of_accepted_layouts() {
    let makers = [
        ("[]", "{}"),
        ("[3,5]", "{0,1}"),
        ("[3,5]", "{1,0:T(2,2)}"),
        ("[4,8]", "{1,0:T(2,4)(2,1)}"),
        ("[2,3,4]", "{0,2,1:T(2,2,3)(2,1)(3)}"),
        ("[2,1,2,2,1,3]", "{3,0,5,1,4,2:T(1,2,1,2,1,2)}"),
        ("[64,64]", "{1,0:T(8,16)}"),
    ];
    for (shape, layout) in makers {
        let table = table_text(&own_table(shape, layout));
        check(&[
            (&format!("table {shape} {table}"), "sound"),
            (&format!("which {shape} {table} {layout}"), "layout 0"),
        ]);
    }
    // The offsets of the picture in document 001.
    let table = own_table("[3,5]", "{1,0:T(2,2)}");
    assert_eq!(table.padded, 24);
    let picture = [0, 1, 4, 5, 8, 2, 3, 6, 7, 10, 12, 13, 16, 17, 20];
    assert_eq!(table.offsets, picture);
}

#[test]
fn the_layout_that_makes_a_table() {
    check(&[
        ("which [2,2] 4 (0,1,2,3) {0,1} {1,0} {1,0}", "layout 1"),
        ("which [2,2] 4 (0,1,2,3) {0,1} {1,0:T(1)} {1,0}", "layout 1"),
        // Another padded size, and other offsets.
        ("which [3] 4 (0,1,2) {0} {0:T(8)} {0:T(2)}", "layout 2"),
        ("which [3] 5 (0,1,2) {0} {0:T(8)} {0:T(2)}", "refused 12"),
        ("which [2,2] 4 (0,1,2,3) {0,1}", "refused 12"),
        ("which [2,2] 4 (3,2,1,0) {0,1} {1,0}", "refused 12"),
        ("which [] 1 (0)", "refused 2"),
    ]);
    let line = |count: usize| format!("which [3] 4 (0,1,2){} {{0:T(4)}}", " {0}".repeat(count));
    check(&[(&line(63), "layout 63"), (&line(64), "refused 2")]);
}

#[test]
fn the_order_of_the_numbers() {
    let over = "{0:T(1024)(1024,1024)(1024,1024,1000,1024)}";
    let which = |table: &str, list: &str| format!("which [2] {table} {list}");
    let many = "{0} ".repeat(65);
    let (top, above) = ("1099511627776", "1099511627777");
    check(&[
        ("table [0] 1099511627777 (0,0)", "refused 1"),
        ("table [2] 1099511627777 (0)", "refused 2"),
        ("table [2] 1099511627777 (0,0)", "refused 4"),
        ("table [2] -1 (0,-1)", "refused 4"),
        ("which [0] -1 (0,0) {1}", "refused 1"),
        (&which(&format!("{above} (0)"), "{1}"), "refused 2"),
        (&which(&format!("{above} (0,0)"), "{1}"), "refused 2"),
        (&which(&format!("{above} (0,{above})"), "{0}"), "refused 2"),
        (&which(&format!("{above} (0,{top})"), "{0}"), "refused 4"),
        (&which(&format!("{above} (0,1)"), "{1}"), "refused 3"),
        (&which(&format!("{above} (0,1)"), ""), "refused 2"),
        (&which("-1 (0,-1)", "{0}"), "refused 2"),
        (&which("-1 (0,1)", "{0}"), "refused 4"),
        (&which("2 (0,0)", "{1}"), "refused 2"),
        (&which("2 (0,1)", &format!("{many}{{1}}")), "refused 2"),
        // Layouts behind the one that makes the table are judged too.
        (&which("2 (0,1)", "{0} {1}"), "refused 3"),
        (&which("2 (0,1)", &format!("{{0}} {over}")), "refused 4"),
        (&which("2 (0,1)", &format!("{over} {{1}}")), "refused 3"),
        (&which("2 (1,0)", &format!("{over} {{0}}")), "refused 4"),
    ]);
}

#[test]
fn columns_of_unreadable_tables() {
    check_columns(&[
        ("table", 6),
        ("table [2] (0,1)", 11),
        ("table [2] 2", 12),
        ("table [2] 2 {0,1}", 13),
        ("table [2] 2 (0,1", 17),
        ("table [2] 2 (0,1,)", 18),
        ("table [2] 2 (0,1) {0}", 19),
        ("table [2] 9223372036854775808 (0,1)", 11),
        ("table [2] 2 (0,18446744073709551615)", 16),
        ("which [2] 2 {0}", 13),
        ("which [2] 2 (0,1) 0", 19),
        ("which [2] 2 (0,1) {0} ; {0}", 23),
        ("which [0] 2 (0,1) {1} {0", 25),
        ("tables [2] 2 (0,1)", 1),
    ]);
}
