//! Vectors from the documents: the samples of 01 and the examples of source document 001.

use crate::vectors::{group, Group};

const SAMPLES: &[Group] = &[
    (
        "document 01, marked samples: [3,5] in tiles of (2,2)",
        &[
            "padded [3,5] {1,0:T(2,2)}",
            "offset [3,5] {1,0:T(2,2)} (2,3)",
            "offset [3,5] {1,0:T(2,2)} (1,4)",
            "cell [3,5] {1,0:T(2,2)} 9",
            "cell [3,5] {1,0:T(2,2)} 24",
        ],
    ),
    (
        "document 01, marked samples: [3,5] untiled, first dimension minor",
        &["offset [3,5] {0,1} (2,3)"],
    ),
    (
        "document 01, marked samples: [4,8] in tiles of (2,4)(2,1)",
        &[
            "offset [4,8] {1,0:T(2,4)(2,1)} (1,0)",
            "offset [4,8] {1,0:T(2,4)(2,1)} (0,1)",
            "offset [4,8] {1,0:T(2,4)(2,1)} (3,7)",
        ],
    ),
    (
        "document 01: the padded sizes that its routes speak of",
        &[
            "padded [3,5] {1,0}",
            "padded [3,5] {1,0:T(8,128)}",
            "padded [4,4] {1,0}",
            "padded [4,4] {0,1}",
        ],
    ),
    (
        "document 01, unmarked samples: tile entries and sizes",
        &[
            "padded [3,5] {1,0:T(1024)}",
            "padded [3,5] {1,0:T(1025)}",
            "padded [1048576] {0}",
            "padded [0] {0}",
            "padded [1048577] {0}",
        ],
    ),
    (
        "the card, the number and the point of the same table",
        &[
            "card [3,5] {1,0:T(2,2)}",
            "number [3,5] (2,3)",
            "point [3,5] 13",
            "cell [3,5] {1,0:T(2,2)} 17",
            "grid [3,5] {1,0:T(2,2)}",
        ],
    ),
];

/// A format of document 001 with shapes small enough to be shown whole.
const FORMATS: &[(&str, &[&str])] = &[
    ("(8,128)", &["3,5", "8,128", "9,129", "16,256"]),
    ("(8,128)(2,1)", &["3,5", "8,128", "9,130", "10,128"]),
    ("(8,128)(4,1)", &["3,5", "7,128", "9,130", "8,200"]),
    ("(2,128)", &["1,5", "2,128", "2,130", "3,129"]),
    ("(4,128)", &["3,5", "4,128", "4,129", "5,7"]),
    ("(32,128)(32,1)", &["32,128", "3,5", "31,127", "33,1"]),
];

/// Document 001's small formats for arrays of higher rank, asked without pictures.
const HIGHER: &[&str] = &[
    "padded [2,7,8,11,10] {4,3,2,1,0}",
    "padded [2,7,8,11,10] {4,3,2,1,0:T(8,128)}",
    "padded [2,7,8,11,10] {4,3,2,1,0:T(2,3)}",
    "padded [112,110] {1,0:T(2,3)}",
    "offset [112,110] {1,0:T(2,3)} (111,109)",
    "offset [2,7,8,11,10] {4,3,2,1,0:T(2,3)} (1,6,7,10,9)",
    "offset [2,3,5] {2,1,0:T(8,128)(2,1)} (1,2,4)",
    "offset [2,3,5] {0,1,2:T(8,128)(2,1)} (1,2,4)",
    "cell [2,3,5] {2,1,0:T(8,128)(2,1)} 1032",
    "cell [2,3,5] {2,1,0:T(8,128)(2,1)} 1033",
    "card [1024,1024] {1,0:T(8,128)}",
    "card [1024,1000] {1,0:T(8,128)(2,1)}",
    "padded [1000,1000] {1,0:T(32,128)(32,1)}",
    "offset [1000,1000] {1,0:T(32,128)(32,1)} (999,999)",
    "cell [1000,1000] {1,0:T(32,128)(32,1)} 1048575",
];

/// The samples of 01 and the worked examples of 001.
pub fn documents(text: &mut String) {
    for (title, lines) in SAMPLES {
        group(text, title, lines.iter());
    }
    let title = "document 001, figure 1: every point and every cell of [3,5] in tiles of (2,2)";
    group(text, title, whole_table(3, 5, "{1,0:T(2,2)}", 24).iter());
    let title =
        "document 001, figure 2: every point and every cell of [4,8] in tiles of (2,4)(2,1)";
    group(
        text,
        title,
        whole_table(4, 8, "{1,0:T(2,4)(2,1)}", 32).iter(),
    );
    let title = "the same two tables with the first dimension minor";
    group(text, title, whole_table(3, 5, "{0,1:T(2,2)}", 24).iter());
    group(
        text,
        title,
        whole_table(4, 8, "{0,1:T(2,4)(2,1)}", 32).iter(),
    );
}

/// Every request that shows a table of rank 2 whole.
fn whole_table(rows: u64, row_length: u64, layout: &str, padded: u64) -> Vec<String> {
    let table = format!("[{rows},{row_length}] {layout}");
    let mut lines = vec![format!("padded {table}")];
    for row in 0..rows {
        for place in 0..row_length {
            lines.push(format!("offset {table} ({row},{place})"));
        }
    }
    for offset in 0..=padded {
        lines.push(format!("cell {table} {offset}"));
    }
    for word in ["card", "grid", "pack", "unpack"] {
        lines.push(format!("{word} {table}"));
    }
    lines
}

/// The formats of 001.
pub fn formats(text: &mut String) {
    for (tiles, shapes) in FORMATS {
        let title = format!("document 001, format {tiles}");
        let lines = shapes.iter().flat_map(|sizes| format_lines(sizes, tiles));
        group(text, &title, lines);
    }
    group(
        text,
        "document 001, formats of larger arrays",
        HIGHER.iter(),
    );
    let table = "[5,130] {1,0:T(4,128)}";
    let lines = ["pack", "unpack"].map(|word| format!("{word} {table}"));
    group(
        text,
        "document 001, a format packed and unpacked",
        lines.iter(),
    );
}

/// The requests that show one shape in one format.
fn format_lines(sizes: &str, tiles: &str) -> Vec<String> {
    let table = format!("[{sizes}] {{1,0:T{tiles}}}");
    let mut lines = vec![format!("padded {table}"), format!("card {table}")];
    for point in ["0,0", "0,1", "1,0", "2,4", "7,127", "8,128", "31,0"] {
        lines.push(format!("offset {table} ({point})"));
    }
    for offset in [0, 1, 2, 3, 5, 31, 127, 128, 255, 1023, 1024, 4095] {
        lines.push(format!("cell {table} {offset}"));
    }
    lines.push(format!("fit {table} 1024"));
    lines.push(format!("grid {table}"));
    lines
}
