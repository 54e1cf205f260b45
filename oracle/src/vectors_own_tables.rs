//! Vectors about the offset tables of accepted layouts: as they are, with one offset changed, and asked for their layout.

use crate::offset_table::{table_of, OffsetTable};
use crate::request::{read_request, Request};
use crate::vectors::group;

/// Shapes of rank 0 to 6, with layouts in several orders and with up to three tiles.
const MAKERS: [(&str, &str); 25] = [
    ("[]", "{}"),
    ("[1]", "{0}"),
    ("[7]", "{0:T(3)}"),
    ("[7]", "{0:T(2)(3)}"),
    ("[3,5]", "{1,0}"),
    ("[3,5]", "{0,1}"),
    ("[3,5]", "{1,0:T(2,2)}"),
    ("[3,5]", "{0,1:T(2,2)}"),
    ("[4,8]", "{1,0:T(2,4)(2,1)}"),
    ("[3,5]", "{1,0:T(8,128)}"),
    ("[3,5]", "{1,0:T(8,128)(2,1)}"),
    ("[2,3,4]", "{2,1,0}"),
    ("[2,3,4]", "{0,1,2}"),
    ("[2,3,4]", "{1,2,0:T(2,3)}"),
    ("[2,3,4]", "{0,2,1:T(2,2,3)(2,1)(3)}"),
    ("[2,2,2,3]", "{3,2,1,0}"),
    ("[2,2,2,3]", "{1,3,0,2:T(2,3)}"),
    ("[2,1,2,3,2]", "{4,3,2,1,0:T(4)}"),
    ("[2,1,2,3,2]", "{2,0,4,1,3:T(2,2)(2,2)}"),
    ("[1,2,1,2,1,2]", "{0,1,2,3,4,5}"),
    ("[2,1,2,2,1,3]", "{5,4,3,2,1,0:T(2,2)}"),
    ("[2,1,2,2,1,3]", "{3,0,5,1,4,2:T(1,2,1,2,1,2)}"),
    ("[1,1]", "{1,0:T(1024,1024)}"),
    ("[2,2]", "{0,1:T(1024,1024)(1024,1)}"),
    ("[1,1,1,1]", "{3,2,1,0:T(1024,1024,1024,1024)}"),
];

/// The table of a layout; both are good.
pub fn own_table(shape: &str, layout: &str) -> OffsetTable {
    match read_request(format!("padded {shape} {layout}").as_bytes()) {
        Ok(Request::Placed { shape, layout, .. }) => {
            table_of(&shape, &layout).expect("a layout that is accepted")
        }
        _ => panic!("a line that can be read"),
    }
}

/// PADDED TABLE.
pub fn table_text(table: &OffsetTable) -> String {
    let offsets: Vec<String> = table.offsets.iter().map(u64::to_string).collect();
    format!("{} ({})", table.padded, offsets.join(","))
}

/// The table of every layout, as it is and changed, for the judge and with its layout.
pub fn own_tables(text: &mut String) {
    let changes: [(&str, fn(&mut OffsetTable)); 8] = [
        ("as they are", |_| ()),
        ("the first and the last offset exchanged", |table| {
            let last = table.offsets.len() - 1;
            table.offsets.swap(0, last);
        }),
        ("two elements in the middle in one cell", |table| {
            let middle = table.offsets.len() / 2;
            table.offsets[middle] = table.offsets[middle / 2];
        }),
        ("the last element in the first one's cell", |table| {
            let last = table.offsets.len() - 1;
            table.offsets[last] = table.offsets[0];
        }),
        ("the last element at the padded size", |table| {
            let last = table.offsets.len() - 1;
            table.offsets[last] = table.padded;
        }),
        ("the first element moved to the last cell", |table| {
            table.offsets[0] = table.padded - 1;
        }),
        ("one cell less", |table| table.padded -= 1),
        ("one cell more", |table| table.padded += 1),
    ];
    for (name, change) in changes {
        let mut lines = Vec::new();
        for (shape, layout) in MAKERS {
            let mut table = own_table(shape, layout);
            change(&mut table);
            let table = table_text(&table);
            lines.push(format!("table {shape} {table}"));
            lines.push(format!("which {shape} {table} {layout}"));
        }
        let title = format!("tables: of accepted layouts, {name}");
        group(text, &title, lines.iter());
    }
}
