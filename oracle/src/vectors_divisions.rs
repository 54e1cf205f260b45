//! Vectors about divisions: multipliers, quotients, and cells on both sides of the offset 2^24.

use crate::offset::point_at_offset;
use crate::request::{read_request, Question, Request};
use crate::vectors::{group, Group};

pub const DIVISIONS: &[Group] = &[
    (
        "multipliers: the samples of 02, the ends, and neighbours of powers of two",
        &[
            "multiplier 1",
            "multiplier 3",
            "multiplier 128",
            "multiplier 2",
            "multiplier 7",
            "multiplier 127",
            "multiplier 129",
            "multiplier 511",
            "multiplier 512",
            "multiplier 513",
            "multiplier 1000",
            "multiplier 1023",
            "multiplier 1024",
        ],
    ),
    (
        "number 2: divisors outside 1 to 1,024",
        &[
            "multiplier 0",
            "multiplier 1025",
            "multiplier -1",
            "multiplier -0",
            "multiplier -128",
            "multiplier 9223372036854775807",
            "multiplier -9223372036854775808",
            "quotient 7 0",
            "quotient 0 0",
            "quotient 7 1025",
            "quotient 7 -1",
            "quotient -1 -1",
            "quotient 16777216 0",
            "quotient 16777216 1025",
            "quotient 7 9223372036854775807",
            "quotient 7 -9223372036854775808",
        ],
    ),
    (
        "quotients: small numbers and both sides of 2^24",
        &[
            "quotient 0 1",
            "quotient 0 1024",
            "quotient 1 1",
            "quotient 2 3",
            "quotient 3 3",
            "quotient 1023 1024",
            "quotient 1024 1024",
            "quotient 16777215 1",
            "quotient 16777216 1",
            "quotient 16777215 3",
            "quotient 16777216 3",
            "quotient 16777217 3",
            "quotient 16777214 5",
            "quotient 16777215 7",
            "quotient 16776704 1023",
            "quotient 16777199 1023",
            "quotient 16777200 1023",
            "quotient 16778222 1023",
            "quotient 16777215 1024",
            "quotient 16777216 1024",
        ],
    ),
    (
        "quotients: numbers that are divided plainly, up to the largest",
        &[
            "quotient 17179869183 1",
            "quotient 17179869184 3",
            "quotient 17179869185 1024",
            "quotient 1099511627776 1023",
            "quotient 9223372036854775807 1",
            "quotient 9223372036854775807 3",
            "quotient 9223372036854775807 1024",
            "quotient -1 1",
            "quotient -1 3",
            "quotient -5 1023",
            "quotient -9223372036854775808 1024",
        ],
    ),
    (
        "unreadable requests on divisions",
        &[
            "multiplier",
            "multiplier 3 3",
            "multiplier (3)",
            "multiplier x",
            "multiplier - 3",
            "multiplier 9223372036854775808",
            "multiplier 0 x",
            "multiplier3",
            "Multiplier 3",
            "multipliers 3",
            "  multiplier   0003  ",
            "quotient",
            "quotient 7",
            "quotient 7 3 1",
            "quotient 7,3",
            "quotient 7 x",
            "quotient x 3",
            "quotient 9223372036854775808 3",
            "quotient 7 -9223372036854775809",
            "quotient 7 0 ]",
            "quotient7 3",
            "quotients 7 3",
        ],
    ),
];

/// Tables of more than 2^24 cells, most in tiles whose entries are no powers of two.
const LARGE: [&str; 8] = [
    "[5000,5001] {1,0}",
    "[5000,5001] {1,0:T(3,7)}",
    "[5000,5001] {0,1:T(5,3)}",
    "[4100,9001] {1,0:T(1000)}",
    "[5003,4999] {1,0:T(12,100)(3,1)}",
    "[4999,5003] {0,1:T(6,10)(7)(3,1)}",
    "[1048573,17] {0,1:T(3)}",
    "[300,299,301] {1,2,0:T(5,9,1023)}",
];

/// The cells around the offset 2^24, and the offsets of the points that they hold.
pub fn around_reached(text: &mut String) {
    for place in LARGE {
        let mut lines = Vec::new();
        for offset in (1 << 24) - 3..(1 << 24) + 3 {
            let line = format!("cell {place} {offset}");
            let held = point_held(&line);
            lines.push(line);
            if let Some(point) = held {
                lines.push(format!("offset {place} ({})", point.join(",")));
            }
        }
        let title = format!("both sides of the offset 2^24: {place}");
        group(text, &title, lines.iter());
    }
}

/// The coordinates that the answer to a request on a cell has.
fn point_held(line: &str) -> Option<Vec<String>> {
    let Ok(Request::Placed {
        shape,
        layout,
        question: Question::Cell { offset },
        ..
    }) = read_request(line.as_bytes())
    else {
        return None;
    };
    let point = point_at_offset(&shape, &layout, offset).ok()??;
    Some(point.iter().map(u64::to_string).collect())
}
