//! Vectors about the rules of operations: every cause of 1 and 2, repeats, and which of them is given.

use crate::vectors::{group, Group};

pub const OPERATION_RULES: &[Group] = &[
    (
        "operations: shapes that break their limits",
        &[
            "elementwise [0] out-to-in",
            "elementwise [1048577] out-to-in",
            "elementwise [-1] out-to-in",
            "elementwise [1,1,1,1,1,1,1] out-to-in",
            "elementwise [1048576,1048576] out-to-in",
            "elementwise [1048576,1048576,2] out-to-in",
            "broadcast [0] [1,0] {1} out-to-in",
            "broadcast [3] [3,0] {0} out-to-in",
            "broadcast [3] [3,1,1,1,1,1,1] {0} out-to-in",
            "transpose [1048576,1048576,2] {0,0} in-to-out",
            "reverse [0] {9} out-to-in",
            "reduce [0] {0,0} out-to-in",
            "reduce [2,1048577] {1} out-to-init",
            "slice [0] [0:0:1] out-to-in",
            "reshape [0] [0] out-to-in",
            "reshape [4] [4,0] out-to-in",
            "reshape [4] [2,2,1,1,1,1,1] out-to-in",
            "reshape [1048577] [1048577] in-to-out",
            "concatenate 0 0 [0] out-to-in",
            "concatenate 9 9 [3] [0] out-to-in",
            "concatenate 0 0 [3] [3,1,1,1,1,1,1] out-to-in",
        ],
    ),
    (
        "broadcast: causes of number 2",
        &[
            "broadcast [20] [10,20,30] {} out-to-in",
            "broadcast [20] [10,20,30] {1,2} out-to-in",
            "broadcast [20] [10,20,30] {3} out-to-in",
            "broadcast [20] [10,20,30] {-1} out-to-in",
            "broadcast [20] [10,20,30] {4294967297} out-to-in",
            "broadcast [20] [10,20,30] {0} out-to-in",
            "broadcast [20] [10,20,30] {2} in-to-out",
            "broadcast [20,30] [10,20,30] {2,1} out-to-in",
            "broadcast [30,20] [10,20,30] {2,1} out-to-in",
            "broadcast [3,3] [3,3] {0,0} out-to-in",
            "broadcast [3,3] [3,4] {0,0} out-to-in",
            "broadcast [3,4] [3,4] {0,0} out-to-in",
            "broadcast [3,3,3] [3,3] {0,1,0} in-to-out",
            "broadcast [3,3,3] [3,3] {0,1,1,0} in-to-out",
            "broadcast [3,3,3] [3,3] {0,0,2} in-to-out",
            "broadcast [] [] {0} out-to-in",
            "broadcast [1] [] {0} out-to-in",
        ],
    ),
    (
        "transpose, reverse and reduce: causes of number 2",
        &[
            "transpose [3,5] {} out-to-in",
            "transpose [3,5] {0} out-to-in",
            "transpose [3,5] {0,1,0} out-to-in",
            "transpose [3,5] {0,2} out-to-in",
            "transpose [3,5] {-1,0} out-to-in",
            "transpose [3,5] {0,0} out-to-in",
            "transpose [3,5] {1,1} in-to-out",
            "transpose [3,5,7] {2,0,2} in-to-out",
            "transpose [3,5,7] {2,2,3} in-to-out",
            "transpose [3,5,7] {2,2,2} in-to-out",
            "transpose [3,5,7] {2,2} in-to-out",
            "reverse [3,5] {} out-to-in",
            "reverse [3,5] {2} out-to-in",
            "reverse [3,5] {0,0} out-to-in",
            "reverse [3,5] {0,0,2} out-to-in",
            "reverse [3,5] {0,1,1,0} out-to-in",
            "reverse [3,5] {0,1,0,1} out-to-in",
            "reverse [3,5] {1,1,0,0,1,0,1} out-to-in",
            "reverse [] {0} out-to-in",
            "reverse [3,5] {9223372036854775807} out-to-in",
            "reverse [3,5] {-9223372036854775808} out-to-in",
            "reduce [3,5] {} out-to-in",
            "reduce [3,5] {} init-to-out",
            "reduce [3,5] {2} in-to-out",
            "reduce [3,5] {1,1} out-to-init",
            "reduce [3,5] {1,0,1} init-to-out",
            "reduce [3,5] {1,1,-1} init-to-out",
            "reduce [] {0} init-to-out",
        ],
    ),
    (
        "slice and reshape: causes of number 2",
        &[
            "slice [10] out-to-in",
            "slice [10] [0:10:1] [0:1:1] out-to-in",
            "slice [] [0:1:1] out-to-in",
            "slice [10] [0:0:1] out-to-in",
            "slice [10] [5:5:1] out-to-in",
            "slice [10] [6:5:1] out-to-in",
            "slice [10] [0:11:1] out-to-in",
            "slice [10] [10:11:1] out-to-in",
            "slice [10] [0:10:0] out-to-in",
            "slice [10] [0:10:1048576] out-to-in",
            "slice [10] [0:10:1048577] out-to-in",
            "slice [10] [0:10:-1] out-to-in",
            "slice [10] [-1:10:1] out-to-in",
            "slice [10] [0:-1:1] out-to-in",
            "slice [10] [-2:-1:1] out-to-in",
            "slice [10] [0:9223372036854775807:1] in-to-out",
            "slice [10,10] [0:10:1] [0:11:1] in-to-out",
            "slice [10,10] [0:11:1] [0:10:1] in-to-out",
            "slice [10,10,10] [0:1:1] [0:1:1] in-to-out",
            "reshape [4] [5] out-to-in",
            "reshape [4,8] [31] out-to-in",
            "reshape [] [2] out-to-in",
            "reshape [2] [] in-to-out",
            "reshape [1048576,1048576] [1048576,1048575] in-to-out",
            "reshape [1048576,4096,16] [16,4096,1048576] in-to-out",
            "reshape [1048576,4096,16] [16,4096,1048576,1] out-to-in",
        ],
    ),
    (
        "concatenate: counts, dimensions, operands and what isn't alike",
        &[
            "concatenate 0 0 out-to-in",
            "concatenate 9 9 in-to-out",
            "concatenate 0 0 [1] [1] [1] [1] [1] [1] [1] [1] [1] out-to-in",
            "concatenate 0 8 [1] [1] [1] [1] [1] [1] [1] [1] [1] out-to-in",
            "concatenate 0 0 [1] [1] [1] [1] [1] [1] [1] [1] [0] out-to-in",
            "concatenate 0 0 [1] [1] [1] [1] [1] [1] [1] [0] [1] out-to-in",
            "concatenate 0 0 [1] [1] [1] [1] [1] [1] [1] [1] [1,1,1,1,1,1,1] out-to-in",
            "concatenate 1 0 [3] [3] out-to-in",
            "concatenate -1 0 [3] [3] out-to-in",
            "concatenate 0 2 [3] [3] out-to-in",
            "concatenate 0 -1 [3] [3] out-to-in",
            "concatenate 0 4294967296 [3] [3] out-to-in",
            "concatenate 4294967296 0 [3] [3] out-to-in",
            "concatenate 0 0 [3,4] [3,5] out-to-in",
            "concatenate 1 0 [3,4] [3,5] out-to-in",
            "concatenate 0 0 [3,4] [3] out-to-in",
            "concatenate 0 0 [3] [3,4] out-to-in",
            "concatenate 0 0 [3] [3] [3,1] out-to-in",
            "concatenate 0 1 [3] [] out-to-in",
            "concatenate 1 0 [3,4] [4,4] [3,4] out-to-in",
        ],
    ),
    (
        "concatenate: result shapes past 2^20 and 2^40, alone and beside number 2",
        &[
            "concatenate 0 0 [1048576] [1] out-to-in",
            "concatenate 0 0 [524288] [524288] out-to-in",
            "concatenate 0 0 [524288] [524289] out-to-in",
            "concatenate 0 1 [1048576] [1048576] [1048576] [1048576] [1048576] [1048576] [1048576] [1048576] in-to-out",
            "concatenate 0 0 [1048576,2] [1,2] out-to-in",
            "concatenate 1 0 [1048576,1048575] [1048576,1] out-to-in",
            "concatenate 1 0 [1048576,1048575] [1048576,2] out-to-in",
            "concatenate 2 0 [1048576,1024,512] [1048576,1024,512] out-to-in",
            "concatenate 2 0 [1048576,1024,512] [1048576,1024,513] out-to-in",
            "concatenate 2 1 [1048576,1024,1024] [1048576,1024,1] in-to-out",
            "concatenate 0 2 [1048576] [1] out-to-in",
            "concatenate 1 0 [1048576] [1] out-to-in",
            "concatenate 0 0 [1048576,2] [1,3] out-to-in",
            "concatenate 0 0 [1048577] [1] out-to-in",
        ],
    ),
];

/// Repeats at every pair of places of a list of seven dimensions of rank 6, alone and with an entry out of range.
pub fn repeats(text: &mut String) {
    let mut lines = Vec::new();
    for later in 1..7 {
        for earlier in 0..later {
            let mut list: Vec<u64> = (0..7).map(|place| place % 6).collect();
            list[later] = list[earlier];
            let words: Vec<String> = list.iter().map(u64::to_string).collect();
            let list = words.join(",");
            lines.push(format!("reverse [2,3,4,5,6,7] {{{list}}} out-to-in"));
            lines.push(format!("reduce [2,3,4,5,6,7] {{{list}}} in-to-out"));
            lines.push(format!("reduce [2,3,4,5,6,7] {{{list},6}} out-to-in"));
            let six = words[..6].join(",");
            lines.push(format!("transpose [2,3,4,5,6,7] {{{six}}} in-to-out"));
            let cube = "[3,3,3,3,3,3]";
            lines.push(format!("broadcast {cube} {cube} {{{six}}} out-to-in"));
        }
    }
    let title = "operations: repeats at every pair of places";
    group(text, title, lines.iter());
}
