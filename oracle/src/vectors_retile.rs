//! Vectors about re-tiling: runs, marks, allowances, lengths, refusals in their order, cuts, unreadable lines.

use crate::layout::padded_size;
use crate::request::{read_request, Request};
use crate::vectors::{group, Group};

pub const RETILINGS: &[Group] = &[
    (
        "re-tiling: the samples, and a run that is not cut",
        &[
            "retile [2,3] {1,0} {0,1} 0:3 2:9",
            "retile [2,3] {1,0} {0,1} 0:3 2:4",
            "retile [2,3] {1,0} {0,1} 0:3 3:9",
            "retile [2,3] {1,0} {0,1} 0:6",
            "retile [2,3] {1,0} {0,1} 0:1 1:1 2:1 3:1 4:1 5:1",
        ],
    ),
    (
        "re-tiling: tiles on either side, padding in both, equal layouts",
        &[
            "retile [] {} {} 0:1",
            "retile [1] {0:T(4)} {0:T(3)} 0:9",
            "retile [3,5] {1,0} {1,0:T(2,2)} 0:24",
            "retile [3,5] {1,0:T(2,2)} {1,0} 0:15",
            "retile [3,5] {1,0:T(2,2)} {0,1:T(5,4)} 0:20",
            "retile [3,5] {1,0:T(2,2)} {1,0:T(2,2)} 0:24",
            "retile [3,5] {0,1} {0,1} 0:15",
            "retile [4,8] {1,0:T(2,4)(2,1)} {0,1:T(3,3)} 0:36 36:99",
            "retile [5] {0:T(2)(3)} {0:T(3)(2)(5)} 0:99",
            "retile [2,1,3] {0,2,1:T(2,2)} {1,0,2:T(2,1,2)(3)} 0:48",
            "retile [2,2,1,3] {3,1,0,2:T(2,2)(2,1)} {0,1,2,3:T(2)} 0:24",
            "retile [1,2,1,2,1,2] {5,4,3,2,1,0} {0,2,4,1,3,5:T(3)} 0:5 5:99",
        ],
    ),
    (
        "re-tiling: allowances",
        &[
            "retile [3] {0} {0:T(2)} 0:0",
            "retile [3] {0} {0:T(2)} 0:-0",
            "retile [3] {0} {0:T(2)} 2:0",
            "retile [3] {0} {0:T(2)} 0:4",
            "retile [3] {0} {0:T(2)} 0:5",
            "retile [3] {0} {0:T(2)} 2:9223372036854775807",
            "retile [3] {0} {0:T(2)} 0:-1",
            "retile [3] {0} {0:T(2)} 3:-9223372036854775808",
            "retile [3] {0} {0:T(2)} 0:9223372036854775808",
            "retile [3] {0} {0:T(2)} 0:18446744073709551615",
            "retile [3] {0} {0:T(2)} 0:18446744073709551616",
            "retile [3] {0} {0:T(2)} 0:-9223372036854775809",
        ],
    ),
    (
        "re-tiling: marks at, below and above the padded size",
        &[
            "retile [3] {0} {0:T(2)} 4:0",
            "retile [3] {0} {0:T(2)} 4:9",
            "retile [3] {0} {0:T(2)} 4:-1",
            "retile [3] {0} {0:T(2)} 5:0",
            "retile [3] {0} {0:T(2)} 5:9",
            "retile [3] {0:T(1024)} {0} 4:1",
            "retile [3] {0} {0:T(2)} -1:0",
            "retile [3] {0} {0:T(2)} -0:3",
            "retile [3] {0} {0:T(2)} 9223372036854775807:1",
            "retile [3] {0} {0:T(2)} 18446744073709551615:1",
            "retile [3] {0} {0:T(2)} 0:4 4:0 4:1 3:1 0:1",
            "retile [3] {0} {0:T(2)} 0:4 5:0",
            "retile [3] {0} {0:T(2)} 0:2 5:1 2:2",
            "retile [3] {0} {0:T(2)} 3:1 1:1",
        ],
    ),
    (
        "re-tiling: lengths of just the padded sizes, 24 and 20, and one cell less",
        &[
            "retile [3,5] {1,0:T(2,2)} {0,1:T(5,4)} 0:20 24 20",
            "retile [3,5] {1,0:T(2,2)} {0,1:T(5,4)} 0:20 25 21",
            "retile [3,5] {1,0:T(2,2)} {0,1:T(5,4)} 0:20 4096 4096",
            "retile [3,5] {1,0:T(2,2)} {0,1:T(5,4)} 0:20 23 20",
            "retile [3,5] {1,0:T(2,2)} {0,1:T(5,4)} 0:20 24 19",
            "retile [3,5] {1,0:T(2,2)} {0,1:T(5,4)} 0:20 0 0",
            "retile [3,5] {1,0:T(2,2)} {0,1:T(5,4)} 0:0 23 20",
            "retile [3,5] {1,0:T(2,2)} {0,1:T(5,4)} 0:0 24 19",
            "retile [3,5] {1,0:T(2,2)} {0,1:T(5,4)} 20:0 23 20",
            "retile [3,5] {1,0:T(2,2)} {0,1:T(5,4)} 20:1 24 19",
            "retile [3,5] {1,0:T(2,2)} {0,1:T(5,4)} 0:1 -0 0020",
            "retile [4097] {0} {0} 0:0",
            "retile [2] {0:T(4)(1024)} {0} 0:2",
            "retile [2] {0:T(1024)(5,1024)} {0} 0:2",
            "retile [2] {0} {0:T(1024)(5,1024)} 0:2",
        ],
    ),
    (
        "re-tiling: 1, then 3 of either, 4 of either, 2, 9 of either",
        &[
            "retile [0] {1} {1} 9:1 0 0",
            "retile [1048577] {0:T(1025)} {0} 0:1",
            "retile [1,1,1,1,1,1,1] {6,5,4,3,2,1,0} {} -1:1",
            "retile [3] {1} {0} 0:3",
            "retile [3] {0} {0,0} 0:3",
            "retile [3] {0:T(0)} {0} 4:3",
            "retile [3] {0} {0:T(1025)} 4:3 0 0",
            "retile [3] {0} {0:T(1)(1)(1)(1)} -1:3",
            "retile [1048576,1048576] {1,0:T(3)} {1,1} 0:1",
            "retile [1048576,1048576] {1,0:T()} {1,0:T(3)} 0:1",
            "retile [1048576,1048576] {1,0:T(3)} {1,0} 0:1",
            "retile [1048576,1048576] {1,0} {1,0:T(3)} 0:1",
            "retile [1025,5,5,5] {0,1,2,3} {3,2,1,0:T(1024,1024,1024,1024)} -1:0 0 0",
            "retile [1025,5,5,5] {3,2,1,0:T(1024,1024,1024,1024)} {0,1,2,3} -1:0 0 0",
            "retile [1048576,1048576] {1,0} {0,1} 1099511627777:0",
            "retile [1048576,1048576] {1,0} {0,1} 1099511627776:0",
            "retile [3] {0:T(2)} {0} 4:1 3 2",
            "retile [3] {0:T(2)} {0} 3:1 3 3",
            "retile [3] {0} {0:T(2)} 5:1 2 3",
            "retile [3] {0} {0:T(2)} 4:1 3 3",
        ],
    ),
    (
        "re-tiling: spaces, and signs that part numbers",
        &[
            "retile[2]{0}{0}0:1 1:1",
            "  retile [ 2 ] { 0 : T ( 3 ) } { 0 }  0 : 1   1: 1 2 :0  3   2  ",
            "retile [2] {0} {0} 00:001 0001:00000000000000000000000000001",
            "retile [2] {0} {0} 0:1-0:1",
            "retile [2] {0} {0} 0:2 2 2",
            "retile [2] {0} {0} 0:2 2 :2",
        ],
    ),
    (
        "re-tiling: unreadable requests",
        &[
            "retile",
            "retile [2]",
            "retile [2] {0}",
            "retile [2] {0} 0:2",
            "retile [2] {0} {0}",
            "retile [2] {0} {0} ",
            "retile [2] {0} {0} {0} 0:2",
            "retile [2] {0} {0} 0",
            "retile [2] {0} {0} 0 2",
            "retile [2] {0} {0} 2 2 0:2",
            "retile [2] {0} {0} :2",
            "retile [2] {0} {0} 0:",
            "retile [2] {0} {0} 0: :2",
            "retile [2] {0} {0} 0:1:1",
            "retile [2] {0} {0} 0;2",
            "retile [2] {0} {0} 0:2,2:0",
            "retile [2] {0} {0} 0:- 1",
            "retile [2] {0} {0} 0:x",
            "retile [2] {0} {0} 0:2 2",
            "retile [2] {0} {0} 0:2 2 ",
            "retile [2] {0} {0} 0:2 2 2 2",
            "retile [2] {0} {0} 0:2 2 2:0",
            "retile [2] {0} {0} 0:2 2 2 2:0",
            "retile [2] {0} {0} 0:2 4097 2",
            "retile [2] {0} {0} 0:2 2 4097",
            "retile [2] {0} {0} 0:2 4097",
            "retile [2] {0} {0} 0:2 4097:1",
            "retile [2] {0} {0} 0:2 -1 2",
            "retile [2] {0} {0} 0:2 2 -1",
            "retile [2] {0} {0} 0:2 2 x",
            "retile [2] {0} {0} 0:2 x",
            "retile [2] {0} {0} 0:2 2 2 x",
            "retile [0] {9} {9} 9:9 0 0 ]",
            "Retile [2] {0} {0} 0:2",
            "re-tile [2] {0} {0} 0:2",
        ],
    ),
];

/// Small re-tilings that are cut after each single store.
const CUT: [&str; 2] = ["[2,3] {1,0} {0,1}", "[3] {0:T(2)(3)} {0:T(2)}"];

/// For every mark k: a run of k cells that goes on from k, and, where k is not 0, from k - 1.
pub fn retiling_cuts(text: &mut String) {
    for place in CUT {
        let padded = destination_size(&format!("retile {place} 0:0"));
        let mut lines = Vec::new();
        for k in 0..=padded {
            lines.push(format!("retile {place} 0:{k} {k}:{}", padded - k));
        }
        for k in 1..=padded {
            lines.push(format!("retile {place} 0:{k} {}:{}", k - 1, padded - k + 1));
        }
        let title = format!("re-tiling {place}: cut after each store of a mark, then of a cell");
        group(text, &title, lines.iter());
    }
}

/// The padded size of a request's destination.
fn destination_size(line: &str) -> u64 {
    let Ok(Request::Retile(request)) = read_request(line.as_bytes()) else {
        return 0;
    };
    padded_size(&request.shape, &request.destination_layout).unwrap_or(0)
}

/// The most cells that can be lent, and more runs than that.
pub fn long_retilings(text: &mut String) {
    let runs = " 0:0".repeat(4097);
    let lines = [
        "retile [64,64] {0,1:T(4,4)} {1,0} 0:4095 4094:2 4096 4096".to_string(),
        format!("retile [] {{}} {{}}{runs}"),
    ];
    group(text, "re-tiling: 4,096 cells, and 4,097 runs", lines.iter());
}
