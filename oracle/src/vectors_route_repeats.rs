//! Vectors about stations that hold a layout twice (document 02, Q-9): which one is named, and what comes before it.

use crate::vectors::{group, Group};
use crate::vectors_long_routes::repeated;

pub const ROUTE_REPEATS: &[Group] = &[
    (
        "routes: a layout twice in a station",
        &[
            "route [3,5] 99 1 {1,0} ; {1,0} {0,1} {1,0}",
            "route [3,5] 99 1 {1,0} {1,0}",
            "route [3,5] 99 1 {0,1} ; {0,1} {0,1}",
            "route [] 1 0 {} {}",
            "route [] 1 0 {} ; {} {} {}",
            "route [4] 8 0 {0:T(8)} {0} {0:T(8)}",
            "route [2,3] 99 0 {1,0:T(2,2)(2,1)(1)} {1,0:T(2,2)(2,1)} {1,0:T(2,2)(2,1)(1)}",
            "route [1048576,1048576] 1099511627776 63 {1,0} {0,1} {1,0}",
            "route [2,2,2,2,2,2] 64 0 {5,4,3,2,1,0} {0,1,2,3,4,5} {0,1,2,3,4,5}",
            "route [1,1,1,1,1,1] 1 0 {5,4,3,2,1,0:T(1,1,1,1,1,1)(1,1,1,1,1,1)(1,1,1,1,1,1)} {5,4,3,2,1,0:T(1,1,1,1,1,1)(1,1,1,1,1,1)(1,1,1,1,1,1)}",
        ],
    ),
    (
        "routes: repeats in several stations, the first one first",
        &[
            "route [3,5] 99 1 {1,0} {1,0} ; {0,1} {0,1}",
            "route [3,5] 99 1 {1,0} ; {0,1} {1,0} {0,1} ; {1,0} {1,0}",
            "route [3,5] 99 1 {1,0} {0,1} ; {0,1} {1,0} {1,0} ; {1,0} {1,0}",
            "route [3,5] 99 1 {1,0} {0,1} ; {0,1} {1,0} ; {1,0} {0,1} {1,0:T(2)} {1,0:T(2)} ; {1,0} {1,0}",
        ],
    ),
    (
        "routes: several repeats in a station, the later place from the front",
        &[
            "route [9] 99 0 {0} {0:T(2)} {0:T(2)} {0}",
            "route [9] 99 0 {0} {0:T(2)} {0} {0:T(2)}",
            "route [9] 99 0 {0} {0} {0:T(2)} {0:T(2)}",
            "route [9] 99 0 {0} {0:T(2)} {0:T(3)} {0:T(3)} {0:T(2)} {0}",
            "route [9] 99 0 {0} {0:T(2)} {0:T(3)} {0} {0:T(3)} {0:T(2)}",
            "route [9] 99 0 {0} {0:T(2)} {0:T(3)} {0:T(2)} {0:T(3)} {0}",
            "route [9] 99 0 {0} {0} {0}",
            "route [9] 99 0 {0:T(2)} {0} {0} {0}",
            "route [9] 99 0 {0} {0:T(2)} {0} {0}",
            "route [9] 99 0 {0} {0:T(2)} {0:T(3)} {0} {0:T(4)} {0} {0} {0}",
        ],
    ),
    (
        "routes: every layout passes its rule before a repeat",
        &[
            "route [3,5] 99 1 {1,0} {1,0} ; {1,1}",
            "route [3,5] 99 1 {1,1} ; {1,0} {1,0}",
            "route [3,5] 99 1 {1,0} {1,0} {1,1}",
            "route [3,5] 99 1 {1,1} {1,0} {1,0}",
            "route [3,5] 99 1 {1,1} {1,1}",
            "route [3,5] 99 1 {1,0} {1,0} ; {0,1} {1,0:T(1025)}",
            "route [3,5] 99 1 {1,0} {1,0} ; {0,1} {1,0:T(0)}",
            "route [3,5] 99 1 {1,0:T(-1)} {1,0:T(-1)}",
            "route [3,5] 99 1 {1,0} {1,0} {1,0:T()}",
            "route [3,5] 99 1 {1,0} {1,0} {1,0:T(1,1,1)}",
            "route [3,5] 99 1 {1,0:T(1)(1)(1)(1)} {1,0:T(1)(1)(1)(1)}",
            "route [3,5] 99 1 {1,0} {1,0} ; {0}",
            "route [3,5] 99 1 {0} {0}",
            "route [1] 1 0 {0} {0} {0,0,0,0,0,0,0,0,0}",
            "route [] 1 0 {} {} ; {0}",
            "route [] 1 0 {:T(1)} {:T(1)}",
            "route [1048576,1048576] 1 0 {1,0} {1,0} {1,0:T(3)} ; {1,1}",
        ],
    ),
    (
        "routes: a repeat before any padded size above 2^40",
        &[
            "route [1048576,1048576] 1099511627776 0 {1,0} {1,0} {1,0:T(3)}",
            "route [1048576,1048576] 1099511627776 0 {1,0:T(3)} {1,0} {1,0}",
            "route [1048576,1048576] 1099511627776 0 {1,0:T(3)} {1,0:T(3)}",
            "route [1048576,1048576] 1099511627776 0 {1,0} {1,0} ; {1,0:T(3)}",
            "route [1048576,1048576] 1099511627776 0 {1,0:T(3)} ; {1,0} {1,0}",
            "route [1048576,1048576] 1099511627776 0 {1,0:T(3)} ; {0,1} {1,0:T(3)} {1,0:T(3)}",
            "route [1048576,1048576] 1099511627776 0 {1,0:T(3)} ; {0,1} {1,0:T(3)} {1,0:T(5)}",
            "route [1048576,1048576] 1099511627776 0 {1,0:T(3)} ; {1,0:T(3)}",
        ],
    ),
    (
        "routes: a repeat where no plan is admitted",
        &[
            "route [2] 1 63 {0} {0}",
            "route [2] 1 63 {0} {0:T(3)} {0}",
            "route [2] 1 63 {0} ; {0:T(3)} {0:T(3)}",
            "route [2] 2 63 {0} ; {0} {0:T(3)} {0:T(3)}",
            "route [3] 4 0 {0} ; {0:T(2)} {0:T(2)}",
            "route [3] 4 0 {0} {0} ; {0:T(2)}",
            "route [3] 4 0 {0} ; {0:T(2)} {0:T(4)}",
        ],
    ),
    (
        "routes: shapes, limits and counts before a repeat",
        &[
            "route [0] 1 0 {0} {0}",
            "route [1048577] 1 0 {0} {0}",
            "route [1,1,1,1,1,1,1] 1 0 {6,5,4,3,2,1,0} {6,5,4,3,2,1,0}",
            "route [1] 0 0 {0} {0}",
            "route [1] 1099511627777 0 {0} {0}",
            "route [1] -1 0 {0} {0}",
            "route [1] 1 64 {0} {0}",
            "route [1] 1 -1 {0} {0}",
            "route [1] 1 0 {0} {0} ; {0} {0} {0} {0} {0} {0} {0} {0} {0}",
            "route [1] 1 0 {0} {0} {0} {0} {0} {0} {0} {0} {0} ; {0} {0}",
            "route [2] 9 0 {0:T(1)} {0:T(2)} {0:T(3)} {0:T(4)} {0:T(5)} {0:T(6)} {0:T(7)} {0:T(8)} {0:T(8)}",
            "route [2] 9 0 {0:T(1)} {0:T(2)} {0:T(3)} {0:T(4)} {0:T(5)} {0:T(6)} {0:T(7)} {0:T(7)}",
        ],
    ),
    (
        "routes: layouts that differ in their order, an entry, a tile or how entries are parted into tiles are no repeat",
        &[
            "route [3,5] 99 1 {1,0} {0,1}",
            "route [2,2,2] 99 1 {2,1,0} {2,0,1} {1,2,0} {1,0,2} {0,1,2} {0,2,1}",
            "route [3,5] 99 1 {1,0:T(2,2)} {1,0:T(2,3)} {1,0:T(3,2)} {0,1:T(2,2)}",
            "route [3,5] 99 1 {1,0:T(2,2)(1)} {1,0:T(2,2)(2)} {1,0:T(2,2)} {1,0:T(2,2)(1)(1)} {1,0}",
            "route [4,4] 99 0 {1,0:T(2,2)(1)} {1,0:T(2)(2,1)} {1,0:T(2)(2)(1)}",
            "route [2,2,2] 99 0 {2,1,0:T(2,2)(1)} {2,1,0:T(2,2,1)} {2,1,0:T(2)(2,1)} {2,1,0:T(2)(2)(1)}",
            "route [3,5] 999 1 {1,0:T(1,11)} {1,0:T(11,1)} {1,0:T(1)(11)} {1,0:T(11)(1)} {1,0:T(111)} {1,0:T(1)(1)(1)}",
            "route [1,1,1,1,1,1] 9 0 {5,4,3,2,1,0:T(1,1,1,1,1,1)(1,1,1,1,1,1)(1,1,1,1,1,1)} {5,4,3,2,1,0:T(1,1,1,1,1,1)(1,1,1,1,1,1)(1,1,1,1,1,2)}",
            "route [1,1,1,1,1,1] 9 0 {5,4,3,2,1,0:T(1,1,1,1,1,1)(1,1,1,1,1,1)(1,1,1,1,1,1)} {5,4,3,2,1,0:T(2,1,1,1,1,1)(1,1,1,1,1,1)(1,1,1,1,1,1)}",
            "route [1,1,1,1,1,1] 9 0 {5,4,3,2,1,0:T(1,1,1,1,1,1)} {5,4,3,2,1,0:T(1,1,1,1,1)} {5,4,3,2,0,1:T(1,1,1,1,1,1)}",
        ],
    ),
    (
        "routes: equal offsets written differently, and one layout at several stations, are no repeat",
        &[
            "route [4,4] 16 0 {1,0} {1,0:T(1)}",
            "route [4,4] 16 0 {1,0} {1,0:T(1)} {1,0:T(1,1)} {1,0:T(1)(1)}",
            "route [1,1] 1 0 {1,0} {0,1}",
            "route [3,5] 99 1 {1,0} ; {1,0}",
            "route [3,5] 99 1 {1,0} {0,1} ; {1,0} {0,1} ; {0,1} {1,0}",
        ],
    ),
    (
        "routes: repeats with spaces between tokens, and none",
        &[
            "route[3,5]99 1{1,0};{1,0}{0,1}{1,0}",
            "  route  [ 3 , 5 ]  99  1  { 1 , 0 }  ;  { 1 , 0 } {0,1}{1, 0 }  ",
            "route [4] 9 0 {0:T(2)} { 0 : T ( 2 ) }",
            "route [4] 9 0 {0:T(2)} {00:T(0002)}",
            "route [4] 9 0 {0:T(2)} {0:T(2)} ;",
        ],
    ),
];

/// Repeats at every pair of places of eight, alone and together with the pair as far from the other end.
pub fn repeated_places(text: &mut String) {
    let mut lines = Vec::new();
    for later in 1..8 {
        for earlier in 0..later {
            let mut layouts: Vec<String> = (1..9).map(|k| format!("{{0:T({k})}}")).collect();
            layouts[later] = layouts[earlier].clone();
            lines.push(format!("route [7] 99 0 {{0}} ; {}", layouts.join(" ")));
            if earlier + later != 7 {
                layouts[7 - earlier] = layouts[7 - later].clone();
                lines.push(format!("route [7] 99 0 {{0}} ; {}", layouts.join(" ")));
            }
        }
    }
    let title = "routes: repeats at every pair of places";
    group(text, title, lines.iter());
}

/// Repeats among 64 stations, and what comes before them there.
pub fn repeated_stations(text: &mut String) {
    let different = "{0:T(1)} {0:T(2)} {0:T(3)} {0:T(4)} {0:T(5)} {0:T(6)} {0:T(7)} {0}";
    let last = "{0:T(1)} {0:T(2)} {0:T(3)} {0:T(4)} {0:T(5)} {0:T(6)} {0} {0}";
    let broken = "{0:T(1)} {0:T(2)} {0:T(3)} {0:T(4)} {0:T(5)} {0:T(6)} {0} {1}";
    let mut lines = Vec::new();
    for station in [0, 1, 31, 62, 63] {
        let (before, after) = (vec![different; station], vec![different; 63 - station]);
        lines.push(route_through(&[before, vec![last], after].concat()));
    }
    lines.push(route_through(
        &[vec![different; 40], vec![last; 24]].concat(),
    ));
    lines.push(route_through(&[vec![last; 63], vec![broken]].concat()));
    lines.push(route_through(&[vec![broken], vec![last; 63]].concat()));
    lines.push(route_through(&[vec![last; 64], vec![different]].concat()));
    lines.push(route_through(&[vec![different; 64], vec![last]].concat()));
    let title = "routes: repeats among 64 stations, and 65";
    group(text, title, lines.iter());
}

fn route_through(stations: &[&str]) -> String {
    format!("route [3] 99 63 {}", repeated(stations, stations.len()))
}
