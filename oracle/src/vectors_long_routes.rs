//! Vectors about long routes: 64 stations and 65, and lines as long as they can be.

use crate::answer::MAX_LINE;
use crate::vectors::group;

/// Routes of 64 and 65 stations, with the limits that just fit.
pub fn long_routes(text: &mut String) {
    let alternating = |count: usize| repeated(&["{0}", "{0:T(2)}"], count);
    let choices = |count: usize| repeated(&["{0} {0:T(2)}", "{0:T(2)} {0}", "{0:T(4)}"], count);
    let top = "{1,0} {0,1}";
    let lines = [
        format!("route [1] 1 0 {}", repeated(&["{0}"], 64)),
        format!("route [1] 1 0 {}", repeated(&["{0}"], 65)),
        format!("route [3] 4 63 {}", alternating(64)),
        format!("route [3] 4 62 {}", alternating(64)),
        format!("route [3] 3 63 {}", alternating(64)),
        format!("route [3] 4 63 {}", alternating(65)),
        format!("route [3] 4 63 {}", choices(64)),
        format!("route [3] 4 42 {}", choices(64)),
        format!("route [3] 4 41 {}", choices(64)),
        format!("route [3] 4 20 {}", choices(63)),
        format!("route [3] 4 63 {}", choices(65)),
        format!(
            "route [1048576,1048576] 1099511627776 0 {}",
            repeated(&[top], 64)
        ),
        format!(
            "route [1048576,1048576] 1099511627776 63 {}",
            repeated(&["{1,0}", "{0,1}"], 64)
        ),
        format!("route [3] 4 0 {} ; {{1}}", repeated(&["{0}"], 64)),
        format!("route [0] 4 0 {}", repeated(&["{0}"], 65)),
    ];
    group(text, "routes: 64 stations and 65", lines.iter());
    full_routes(text);
}

/// Routes that fill every place, and lines that are full.
fn full_routes(text: &mut String) {
    let eight = ["{0}"; 8].join(" ");
    let nine = ["{0}"; 9].join(" ");
    let different = "{0:T(3)} {0:T(4)} {0:T(1)} {0:T(3)(1)} {0:T(4)(1)} {0:T(1)(1)} {0:T(2)} {0}";
    let lines = [
        format!("route [3] 4 0 {}", repeated(&[&eight], 64)),
        format!("route [3] 4 0 {}", repeated(&[different], 64)),
        format!(
            "route [3] 3 63 {}",
            repeated(&[different, "{0:T(1)} {0}"], 64)
        ),
        format!(
            "route [3] 4 0 {} ; {different} {{0:T(2)(1)}}",
            repeated(&[different], 63)
        ),
        format!("route [3] 4 0 {} ; {nine}", repeated(&[&eight], 63)),
        format!("route [3] 4 0 {} ; {nine}", repeated(&[&eight], 64)),
    ];
    group(text, "routes: all places taken, and one more", lines.iter());
    let start = "route [3] 4 0 {0}";
    let lines = [
        format!("{start}{}", ";{0}".repeat((MAX_LINE - start.len()) / 4)),
        format!("{start}{}", "{0}".repeat((MAX_LINE - start.len()) / 3)),
        format!("{start}{}", ";".repeat(MAX_LINE - start.len())),
    ];
    group(
        text,
        "routes: as many stations and layouts as a line holds",
        lines.iter(),
    );
}

/// Stations taken from a list in turn.
pub fn repeated(stations: &[&str], count: usize) -> String {
    let chosen: Vec<&str> = (0..count).map(|k| stations[k % stations.len()]).collect();
    chosen.join(" ; ")
}
