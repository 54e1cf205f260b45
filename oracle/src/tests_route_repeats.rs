//! Tests of stations that hold a layout twice (document 02, Q-9): the places named, and the order of the numbers.

use crate::tests::check;

#[test]
fn the_station_and_both_places() {
    check(&[
        (
            "route [3,5] 99 1 {1,0} ; {1,0} {0,1} {1,0}",
            "refused 3 at 1 0 2",
        ),
        ("route [] 1 0 {} {}", "refused 3 at 0 0 1"),
        ("route [] 1 0 {} ; {}", "plan 0 0 total 2"),
        // The first station, though a later one has smaller places.
        (
            "route [3] 9 1 {0} ; {0} {0:T(2)} {0} ; {0} {0}",
            "refused 3 at 1 0 2",
        ),
        // The smallest later place, though the pair around it begins earlier.
        (
            "route [3] 9 1 {0} {0:T(2)} {0:T(2)} {0}",
            "refused 3 at 0 1 2",
        ),
        (
            "route [3] 9 1 {0} {0:T(2)} {0} {0:T(2)}",
            "refused 3 at 0 0 2",
        ),
        ("route [3] 9 1 {0:T(2)} {0} {0} {0}", "refused 3 at 0 1 2"),
        (
            "route [3] 9 1 {0:T(1)}{0:T(2)}{0:T(3)}{0:T(4)}{0:T(5)}{0:T(6)}{0}{0}",
            "refused 3 at 0 6 7",
        ),
    ]);
    let stations = vec!["{0} {0:T(2)}"; 63].join(" ; ");
    check(&[(
        &format!("route [3] 9 1 {stations} ; {{0}} {{0}}"),
        "refused 3 at 63 0 1",
    )]);
}

#[test]
fn what_comes_before_a_repeat() {
    check(&[
        ("route [0] 1 0 {0} {0}", "refused 1"),
        ("route [1] 0 0 {0} {0}", "refused 2"),
        ("route [1] 1 64 {0} {0}", "refused 2"),
        ("route [1] 1 0 {0}{0}{0}{0}{0}{0}{0}{0}{0}", "refused 2"),
        (
            "route [1] 1 0 {0}{0}{0}{0}{0}{0}{0}{0}",
            "refused 3 at 0 0 1",
        ),
        ("route [3,5] 99 1 {1,0} {1,0} ; {1,1}", "refused 3"),
        ("route [3,5] 99 1 {1,1} ; {1,0} {1,0}", "refused 3"),
        ("route [3,5] 99 1 {1,1} {1,1}", "refused 3"),
    ]);
    let stations = |count: usize| vec!["{0} {0}"; count].join(" ; ");
    check(&[
        (
            &format!("route [1] 1 0 {}", stations(64)),
            "refused 3 at 0 0 1",
        ),
        (&format!("route [1] 1 0 {}", stations(65)), "refused 2"),
    ]);
}

#[test]
fn what_comes_after_a_repeat() {
    let top = "route [1048576,1048576] 1099511627776 0";
    let above = "{1,0:T(3)}";
    check(&[
        (&format!("{top} {above}"), "refused 4"),
        (
            &format!("{top} {{1,0}} {{1,0}} ; {above}"),
            "refused 3 at 0 0 1",
        ),
        (
            &format!("{top} {above} ; {{1,0}} {{1,0}}"),
            "refused 3 at 1 0 1",
        ),
        (
            &format!("{top} {{1,0}} {above} {above}"),
            "refused 3 at 0 1 2",
        ),
        ("route [2] 1 63 {0} {0:T(3)}", "refused 10"),
        ("route [2] 1 63 {0} {0}", "refused 3 at 0 0 1"),
        ("route [3] 4 0 {0} ; {0:T(2)} {0:T(4)}", "refused 10"),
        (
            "route [3] 4 0 {0} ; {0:T(2)} {0:T(2)}",
            "refused 3 at 1 0 1",
        ),
    ]);
}

#[test]
fn layouts_that_are_no_repeat() {
    check(&[
        ("route [4,4] 16 0 {1,0} {0,1}", "plan 0 total 16"),
        ("route [4,4] 16 0 {1,0} {1,0:T(1)}", "plan 0 total 16"),
        (
            "route [4,4] 16 0 {1,0:T(2,2)} {1,0:T(2,1)} {1,0:T(1,2)} {1,0:T(2)}",
            "plan 0 total 16",
        ),
        (
            "route [2,2,2] 8 0 {2,1,0:T(2,2)(1)} {2,1,0:T(2,2,1)} {2,1,0:T(2)(2,1)} {2,1,0:T(2)(2)(1)}",
            "plan 0 total 8",
        ),
        // One layout at two stations.
        ("route [4,4] 16 0 {1,0} ; {1,0}", "plan 0 0 total 32"),
    ]);
}
