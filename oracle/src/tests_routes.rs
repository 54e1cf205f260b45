//! Tests of routes: the samples of 01 at the price of 02, Q-4, and small plans worked out by hand.

use crate::random::Random;
use crate::random_routes::small_route;
use crate::route::best_plan;
use crate::route_by_trial::plan_by_trial;
use crate::tests::{check, check_columns};

#[test]
fn sample_routes_of_01() {
    let stations = "{1,0} {1,0:T(8,128)} ; {1,0:T(8,128)} {1,0} ; {1,0:T(8,128)}";
    check(&[
        (
            &format!("route [3,5] 1099511627776 1 {stations}"),
            "plan 0 1 0 total 2093",
        ),
        (
            &format!("route [3,5] 1099511627776 0 {stations}"),
            "plan 1 0 0 total 3072",
        ),
        (
            "route [3,5] 1099511627776 0 {1,0:T(8,128)} ; {1,0}",
            "refused 10",
        ),
        ("route [4,4] 1099511627776 0 {1,0} {0,1}", "plan 0 total 16"),
    ]);
}

#[test]
fn ties_and_moves() {
    check(&[
        // Staying costs 32 both ways: places 0,1 come before 1,0.
        (
            "route [4,4] 16 1 {1,0} {0,1} ; {0,1} {1,0}",
            "plan 0 1 total 32",
        ),
        // One move of 16 + 16 either way; the move may come early or late.
        (
            "route [4,4] 16 2 {0,1} ; {1,0} {0,1} ; {1,0}",
            "plan 0 0 0 total 80",
        ),
        ("route [4,4] 16 1 {1,0} ; {1,0:T(1)}", "plan 0 0 total 64"),
        ("route [4,4] 16 0 {1,0} ; {1,0:T(1)}", "refused 10"),
        ("route [1,1] 1 1 {1,0} ; {0,1}", "plan 0 0 total 4"),
        ("route [1,1] 1 0 {1,0} ; {0,1}", "refused 10"),
        // 15, then 24 and a move from 15 to 24, then 15 and a move from 24 to 15.
        (
            "route [3,5] 24 2 {1,0} ; {1,0:T(2,2)} ; {1,0}",
            "plan 0 0 0 total 132",
        ),
        ("route [] 1 0 {} ; {}", "plan 0 0 total 2"),
    ]);
}

#[test]
fn a_move_reads_as_well_as_writes() {
    check(&[
        // Staying costs 1,024 + 1,024. Moving costs 1,024 + 15 + (1,024 + 15); without the read it would cost 1,054.
        (
            "route [3,5] 1099511627776 1 {1,0:T(8,128)} ; {1,0:T(8,128)} {1,0}",
            "plan 0 0 total 2048",
        ),
        // Staying costs 4 * 8, moving 8 + 3 * 4 + (8 + 4): the first in list order.
        (
            "route [4] 8 1 {0:T(8)} ; {0:T(8)} {0} ; {0:T(8)} {0} ; {0:T(8)} {0}",
            "plan 0 0 0 0 total 32",
        ),
        (
            "route [4] 8 1 {0:T(8)} ; {0} {0:T(8)} ; {0} {0:T(8)} ; {0} {0:T(8)}",
            "plan 0 0 0 0 total 32",
        ),
        // One station more, and moving is cheaper: 8 + 4 * 4 + 12.
        (
            "route [4] 8 1 {0:T(8)} ; {0:T(8)} {0} ; {0:T(8)} {0} ; {0:T(8)} {0} ; {0:T(8)} {0}",
            "plan 0 1 1 1 1 total 36",
        ),
        // Nothing is read where nothing moves.
        (
            "route [4] 8 63 {0:T(8)} ; {0:T(8)} ; {0:T(8)}",
            "plan 0 0 0 total 24",
        ),
    ]);
}

#[test]
fn the_largest_total() {
    let stations = ["{1,0} ; {0,1}"; 32].join(" ; ");
    let places = ["0"; 64].join(" ");
    check(&[(
        &format!("route [1048576,1048576] 1099511627776 63 {stations}"),
        &format!("plan {places} total {}", 190 * (1u64 << 40)),
    )]);
}

#[test]
fn limits_and_refusals() {
    check(&[
        ("route [3,5] 15 63 {1,0:T(2,2)} {1,0}", "plan 1 total 15"),
        ("route [3,5] 14 63 {1,0:T(2,2)} {1,0}", "refused 10"),
        ("route [3] 4 1 {0} ; {0:T(2)}", "plan 0 0 total 14"),
        ("route [3] 4 0 {0} ; {0:T(2)}", "refused 10"),
        ("route [0] 0 64 {1}", "refused 1"),
        ("route [1] 0 0 {1}", "refused 2"),
        ("route [1] 1099511627777 0 {0}", "refused 2"),
        ("route [1] -1 0 {0}", "refused 2"),
        ("route [1] 1 64 {0}", "refused 2"),
        ("route [1] 1 -1 {0}", "refused 2"),
        (
            "route [2] 2 63 {0:T(3)}{0:T(4)}{0:T(5)}{0:T(6)}{0:T(7)}{0:T(8)}{0:T(9)}{0}",
            "plan 7 total 2",
        ),
        ("route [1] 1 63 {0}{0}{0}{0}{0}{0}{0}{0}{1}", "refused 2"),
        ("route [1] 1 0 {0} ; {0} {0:T(1025)}", "refused 3"),
        (
            "route [1048576,1048576] 1 0 {1,0:T(3)} ; {1,1}",
            "refused 3",
        ),
        ("route [1048576,1048576] 1 0 {1,0} {1,0:T(3)}", "refused 4"),
    ]);
    let stations = |count: usize| vec!["{0}"; count].join(";");
    let places = vec!["0"; 64].join(" ");
    check(&[
        (
            &format!("route [2] 2 0 {}", stations(64)),
            &format!("plan {places} total 128"),
        ),
        (&format!("route [2] 2 0 {}", stations(65)), "refused 2"),
    ]);
}

#[test]
fn columns_of_unreadable_routes() {
    check_columns(&[
        ("route", 6),
        ("route [3] 1 0", 14),
        ("route [3] 1 0 ; {0}", 15),
        ("route [3] 1 0 {0} ;", 20),
        ("route [3] 1 0 {0} ; ; {0}", 21),
        ("route [3] 1 0 {0} , {0}", 19),
        ("route [3] 1 0 {0} ; {0} 1", 25),
        ("route [3] 1 0 {0", 17),
    ]);
}

#[test]
fn both_solvers_agree() {
    let mut random = Random::new(7);
    for _ in 0..200 {
        let route = small_route(&mut random).route();
        assert_eq!(best_plan(&route), plan_by_trial(&route), "{route:?}");
    }
}
