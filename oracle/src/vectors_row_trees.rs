//! Vectors about trees without forks: routes again, each station's parent the one before, and some of them with forks.

use crate::vectors::group;
use crate::vectors_route_repeats::ROUTE_REPEATS;
use crate::vectors_routes::ROUTES;

/// The readable routes of the vectors as trees, without forks and as stars.
pub fn row_trees(text: &mut String) {
    let routes = || ROUTES.iter().flat_map(|(_, lines)| lines.iter());
    let rows = routes().map(|line| as_tree(line, |station| station.saturating_sub(1)));
    group(text, "trees: the routes above, without forks", rows);
    let stars = routes().map(|line| as_tree(line, |_| 0));
    let forked = |line: &String| line.matches(" ; ").count() > 1;
    group(
        text,
        "trees: the routes above of three stations and more, as stars",
        stars.filter(forked),
    );
    let repeats = ROUTE_REPEATS.iter().flat_map(|(_, lines)| lines.iter());
    let readable = repeats.filter(|line| line.starts_with("route ["));
    group(
        text,
        "trees: the repeats above, as stars",
        readable.map(|line| as_tree(line, |_| 0)),
    );
}

/// The tree with the stations and limits of a route, written with single spaces.
pub fn as_tree(route: &str, parent: fn(usize) -> usize) -> String {
    let words: Vec<&str> = route.splitn(5, ' ').collect();
    let station = |(k, layouts): (usize, &str)| format!("{} {layouts}", parent(k));
    let stations: Vec<String> = words[4].split(" ; ").enumerate().map(station).collect();
    format!("tree {} {}", words[1..4].join(" "), stations.join(" ; "))
}
