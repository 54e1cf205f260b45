// The benchmark's stations, made from a seed as crates/route_bench makes them.

#[derive(Clone, PartialEq)]
pub struct Layout {
    pub minor_to_major: Vec<u64>,
    pub tiles: Vec<Vec<u64>>,
}

pub const SIZES: [u64; 2] = [200, 300];

fn layout(k: u64) -> Layout {
    let minor = k % 2;
    Layout {
        minor_to_major: vec![minor, 1 - minor],
        tiles: vec![vec![1 + k / 2 % 4 * 2, 16 + k / 8 % 2 * 16]],
    }
}

fn next(state: u64) -> u64 {
    (state % 2147483648 * 1103515245 + 12345) % 2147483648
}

/// Eight of the sixteen layouts, all different: the step from one to the next is odd.
fn station(state: u64) -> Vec<Layout> {
    let first = state / 65536;
    let odd = 1 + state / 4096 % 8 * 2;
    (0..8).map(|a| layout(first + a * odd)).collect()
}

/// The states of the generator that the stations are made of.
fn states(seed: u64) -> impl Iterator<Item = u64> {
    std::iter::successors(Some(next(seed)), |&state| Some(next(state))).take(64)
}

pub fn stations(seed: u64) -> Vec<Vec<Layout>> {
    states(seed).map(station).collect()
}

/// The forms of the trees: a chain, a star, and one of random parents.
pub const FORMS: [&str; 3] = ["chain", "star", "random"];

/// The parent of each station of that form; the first one has none, and 0 stands there.
pub fn parents(form: usize, seed: u64) -> Vec<usize> {
    let parent = |(i, state): (usize, u64)| match form {
        _ if i == 0 => 0,
        0 => i - 1,
        1 => 0,
        _ => (state / 1048576) as usize % i,
    };
    states(seed).enumerate().map(parent).collect()
}
