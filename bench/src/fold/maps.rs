// The benchmark's maps: document 000's reshapes as linearise and split write them, random maps from a seed, and long sums.
use crate::record::*;

type Tree = Vec<(u8, i64)>;

/// A map of dimension variables 0 .. bound, range variables likewise, results and constraints.
fn record(dims: &[i64], ranges: &[i64], results: &[Tree], constraints: &[(Tree, i64, i64)]) -> Record {
    let mut m = Record { dims: dims.len(), ranges: ranges.len(), ..Record::EMPTY };
    (0..dims.len()).for_each(|k| m.upper[k] = dims[k]);
    (0..ranges.len()).for_each(|k| m.upper[8 + k] = ranges[k]);
    let mut at = 0;
    let mut put = |m: &mut Record, tree: &Tree| {
        for &(kind, value) in tree {
            (m.kinds[at], m.values[at]) = (kind, value);
            at += 1;
        }
        tree.len()
    };
    (m.results, m.constraints) = (results.len(), constraints.len());
    for (k, tree) in results.iter().enumerate() {
        m.result_nodes[k] = put(&mut m, tree);
    }
    for (k, (tree, lower, upper)) in constraints.iter().enumerate() {
        m.constraint_nodes[k] = put(&mut m, tree);
        (m.constraint_lower[k], m.constraint_upper[k]) = (*lower, *upper);
    }
    m
}

/// The product of the sizes after place k.
fn after(shape: &[i64], k: usize) -> i64 {
    shape[k + 1..].iter().product()
}

/// The reshape's map from one shape's points to the other's: linearise, then split.
fn reshape(from: &[i64], to: &[i64]) -> Record {
    let mut linear = Vec::new();
    for k in 0..from.len() {
        linear.extend([(VARIABLE, k as i64), (PRODUCT, after(from, k))]);
        if k > 0 {
            linear.push((SUM, 0));
        }
    }
    let results: Vec<Tree> = (0..to.len())
        .map(|k| {
            let mut tree = linear.clone();
            tree.push((FLOORDIV, after(to, k)));
            if k > 0 {
                tree.push((MOD, to[k]));
            }
            tree
        })
        .collect();
    let dims: Vec<i64> = from.iter().map(|n| n - 1).collect();
    record(&dims, &[], &results, &[])
}

/// Document 000's reshapes, both ways: collapse, expand, generic, expanded and collapsed parts, and its chained ones.
fn reshapes() -> Vec<Record> {
    let pairs: [(&[i64], &[i64]); 5] = [
        (&[4, 8], &[32]),
        (&[32], &[4, 8]),
        (&[4, 8], &[2, 4, 4]),
        (&[4, 8, 12], &[32, 3, 4]),
        (&[10, 10, 10], &[50, 20]),
    ];
    pairs.iter().flat_map(|(a, b)| [reshape(a, b), reshape(b, a)]).collect()
}

/// A small generator of random numbers (splitmix64).
struct Random(u64);

impl Random {
    fn below(&mut self, n: u64) -> u64 {
        self.0 = self.0.wrapping_add(0x9e37_79b9_7f4a_7c15);
        let mut z = self.0;
        z = (z ^ (z >> 30)).wrapping_mul(0xbf58_476d_1ce4_e5b9);
        z = (z ^ (z >> 27)).wrapping_mul(0x94d0_49bb_1331_11eb);
        (z ^ (z >> 31)) % n
    }

    fn of(&mut self, choices: &[i64]) -> i64 {
        choices[self.below(choices.len() as u64) as usize]
    }
}

const FACTORS: [i64; 10] = [-8, -3, -1, 2, 3, 4, 6, 8, 12, 16];
const DIVISORS: [i64; 9] = [2, 3, 4, 6, 7, 8, 12, 16, 32];

/// Appends a random tree of so many nodes over four dimension and two range variables.
fn grow(random: &mut Random, nodes: usize, tree: &mut Tree) {
    if nodes == 1 {
        let leaf = random.below(7) as i64;
        tree.push(match leaf {
            0..=3 => (VARIABLE, leaf),
            4..=5 => (VARIABLE, 4 + leaf),
            _ => (CONSTANT, random.below(41) as i64 - 20),
        });
        return;
    }
    if nodes >= 3 && random.below(100) < 55 {
        let left = 1 + random.below(nodes as u64 - 2) as usize;
        grow(random, left, tree);
        grow(random, nodes - 1 - left, tree);
        tree.push((SUM, 0));
        return;
    }
    grow(random, nodes - 1, tree);
    tree.push(match random.below(5) {
        0..=1 => (PRODUCT, random.of(&FACTORS)),
        2..=3 => (FLOORDIV, random.of(&DIVISORS)),
        _ => (MOD, random.of(&DIVISORS)),
    });
}

/// A random map of about so many nodes: its trees have `size` nodes or up to half more.
fn random(seed: u64, nodes: usize, size: usize) -> Record {
    let mut random = Random(seed);
    let mut trees: Vec<Tree> = Vec::new();
    let mut left = nodes;
    while left > 0 {
        let count = (size + random.below(size as u64 / 2 + 1) as usize).min(left);
        let mut tree = Vec::new();
        grow(&mut random, count, &mut tree);
        trees.push(tree);
        left -= count;
    }
    let results = trees.len().div_ceil(2).min(8);
    let constraints: Vec<(Tree, i64, i64)> = trees.drain(results..).map(|t| (t, 0, 40)).collect();
    let mut bound = || random.of(&[0, 1, 2, 3, 6, 7, 9, 15, 31, 63]);
    let dims: [i64; 4] = std::array::from_fn(|_| bound());
    let ranges: [i64; 2] = std::array::from_fn(|_| bound());
    record(&dims, &ranges, &trees, &constraints)
}

/// The largest divisor.
const MAX_DIVISOR: i64 = 1 << 40;

/// Four floordivs of sums of 16 variables; coefficients and divisors are any numbers from 1 to 2^40.
fn long_sums(seed: u64) -> Record {
    let mut random = Random(seed);
    let mut number = || 1 + random.below(MAX_DIVISOR as u64) as i64;
    let mut result = |_| {
        let mut tree = vec![(VARIABLE, 0), (PRODUCT, number())];
        for k in 1..16 {
            tree.extend([(VARIABLE, k), (PRODUCT, number()), (SUM, 0)]);
        }
        tree.push((FLOORDIV, number()));
        tree
    };
    let results: Vec<Tree> = (0..4).map(&mut result).collect();
    record(&[1023; 8], &[1023; 8], &results, &[])
}

/// The benchmark's maps by their names.
pub fn workloads() -> Vec<(&'static str, Vec<Record>)> {
    vec![
        ("document 000's reshapes", reshapes()),
        ("random maps of 40 nodes", (0..600).map(|seed| random(seed, 40, 5)).collect()),
        ("random maps of 250 nodes", (0..600).map(|seed| random(1000 + seed, 250, 16)).collect()),
        ("sums of 16 terms, large numbers", (0..600).map(long_sums).collect()),
    ]
}
