// The random modes: the library's ratios to both ordinary versions on random cases, and the worst of them.
use crate::buffers::Buffers;
use crate::shared::cases::{Case, Random};
use crate::shared::measure::Times;
use crate::ROUNDS;

/// A ratio, and the same without the reading of the row.
#[derive(Clone, Copy)]
struct Ratio {
    whole: f64,
    less: f64,
}

impl Ratio {
    fn max(self, other: Ratio) -> Ratio {
        Ratio { whole: self.whole.max(other.whole), less: self.less.max(other.less) }
    }
}

/// A case by its name and number of elements, with its ratios to the version over arrays and to the one over vectors, and that of the version over arrays to itself.
struct Found {
    name: String,
    elements: usize,
    ratios: [Ratio; 2],
    itself: f64,
}

/// The ratios of one call, packing or unpacking.
fn ratios(times: &[Times]) -> ([Ratio; 2], f64) {
    let [library, arrays, vectors, _, row, again] = times else { unreachable!() };
    let less = library.less(row.best());
    let over = |version: &Times| Ratio { whole: library.median_over(version), less: less.median_over(version) };
    ([over(arrays), over(vectors)], again.median_over(arrays))
}

/// The ratio farther from 1.
fn farther(a: f64, b: f64) -> f64 {
    if (a - 1.0).abs() < (b - 1.0).abs() { b } else { a }
}

/// The rounds of a case that is above 1 after all rounds.
const MANY_ROUNDS: usize = 10 * ROUNDS + 1;

/// The larger of the ratios of packing and unpacking, to each version; measured again with all rounds where the first few are near 1 or above, and with
/// ten times as many where these are above 1.
fn worst_ratios(case: &Case) -> ([Ratio; 2], f64) {
    let mut buffers = Buffers::checked(case);
    let mut measured = |rounds| {
        let ((pack, p), (unpack, u)) = (ratios(&buffers.pack_times(case, rounds)), ratios(&buffers.unpack_times(case, rounds)));
        ([0, 1].map(|k| pack[k].max(unpack[k])), farther(p, u))
    };
    let mut found = measured(3);
    for (limit, rounds) in [(0.8, ROUNDS), (1.0, MANY_ROUNDS)] {
        if found.0.iter().any(|r| r.whole >= limit) {
            found = measured(rounds);
        }
    }
    found
}

/// The counts above 1 against one version, the most elements of a case above 1, and the worst cases.
fn report_against(version: &str, k: usize, found: &mut [Found]) {
    found.sort_by(|a, b| b.ratios[k].whole.total_cmp(&a.ratios[k].whole));
    let above: Vec<&Found> = found.iter().filter(|f| f.ratios[k].whole > 1.0).collect();
    let less = found.iter().filter(|f| f.ratios[k].less > 1.0).count();
    let most = above.iter().map(|f| f.elements).max().map_or(String::new(), |n| format!(" (the largest has {n} elements)"));
    println!("against {version}: {} above 1{most}, {less} without the reading of the row", above.len());
    println!("median {:.3}; the worst, with the ratio of the version over arrays to itself:", found[found.len() / 2].ratios[k].whole);
    for Found { name, ratios, itself, .. } in found.iter().take(10.max(above.len())) {
        println!("  {:.3} ({:.3} without the row; itself {itself:.3})  {name}", ratios[k].whole, ratios[k].less);
    }
}

pub fn report(seed: u64, count: usize, case: fn(&mut Random) -> Case) {
    let mut random = Random(seed);
    let mut found: Vec<Found> = Vec::new();
    for _ in 0..count {
        let case = case(&mut random);
        let name = format!("{}, {} elements, {} cells", case.name(), case.count(), case.padded());
        let (ratios, itself) = worst_ratios(&case);
        found.push(Found { name, elements: case.count(), ratios, itself });
    }
    println!("seed {seed}: {count} cases, {} with fewer than 32 elements", found.iter().filter(|f| f.elements < 32).count());
    report_against("arrays", 0, &mut found);
    report_against("vectors", 1, &mut found);
}
