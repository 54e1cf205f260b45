// The random mode: the library's ratio to the ordinary version on random pairs of layouts.
use crate::buffers::Buffers;
use crate::shared::cases::Random;

/// A pair by its name, with the library's ratio to the ordinary version, and the ordinary version's to itself.
struct Found {
    group: usize,
    name: String,
    ratio: f64,
    itself: f64,
}

/// The pairs apart: where a call's own cost counts, where the ordinary version mostly clears memory, and the others.
const GROUPS: [&str; 3] = ["fewer than 256 cells", "256 cells or more, fewer than half of them with elements", "256 cells or more, at least half of them with elements"];

fn group(elements: usize, cells: usize) -> usize {
    match cells {
        0..256 => 0,
        _ if elements * 2 < cells => 1,
        _ => 2,
    }
}

/// The spread of the ratios, which are in order.
fn spread(of: &str, ratios: &[f64]) {
    if ratios.is_empty() {
        return;
    }
    let at = |quarters: usize| ratios[(ratios.len() - 1) * quarters / 4];
    let above = ratios.iter().filter(|&&r| r > 1.0).count();
    println!("{of}: {} pairs, least {:.3}, quartiles {:.3}, {:.3}, {:.3}, worst {:.3}; {above} above 1", ratios.len(), at(0), at(1), at(2), at(3), at(4));
}

pub fn report(seed: u64, count: usize) {
    let mut random = Random(seed);
    let mut found: Vec<Found> = Vec::new();
    for _ in 0..count {
        let pair = random.pair();
        let times = Buffers::checked(&pair).times();
        let [library, plain, _, again] = &times[..] else { unreachable!() };
        let name = format!("{}, {} elements, {} cells to {}", pair.name(), pair.from.count(), pair.from.padded(), pair.cells());
        found.push(Found { group: group(pair.from.count(), pair.cells()), name, ratio: library.median_over(plain), itself: again.median_over(plain) });
    }
    found.sort_by(|a, b| a.ratio.total_cmp(&b.ratio));
    println!("seed {seed}: library / ordinary (which has no mark and no steps)");
    let ratios = |group: Option<usize>| -> Vec<f64> { found.iter().filter(|f| group.is_none_or(|g| g == f.group)).map(|f| f.ratio).collect() };
    spread("all", &ratios(None));
    for (k, name) in GROUPS.iter().enumerate() {
        spread(name, &ratios(Some(k)));
    }
    println!("the worst, with the ratio of the ordinary version to itself:");
    for Found { name, ratio, itself, .. } in found.iter().rev().take(10) {
        println!("  {ratio:.3} (itself {itself:.3})  {name}");
    }
}
