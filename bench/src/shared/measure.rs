// Times in turn, and their ratios round by round.
use super::cases::Random;
use super::clock::thread_seconds;

/// The seconds of a call in each round.
pub struct Times(Vec<f64>);

impl Times {
    pub fn best(&self) -> f64 {
        self.0.iter().copied().fold(f64::MAX, f64::min)
    }

    /// The ratio of the least times.
    pub fn best_over(&self, other: &Times) -> f64 {
        self.best() / other.best()
    }

    /// The same with a fixed part subtracted.
    pub fn less(&self, part: f64) -> Times {
        Times(self.0.iter().map(|t| (t - part).max(0.0)).collect())
    }

    fn ratios(&self, other: &Times) -> Vec<f64> {
        let mut ratios: Vec<f64> = self.0.iter().zip(&other.0).map(|(a, b)| a / b).collect();
        ratios.sort_by(f64::total_cmp);
        ratios
    }

    pub fn median_over(&self, other: &Times) -> f64 {
        let ratios = self.ratios(other);
        ratios[ratios.len() / 2]
    }

    /// The median of the rounds' ratios, with the least and the greatest.
    pub fn over(&self, other: &Times) -> String {
        let ratios = self.ratios(other);
        format!("{:.3} ({:.3} to {:.3})", ratios[ratios.len() / 2], ratios[0], ratios[ratios.len() - 1])
    }
}

/// A block of a round takes at least so long.
const BLOCK: f64 = 1e-3;

fn block(run: &mut dyn FnMut(), calls: usize) -> f64 {
    let start = thread_seconds();
    for _ in 0..calls {
        run();
    }
    thread_seconds() - start
}

/// How many calls make a block.
fn calls(run: &mut dyn FnMut()) -> usize {
    let mut calls = 1;
    while block(run, calls) < BLOCK {
        calls *= 2;
    }
    calls
}

/// The times of several versions, each once in every round, in an order that changes from round to round. Each is called once before it is timed, so that
/// none starts from what another one left in the caches.
pub fn in_turn(rounds: usize, runs: &mut [&mut dyn FnMut()]) -> Vec<Times> {
    let calls: Vec<usize> = runs.iter_mut().map(|run| calls(*run)).collect();
    let mut times: Vec<Times> = runs.iter().map(|_| Times(Vec::new())).collect();
    let mut order: Vec<usize> = (0..runs.len()).collect();
    let mut random = Random(rounds as u64);
    for _ in 0..rounds {
        for k in (1..order.len()).rev() {
            order.swap(k, random.below(k as u64 + 1) as usize);
        }
        for &k in &order {
            runs[k]();
            times[k].0.push(block(runs[k], calls[k]) / calls[k] as f64);
        }
    }
    times
}

/// A time with its unit.
pub fn short(seconds: f64) -> String {
    match seconds {
        s if s >= 1e-3 => format!("{:.2} ms", s * 1e3),
        s if s >= 1e-6 => format!("{:.2} us", s * 1e6),
        s => format!("{:.1} ns", s * 1e9),
    }
}
