// A table of greatest common divisors: several versions, in turn, on each of the benchmark's rows of pairs.
use crate::euclid::{gcd, least, plain, rounds};
use crate::pairs::{workloads, Workload};
use crate::shared::measure::in_turn;
use std::hint::black_box;

const ROUNDS: usize = 15;

pub struct Version {
    pub name: &'static str,
    pub gcd: fn(u64, u64) -> u64,
}

/// The mean and the most rounds of the pairs.
fn counted(workload: &Workload, remainder: fn(u64, u64) -> u64) -> String {
    let all: Vec<u32> = workload.pairs.iter().map(|&pair| rounds(pair, remainder)).collect();
    format!("{:.1}, {}", all.iter().sum::<u32>() as f64 / all.len() as f64, all.iter().max().unwrap())
}

/// Stops where a version answers differently from the ordinary one.
fn compare(workload: &Workload, versions: &[Version]) {
    for &(a, b) in &workload.pairs {
        for version in versions {
            assert_eq!((version.gcd)(a, b), gcd(a, b), "{}: gcd of {a} and {b}", version.name);
        }
    }
}

fn row(workload: &Workload, versions: &[Version]) {
    compare(workload, versions);
    let work = |version: &Version| {
        for &(a, b) in &workload.pairs {
            black_box((version.gcd)(black_box(a), black_box(b)));
        }
    };
    let mut runs: Vec<Box<dyn FnMut() + '_>> = Vec::new();
    for version in versions {
        runs.push(Box::new(move || work(version)));
    }
    let mut runs: Vec<&mut dyn FnMut()> = runs.iter_mut().map(|run| &mut **run as &mut dyn FnMut()).collect();
    let times = in_turn(ROUNDS, &mut runs);
    let each: Vec<String> = times.iter().map(|t| format!("{:.1}", t.best() * 1e9 / workload.pairs.len() as f64)).collect();
    let ratios: Vec<String> = times[1..].iter().map(|t| times[0].over(t)).collect();
    println!(
        "| {} | {} | {} | {} | {} |",
        workload.name,
        counted(workload, plain),
        counted(workload, least),
        each.join(" | "),
        ratios.join(" | ")
    );
}

/// The table: rounds of both ways, the least time of each version in ns a pair, and the ratios of the first version to each other one.
pub fn report(versions: &[Version]) {
    let names: Vec<String> = versions.iter().map(|v| format!("{}, ns", v.name)).collect();
    let ratios: Vec<String> = versions[1..].iter().map(|v| format!("{} / {}", versions[0].name, v.name)).collect();
    println!("| pairs | Euclid's rounds, mean and most | by least remainders | {} | {} |", names.join(" | "), ratios.join(" | "));
    println!("|{}", "---|".repeat(3 + names.len() + ratios.len()));
    workloads().iter().for_each(|workload| row(workload, versions));
}
