//! Tests on random lines about re-tiling: every answer and every case that they are made to show is among them.

use std::collections::BTreeMap;

use crate::answer::answer_line;
use crate::layout::{padded_size, Layout};
use crate::random_kinds::{random_lines, Kind};
use crate::refusal::Refusal;
use crate::request::{read_request, Request};
use crate::request_retile::{RetileRequest, Run};

#[test]
fn random_retilings_have_every_answer() {
    let lines = random_lines(23, 4000, Some(Kind::Retile));
    let answers: Vec<String> = lines
        .split(|byte| *byte == b'\n')
        .filter_map(answer_line)
        .collect();
    let numbers = [1, 2, 3, 4, 9].map(|number| format!("refused {number}"));
    for start in numbers
        .iter()
        .map(String::as_str)
        .chain(["settled", "error"])
    {
        let starts = answers.iter().filter(|answer| answer.starts_with(start));
        assert!(starts.count() > 50, "{start}");
    }
}

/// What a random request is made to show.
fn cases(request: &RetileRequest) -> Vec<&'static str> {
    let size = |layout: &Layout| padded_size(&request.shape, layout);
    let (source, destination) = (
        size(&request.source_layout),
        size(&request.destination_layout),
    );
    let mut cases = match (source, destination) {
        (Err(Refusal::Layout), Ok(_)) => vec!["3 of the source"],
        (Ok(_), Err(Refusal::Layout)) => vec!["3 of the destination"],
        (Err(Refusal::PaddedSize), Ok(_)) => vec!["4 of the source"],
        (Ok(_), Err(Refusal::PaddedSize)) => vec!["4 of the destination"],
        (Err(Refusal::Layout), Err(Refusal::PaddedSize)) => vec!["3, then 4"],
        (Err(Refusal::PaddedSize), Err(Refusal::Layout)) => vec!["4, then 3"],
        _ => vec![],
    };
    let (Ok(source), Ok(destination)) = (source, destination) else {
        return cases;
    };
    if request.source_layout == request.destination_layout {
        cases.push("equal layouts");
    }
    cases.extend(length_case(request.source, source, "source"));
    cases.extend(length_case(request.destination, destination, "destination"));
    let short = request.source < source || request.destination < destination;
    if short && request.runs[0].mark > destination {
        cases.push("2 beside 9");
    }
    if !short {
        cases.extend(run_cases(&request.runs, destination));
    }
    cases
}

fn length_case(length: u64, padded: u64, buffer: &'static str) -> Option<&'static str> {
    match (buffer, length as i64 - padded as i64) {
        ("source", 0) => Some("just the source's size"),
        ("source", -1) => Some("one cell short of the source's size"),
        (_, 0) => Some("just the destination's size"),
        (_, -1) => Some("one cell short of the destination's size"),
        _ => None,
    }
}

/// What the runs up to the first mark above the padded size show.
fn run_cases(runs: &[Run], padded: u64) -> Vec<&'static str> {
    let mut cases = Vec::new();
    let mut reached = None;
    for run in runs {
        let Some(rest) = padded.checked_sub(run.mark) else {
            cases.push("2");
            if run.mark == padded + 1 {
                cases.push("a mark just above the padded size");
            }
            return cases;
        };
        if rest == 0 {
            cases.push("a mark at the padded size");
        }
        if let Some(reached) = reached {
            cases.push(match run.mark.wrapping_sub(reached) {
                0 => "goes on from the mark",
                u64::MAX => "goes back by one cell",
                _ => "goes on elsewhere",
            });
        }
        cases.push(match run.allowance {
            0 => "no allowance",
            u64::MAX => "a negative allowance",
            allowance if allowance == rest => "the rest",
            allowance if allowance < rest => "less than the rest",
            _ => "more than the rest",
        });
        reached = Some(run.mark + run.allowance.min(rest));
    }
    cases
}

#[test]
fn random_retilings_reach_every_case() {
    let mut counts: BTreeMap<&str, u64> = BTreeMap::new();
    let lines = random_lines(29, 6000, Some(Kind::Retile));
    for line in lines.split(|byte| *byte == b'\n') {
        if let Ok(Request::Retile(request)) = read_request(line) {
            for case in cases(&request) {
                *counts.entry(case).or_default() += 1;
            }
        }
    }
    assert_eq!(counts.len(), 23, "{counts:?}");
    assert!(counts.values().all(|count| *count >= 10), "{counts:?}");
}
