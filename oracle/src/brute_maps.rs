//! Brute force on maps: random small ones, folded, printed and compared at every point.

use crate::brute::Tally;
use crate::fold::fold;
use crate::map::{Interval, Map};
use crate::map_reader::read_map;
use crate::map_rule::judge_map;
use crate::map_text::map_text;
use crate::map_value::{evaluate, is_in_domain, MapPoint};
use crate::random::Random;
use crate::random_maps::{large_map, many_nodes, nested_map, small_map, split_map, MapDraft};
use crate::random_tight_maps::tight_map;
use crate::reader::Reader;
use crate::refusal::Refusal;

const SEED: u64 = 256;
const MAPS: u64 = 6000;

/// Compares maps with their folds, and folds with their printed text read again.
pub fn brute_maps(tally: &mut Tally) -> Result<(), String> {
    let mut random = Random::new(SEED);
    for number in 0..MAPS {
        let draft: MapDraft = match number % 3 {
            0 => small_map(&mut random),
            1 => split_map(&mut random),
            _ => nested_map(&mut random),
        };
        compare(tally, &draft.text()).map_err(|what| format!("{what}: {}", draft.text()))?;
    }
    for number in 0..MAPS {
        let draft: MapDraft = match number % 3 {
            0 => large_map(&mut random),
            1 => tight_map(&mut random),
            _ => many_nodes(&mut random),
        };
        fold_twice(tally, &draft.text()).map_err(|what| format!("{what}: {}", draft.text()))?;
    }
    Ok(())
}

/// Folding again changes nothing, also near the limits, where every point is too many.
fn fold_twice(tally: &mut Tally, text: &str) -> Result<(), &'static str> {
    let map = read(text).ok_or("a map that is read")?;
    let Ok(folded) = fold(&map) else {
        return Ok(());
    };
    tally.agree(judge_map(&folded).is_ok(), "an accepted fold")?;
    tally.agree(fold(&folded).as_ref() == Ok(&folded), "the fold of a fold")
}

fn compare(tally: &mut Tally, text: &str) -> Result<(), &'static str> {
    let map = read(text).ok_or("a map that is read")?;
    let folded = match fold(&map) {
        Err(Refusal::Counts) => return Ok(()),
        folded => folded.map_err(|_| "a fold")?,
    };
    let again = fold(&folded);
    tally.agree(again.as_ref() == Ok(&folded), "the fold of a fold")?;
    let printed = read(&map_text(&folded).replace('\n', " ")).ok_or("a printed map")?;
    let same_fold = fold(&printed) == Ok(folded.clone());
    tally.agree(same_fold, "the fold of a printed fold")?;
    for point in points(&map) {
        let inside = is_in_domain(&map, &point);
        tally.agree(is_in_domain(&folded, &point) == inside, "a domain")?;
        let value = evaluate(&map, &point);
        tally.agree(inside == value.is_ok(), "a value in the domain")?;
        tally.agree(evaluate(&folded, &point) == value, "a value of a fold")?;
        tally.agree(evaluate(&printed, &point) == value, "a printed value")?;
    }
    Ok(())
}

/// The map of a whole text.
pub fn read(text: &str) -> Option<Map> {
    let mut reader = Reader::new(text.as_bytes());
    let map = read_map(&mut reader).ok()?;
    reader.at_end().then_some(map)
}

/// Every point inside the bounds.
pub fn points(map: &Map) -> Vec<MapPoint> {
    let dimensions = choices(&map.dimensions);
    let ranges = choices(&map.ranges);
    let mut points = Vec::new();
    for dimensions in &dimensions {
        for ranges in &ranges {
            points.push(MapPoint {
                dimensions: dimensions.clone(),
                ranges: ranges.clone(),
            });
        }
    }
    points
}

fn choices(bounds: &[Interval]) -> Vec<Vec<i128>> {
    let mut lists = vec![vec![]];
    for interval in bounds {
        let longer = |list: &Vec<i128>| -> Vec<Vec<i128>> {
            let with = |value| [list.clone(), vec![value]].concat();
            (interval.low..=interval.high).map(with).collect()
        };
        lists = lists.iter().flat_map(longer).collect();
    }
    lists
}
