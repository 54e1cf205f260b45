//! Tests on re-tiling: answers worked out by hand from the documents.

use crate::answer::answer_line;
use crate::layout::Layout;
use crate::refusal::Refusal;
use crate::retile::{retile, stores, Memory, Retiling, Store};
use crate::shape::Shape;
use crate::tests::{check, check_columns};

#[test]
fn samples() {
    let cells = "mark 6 cells 1 4 2 5 3 6";
    check(&[
        (
            "retile [2,3] {1,0} {0,1} 0:3 2:9",
            &format!("settled 3 4 {cells}"),
        ),
        (
            "retile [2,3] {1,0} {0,1} 0:6",
            &format!("settled 6 {cells}"),
        ),
        (
            "retile [2,3] {1,0} {0,1} 0:3 3:3",
            &format!("settled 3 3 {cells}"),
        ),
    ]);
}

#[test]
fn padding_and_equal_layouts() {
    check(&[
        (
            "retile [2,3] {1,0} {1,0:T(2,2)} 0:8",
            "settled 8 mark 8 cells 1 2 4 5 3 0 6 0",
        ),
        (
            "retile [2,3] {1,0:T(2,2)} {0,1} 0:6",
            "settled 6 mark 6 cells 1 3 2 4 5 7",
        ),
        (
            "retile [3] {0:T(2)} {0:T(2)} 0:4",
            "settled 4 mark 4 cells 1 2 3 0",
        ),
        (
            "retile [1] {0:T(4)} {0:T(3)} 0:2",
            "settled 2 mark 2 cells 1 0 9999",
        ),
        ("retile [] {} {} 0:1", "settled 1 mark 1 cells 1"),
    ]);
}

#[test]
fn allowances() {
    check(&[
        (
            "retile [3] {0} {0:T(2)} 0:0",
            "settled 0 mark 0 cells 9999 9999 9999 9999",
        ),
        (
            "retile [3] {0} {0:T(2)} 1:2",
            "settled 2 mark 3 cells 9999 2 3 9999",
        ),
        (
            "retile [3] {0} {0:T(2)} 2:-1",
            "settled 2 mark 4 cells 9999 9999 3 0",
        ),
        (
            "retile [3] {0} {0:T(2)} 0:9223372036854775807",
            "settled 4 mark 4 cells 1 2 3 0",
        ),
    ]);
}

#[test]
fn marks() {
    check(&[
        (
            "retile [3] {0} {0:T(2)} 4:0",
            "settled 0 mark 4 cells 9999 9999 9999 9999",
        ),
        (
            "retile [3] {0} {0:T(2)} 0:4 4:-1",
            "settled 4 0 mark 4 cells 1 2 3 0",
        ),
        (
            "retile [3] {0} {0:T(2)} 3:1 0:1",
            "settled 1 1 mark 1 cells 1 9999 9999 0",
        ),
        ("retile [3] {0} {0:T(2)} 5:0", "refused 2"),
        ("retile [3] {0} {0:T(2)} 0:4 5:0 4:0", "refused 2"),
        ("retile [3] {0:T(2)} {0} 4:0", "refused 2"),
        ("retile [3] {0} {0} -1:1", "refused 2"),
    ]);
}

#[test]
fn lengths() {
    check(&[
        (
            "retile [3] {0:T(5)} {0:T(2)} 0:4 5 4",
            "settled 4 mark 4 cells 1 2 3 0",
        ),
        ("retile [3] {0:T(5)} {0:T(2)} 0:4 4 4", "refused 9"),
        ("retile [3] {0:T(5)} {0:T(2)} 0:4 5 3", "refused 9"),
        ("retile [3] {0:T(5)} {0:T(2)} 0:0 4 4", "refused 9"),
        ("retile [3] {0:T(5)} {0:T(2)} 4:0 5 3", "refused 9"),
        ("retile [4097] {0} {0} 0:1", "refused 9"),
    ]);
}

#[test]
fn order_of_the_numbers() {
    check(&[
        ("retile [0] {9} {9} 9:1 0 0", "refused 1"),
        ("retile [3] {1} {0} 4:1 0 0", "refused 3"),
        ("retile [3] {0} {1} 4:1 0 0", "refused 3"),
        (
            "retile [1048576,1048576] {1,0:T(3)} {1} -1:1 0 0",
            "refused 3",
        ),
        (
            "retile [1048576,1048576] {1} {1,0:T(3)} -1:1 0 0",
            "refused 3",
        ),
        (
            "retile [1048576,1048576] {1,0:T(3)} {1,0} -1:1 0 0",
            "refused 4",
        ),
        (
            "retile [1048576,1048576] {1,0} {1,0:T(3)} -1:1 0 0",
            "refused 4",
        ),
        ("retile [3] {0} {0} 4:1 0 0", "refused 2"),
        ("retile [3] {0} {0} 3:1 0 3", "refused 9"),
        ("retile [3] {0} {0} 3:1 3 0", "refused 9"),
        (
            "retile [1048576,1048576] {1,0} {0,1} 1099511627777:0",
            "refused 2",
        ),
        (
            "retile [1048576,1048576] {1,0} {0,1} 1099511627776:0",
            "refused 9",
        ),
    ]);
}

#[test]
fn tokens_of_runs() {
    check(&[
        (
            "retile[2]{0}{0}0 : 1 1:1 2 2",
            "settled 1 1 mark 2 cells 1 2",
        ),
        ("retile [2] {0} {0} 0:1-0:2", "settled 1 2 mark 2 cells 1 2"),
        (
            "retile [2] {0} {0} 0:2 2 :2",
            "settled 2 0 mark 2 cells 1 2",
        ),
        ("retile [2] {0} {0} 0:2 4097:1", "refused 2"),
    ]);
    let line = format!("retile [] {{}} {{}}{}", " 0:1".repeat(16_379));
    let answer = format!("settled{} mark 1 cells 1", " 1".repeat(16_379));
    assert_eq!(answer_line(line.as_bytes()), Some(answer));
}

#[test]
fn columns_of_unreadable_retilings() {
    check_columns(&[
        ("retile [2]", 11),
        ("retile [2] {0} 0:2", 16),
        ("retile [2] {0} {0}", 19),
        ("retile [2] {0} {0} x", 20),
        ("retile [2] {0} {0} 0", 21),
        ("retile [2] {0} {0} 0 2", 22),
        ("retile [2] {0} {0} :2", 20),
        ("retile [2] {0} {0} 0:", 22),
        ("retile [2] {0} {0} 0:1:1", 23),
        ("retile [2] {0} {0} 0:9223372036854775808", 22),
        ("retile [2] {0} {0} 0:18446744073709551615", 22),
        ("retile [2] {0} {0} 0:2 2", 25),
        ("retile [2] {0} {0} 0:2 2 2:0", 27),
        ("retile [2] {0} {0} 0:2 2 2 2", 28),
        ("retile [2] {0} {0} 0:2 4097 2", 24),
        ("retile [2] {0} {0} 0:2 4097", 24),
        ("retile [2] {0} {0} 0:2 2 4097", 26),
        ("retile [2] {0} {0} 0:2 -1", 24),
        ("retile [0] {9} {9} 9:9 0 0 x", 28),
    ]);
}

#[test]
fn order_of_the_stores() {
    let shape = Shape { sizes: vec![3] };
    let untiled = layout(&[]);
    let tiled = layout(&[2]);
    let retiling = Retiling {
        shape: &shape,
        source_layout: &untiled,
        destination_layout: &tiled,
        source: &[5, 6, 7],
    };
    let mut memory = Memory {
        destination: vec![1; 4],
        mark: 2,
    };
    let expected = [
        Store::Cell {
            offset: 2,
            value: 7,
        },
        Store::Mark(3),
        Store::Cell {
            offset: 3,
            value: 0,
        },
        Store::Mark(4),
    ];
    let all = stores(&retiling, &memory, u64::MAX);
    assert_eq!(all.as_deref(), Ok(&expected[..]));
    let one = stores(&retiling, &memory, 1);
    assert_eq!(one.as_deref(), Ok(&expected[..2]));
    memory.mark = 5;
    let before = memory.clone();
    let refused = retile(&retiling, &mut memory, 1);
    assert_eq!((refused, memory), (Err(Refusal::Limit), before));
}

fn layout(tile: &[u64]) -> Layout {
    let tiles = if tile.is_empty() {
        vec![]
    } else {
        vec![tile.to_vec()]
    };
    Layout {
        minor_to_major: vec![0],
        tiles,
    }
}
