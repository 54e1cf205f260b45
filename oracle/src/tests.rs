//! Tests: answers worked out by hand from the documents.

use crate::answer::{answer_input, answer_line};
use crate::pad_reshape_transpose::memory;
use crate::random::Random;

pub fn check(cases: &[(&str, &str)]) {
    for (request, expected) in cases {
        let answer = answer_line(request.as_bytes());
        assert_eq!(answer.as_deref(), Some(*expected), "{request}");
    }
}

pub fn check_columns(cases: &[(&str, usize)]) {
    for (request, column) in cases {
        let expected = format!("error: cannot read the request at column {column}");
        check(&[(*request, &expected)]);
    }
}

#[test]
fn samples_of_01() {
    check(&[
        ("padded [3,5] {1,0:T(2,2)}", "padded 24"),
        ("offset [3,5] {1,0:T(2,2)} (2,3)", "offset 17"),
        ("offset [3,5] {1,0:T(2,2)} (1,4)", "offset 10"),
        ("cell [3,5] {1,0:T(2,2)} 9", "padding"),
        ("cell [3,5] {1,0:T(2,2)} 24", "refused 5"),
        ("offset [3,5] {0,1} (2,3)", "offset 11"),
        ("offset [4,8] {1,0:T(2,4)(2,1)} (1,0)", "offset 1"),
        ("offset [4,8] {1,0:T(2,4)(2,1)} (0,1)", "offset 2"),
        ("offset [4,8] {1,0:T(2,4)(2,1)} (3,7)", "offset 31"),
        ("padded [3,5] {1,0}", "padded 15"),
        ("padded [3,5] {1,0:T(8,128)}", "padded 1024"),
        ("padded [4,4] {0,1}", "padded 16"),
        ("padded [3,5] {1,0:T(1024)}", "padded 3072"),
        ("padded [3,5] {1,0:T(1025)}", "refused 3"),
        ("padded [1048576] {0}", "padded 1048576"),
        ("padded [0] {0}", "refused 1"),
        ("padded [1048577] {0}", "refused 1"),
    ]);
}

#[test]
fn pictures_of_001() {
    check(&[
        (
            "grid [3,5] {1,0:T(2,2)}",
            " 0  1  4  5  8\n 2  3  6  7 10\n12 13 16 17 20\npadding 9 11 14 15 18 19 21 22 23",
        ),
        (
            "grid [4,8] {1,0:T(2,4)(2,1)}",
            " 0  2  4  6  8 10 12 14\n 1  3  5  7  9 11 13 15\n\
             16 18 20 22 24 26 28 30\n17 19 21 23 25 27 29 31\npadding none",
        ),
        ("grid [3] {0:T(2)}", "0 1 2\npadding 3"),
        ("grid [2,3] {0,1}", "0 2 4\n1 3 5\npadding none"),
        (
            "grid [] {}",
            "error: a grid has rank 1 or 2 and at most 4096 cells at column 6",
        ),
        ("grid [0,1,1] {}", "refused 1"),
    ]);
}

#[test]
fn formats_of_001() {
    check(&[
        ("padded [9,129] {1,0:T(8,128)}", "padded 4096"),
        ("offset [9,129] {1,0:T(8,128)} (8,128)", "offset 3072"),
        ("offset [8,128] {1,0:T(8,128)(2,1)} (7,127)", "offset 1023"),
        ("offset [8,128] {1,0:T(8,128)(2,1)} (2,4)", "offset 264"),
        ("offset [8,128] {1,0:T(8,128)(4,1)} (5,3)", "offset 525"),
        ("padded [1,5] {1,0:T(2,128)}", "padded 256"),
        ("padded [3,5] {1,0:T(4,128)}", "padded 512"),
        ("offset [32,128] {1,0:T(32,128)(32,1)} (31,1)", "offset 63"),
        ("cell [3,5] {1,0:T(32,128)(32,1)} 34", "element (2, 1)"),
        ("cell [3,5] {1,0:T(32,128)(32,1)} 35", "padding"),
    ]);
}

#[test]
fn numbers_and_points() {
    check(&[
        ("number [3,5] (2,3)", "element 13"),
        ("point [3,5] 13", "point (2, 3)"),
        ("number [2,3,4] (1,2,3)", "element 23"),
        ("number [] ()", "element 0"),
        ("point [] 0", "point ()"),
        ("point [] 1", "refused 5"),
        ("cell [] {} 0", "element ()"),
        ("number [3,5] (2)", "refused 6"),
        ("number [3,5] (9,9,9)", "refused 6"),
        ("number [3,5] (2,5)", "refused 5"),
        ("number [3,5] (-1,0)", "refused 5"),
        ("point [3,5] 15", "refused 5"),
        (
            "point [1048576,1048576] 1099511627775",
            "point (1048575, 1048575)",
        ),
    ]);
}

#[test]
fn shares_in_binary64() {
    check(&[
        (
            "card [3,5] {1,0:T(2,2)}",
            "fill 0x3fe4000000000000 waste 0x3fd8000000000000",
        ),
        (
            "card [1] {0:T(3)}",
            "fill 0x3fd5555555555555 waste 0x3fe5555555555555",
        ),
        (
            "card [] {}",
            "fill 0x3ff0000000000000 waste 0x0000000000000000",
        ),
        ("fit [3,5] {1,0:T(2,2)} 48", "fits 0x3fe0000000000000"),
        ("fit [3,5] {1,0:T(2,2)} 24", "fits 0x0000000000000000"),
        ("fit [3,5] {1,0:T(2,2)} 12", "over 0x4000000000000000"),
        ("fit [3,5] {1,0:T(2,2)} 1", "over 0x4038000000000000"),
        (
            "fit [1048576,1048576] {1,0} 1099511627776",
            "fits 0x0000000000000000",
        ),
        ("fit [3,5] {1,0} 0", "refused 2"),
        ("fit [3,5] {1,0} 1099511627777", "refused 2"),
        ("fit [3,5] {1,0} -1", "refused 2"),
    ]);
}

#[test]
fn buffers() {
    check(&[
        ("pack [2,3] {1,0:T(2,2)}", "cells 1 2 4 5 3 0 6 0"),
        ("pack [2,3] {1,0:T(2,2)} 6 8", "cells 1 2 4 5 3 0 6 0"),
        ("pack [2,3] {1,0:T(2,2)} 5 8", "refused 9"),
        ("pack [2,3] {1,0:T(2,2)} 6 7", "refused 9"),
        ("unpack [2,3] {1,0:T(2,2)}", "elements 0 1 4 2 3 6"),
        ("unpack [2,3] {1,0:T(2,2)} 8 6", "elements 0 1 4 2 3 6"),
        ("unpack [2,3] {1,0:T(2,2)} 7 6", "refused 9"),
        ("unpack [2,3] {1,0:T(2,2)} 8 5", "refused 9"),
        ("store [2,3] {1,0:T(2,2)} 5 9", "cells 7 7 7 7 7 7 9 7"),
        ("store [2,3] {1,0:T(2,2)} 0 9 7", "refused 9"),
        ("store [2,3] {1,0:T(2,2)} 6 9 0", "refused 5"),
        ("load [2,3] {1,0:T(2,2)} 5", "value 6"),
        ("load [2,3] {1,0:T(2,2)} 0 7", "refused 9"),
        ("load [2,3] {1,0:T(2,2)} -1 0", "refused 5"),
        ("load [4097] {0} 0", "refused 9"),
    ]);
}

#[test]
fn rules_of_a_layout() {
    check(&[
        ("padded [3,5] {0,0}", "refused 3"),
        ("padded [3,5] {0,2}", "refused 3"),
        ("padded [3,5] {0}", "refused 3"),
        ("padded [3,5] {1,0:T()}", "refused 3"),
        ("padded [3,5] {1,0:T(0)}", "refused 3"),
        ("padded [3] {0:T(2,2)}", "refused 3"),
        ("padded [3] {0:T(2)(2,2)}", "padded 4"),
        ("padded [] {:T(1)}", "refused 3"),
        ("padded [3] {0:T(1)(1)(1)}", "padded 3"),
        ("padded [3] {0:T(1)(1)(1)(1)}", "refused 3"),
        (
            "padded [1,1,1,1] {3,2,1,0:T(1024,1024,1024,1024)}",
            "padded 1099511627776",
        ),
        (
            "padded [1,1,1,1,1] {4,3,2,1,0:T(2,1024,1024,1024,1024)}",
            "refused 4",
        ),
        (
            "padded [1048576,1048576,1,1,1] {4,3,2,1,0:T(1024,1024,16)}",
            "refused 4",
        ),
    ]);
}

#[test]
fn the_lowest_number() {
    check(&[
        ("padded [0] {0,0}", "refused 1"),
        ("padded [65536,65536,65536,65536] {}", "refused 1"),
        ("fit [0] {1} 0", "refused 1"),
        ("fit [3] {1} 0", "refused 2"),
        ("fit [3] {1} 1", "refused 3"),
        ("padded [1048576,1048576] {1,0:T(3)(0)}", "refused 3"),
        ("cell [1048576,1048576] {1,0:T(3)} -1", "refused 4"),
        ("offset [1048576,1048576] {1,0:T(3)} (0)", "refused 4"),
        ("offset [3,5] {1,0} (9)", "refused 6"),
        ("offset [3,5] {1,0} (9,9)", "refused 5"),
        ("pack [1048576,1048576] {1,0:T(3)} 0 0", "refused 4"),
    ]);
}

#[test]
fn columns_of_unreadable_tokens() {
    check_columns(&[
        ("help", 1),
        ("  quit", 3),
        ("padded", 7),
        ("padded [3,5]", 13),
        ("padded [3,5]  ", 15),
        ("padded [3,] {0}", 11),
        ("padded [3] {0:t(2)}", 15),
        ("padded [3] {0:T}", 16),
        ("padded [3] {0}\r", 15),
        ("cell [3] {0} 9223372036854775808", 14),
        ("cell [3] {0} -9223372036854775809", 14),
        ("cell [3] {0} - 1", 14),
        ("cell [3] {0} 1-1", 15),
        ("pack [3] {0} 3", 15),
        ("pack [3] {0} 4097", 14),
        ("store [0] {0} 0 4294967296", 17),
        (" # padded [3] {0}", 2),
    ]);
    check(&[
        ("padded[0003]{ 0 }", "padded 3"),
        ("cell [3] {0} -0", "element (0)"),
        ("cell [3] {0} -9223372036854775808", "refused 5"),
    ]);
}

#[test]
fn lines_and_blocks() {
    let input = b"# a comment\n\n   \npadded [3] {0}\nhelp\ncell [3] {0} 3";
    let output = b"padded 3\n\nerror: cannot read the request at column 1\n\nrefused 5\n\n";
    assert_eq!(answer_input(input), output);
    let mut line = b"padded [3] {0}".to_vec();
    line.resize(65_535, b' ');
    assert_eq!(answer_line(&line).as_deref(), Some("padded 3"));
    line.push(b' ');
    let error = "error: cannot read the request at column 65536";
    assert_eq!(answer_line(&line).as_deref(), Some(error));
    line[0] = b'#';
    assert_eq!(answer_line(&line), None);
    assert_eq!(answer_line(&[b' '; 65_536]), None);
}

#[test]
fn tools_of_the_oracle() {
    assert_eq!(
        memory(&[3], &[0], &[vec![2]]),
        [Some(0), Some(1), Some(2), None]
    );
    let held = [0, 3, 1, 4, 2, 5].map(Some);
    assert_eq!(memory(&[2, 3], &[0, 1], &[]), held);
    // The first numbers that splitmix64 is published with for this seed.
    let mut random = Random::new(1_234_567);
    assert_eq!(random.next(), 6_457_827_717_110_365_317);
    assert_eq!(random.next(), 3_203_168_211_198_807_973);
}
