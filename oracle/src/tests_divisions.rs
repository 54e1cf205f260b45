//! Tests on divisions: answers worked out by hand from the documents.

use crate::tests::{check, check_columns};

#[test]
fn samples_of_02() {
    check(&[
        ("multiplier 1", "multiplier 17179869185"),
        ("multiplier 3", "multiplier 5726623062"),
        ("multiplier 128", "multiplier 134217729"),
    ]);
}

#[test]
fn ends_of_the_table() {
    check(&[
        ("multiplier 0", "refused 2"),
        ("multiplier 1024", "multiplier 16777217"),
        ("multiplier 1025", "refused 2"),
        ("multiplier -1", "refused 2"),
        ("quotient 7 0", "refused 2"),
        ("quotient 7 1025", "refused 2"),
        ("quotient -1 -1", "refused 2"),
        ("quotient 1024 1024", "quotient 1"),
        ("quotient 1023 1024", "quotient 0"),
    ]);
}

#[test]
fn quotients_on_both_sides_of_2_to_24() {
    check(&[
        ("quotient 16777215 3", "quotient 5592405"),
        ("quotient 16777214 3", "quotient 5592404"),
        ("quotient 16777216 3", "quotient 5592405"),
        ("quotient 16777215 1024", "quotient 16383"),
        ("quotient 16777216 1024", "quotient 16384"),
        (
            "quotient 9223372036854775807 1",
            "quotient 9223372036854775807",
        ),
        ("quotient -1 1", "quotient 18446744073709551615"),
        ("quotient -7 3", "quotient 6148914691236517205"),
    ]);
}

#[test]
fn columns_of_unreadable_divisions() {
    check_columns(&[
        ("multiplier", 11),
        ("multiplier 3 3", 14),
        ("multiplier x", 12),
        ("quotient 7", 11),
        ("quotient 7 3 1", 14),
        ("quotient 7,3", 11),
        ("quotient 7 9223372036854775808", 12),
    ]);
}
