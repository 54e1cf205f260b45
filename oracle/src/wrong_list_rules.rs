//! Rules for which layout makes a table that are not those of document 02, Q-10: some list must show each of them.

use crate::offset_table_by_trial::{Cause, Rules, RULES};

pub const WRONG_LIST_RULES: [(&str, Rules); 13] = [
    (
        "a layout with another padded size is accepted",
        Rules {
            makes: |_, same_offsets| same_offsets(),
            ..RULES
        },
    ),
    (
        "a layout with other offsets is accepted",
        Rules {
            makes: |same_size, _| same_size,
            ..RULES
        },
    ),
    (
        "the last layout that makes the table is answered",
        Rules {
            place: |places| places.last().copied(),
            ..RULES
        },
    ),
    (
        "a list of none is accepted",
        Rules {
            is_count: |layouts| layouts <= 64,
            ..RULES
        },
    ),
    (
        "a list of 65 is accepted",
        Rules {
            is_count: |layouts| (1..=65).contains(&layouts),
            ..RULES
        },
    ),
    (
        "layouts are judged only up to the first that makes the table",
        Rules {
            judged: |layouts, first| first().map_or(layouts, |place| place + 1),
            ..RULES
        },
    ),
    (
        "an unsound table is asked for its layout",
        in_order(&[
            Cause::Shape,
            Cause::Length,
            Cause::Count,
            Cause::Layouts,
            Cause::Padded,
            Cause::Sizes,
        ]),
    ),
    (
        "an unsound table is refused after 3",
        in_order(&[
            Cause::Shape,
            Cause::Length,
            Cause::Count,
            Cause::Layouts,
            Cause::Unsound,
            Cause::Padded,
            Cause::Sizes,
        ]),
    ),
    (
        "an unsound table is refused only up to a padded size of 2^40",
        in_order(&[
            Cause::Shape,
            Cause::Length,
            Cause::Count,
            Cause::UnsoundWithin,
            Cause::Layouts,
            Cause::Padded,
            Cause::Sizes,
        ]),
    ),
    (
        "4 of the table's padded size comes before 3",
        in_order(&[
            Cause::Shape,
            Cause::Length,
            Cause::Count,
            Cause::Unsound,
            Cause::Padded,
            Cause::Layouts,
            Cause::Sizes,
        ]),
    ),
    (
        "each layout is judged for 3 and 4 before the next",
        in_order(&[
            Cause::Shape,
            Cause::Length,
            Cause::Count,
            Cause::Unsound,
            Cause::InTurn,
            Cause::Padded,
        ]),
    ),
    (
        "3 and 4 come before the number of layouts",
        in_order(&[
            Cause::Shape,
            Cause::Length,
            Cause::Unsound,
            Cause::Layouts,
            Cause::Padded,
            Cause::Sizes,
            Cause::Count,
        ]),
    ),
    (
        "a layout that stands in the list twice is refused",
        in_order(&[
            Cause::Shape,
            Cause::Length,
            Cause::Count,
            Cause::Unsound,
            Cause::Layouts,
            Cause::Repeat,
            Cause::Padded,
            Cause::Sizes,
        ]),
    ),
];

const fn in_order(which: &'static [Cause]) -> Rules {
    Rules { which, ..RULES }
}
