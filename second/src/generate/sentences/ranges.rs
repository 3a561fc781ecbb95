//! "Type block": local start and count, and the range rules.

use super::{ruled, Row};
use crate::generate::Case;

pub fn cases() -> Vec<Case> {
    ruled(&[STARTS, WITHIN, SIBLINGS, EMPTY])
}

const STARTS: &[Row] = &[
    (
        "local start of 65535: the range rule comes at the count",
        21,
        "P 02 01 00 01 00 00 02 01 FF FF 03 01",
    ),
    (
        "local start of 65535: the count is due",
        1,
        "P 02 01 00 01 00 00 02 01 FF FF 03",
    ),
    (
        "local start of 65536, at the start",
        3,
        "P 02 01 00 01 00 00 02 01 80 80 04",
    ),
    (
        "local start of 65536 with count 0, at the start",
        3,
        "P 02 01 00 01 00 00 02 01 80 80 04 00",
    ),
    (
        "local start of 2^64 - 1",
        3,
        "P 02 01 00 01 00 00 02 01 FF*9 00",
    ),
    (
        "local start of a known type, 65536",
        3,
        "P 02 01 00 00 00 00 02 01 00 00 00 00 00 02 01 01 00 02 80 80 04",
    ),
    (
        "start and count of 65535 each: 21, and no sum wraps",
        21,
        "P 02 01 00 01 00 00 02 01 FF FF 03 FF FF 03",
    ),
    (
        "start counts the base pool's objects of this block, not those before: too far",
        21,
        "P 01 01 00 03 00 00 00 02 01 01 00 02 01 03 01",
    ),
    (
        "start counts the base pool's objects of this block, not those before",
        0,
        "P 01 01 00 03 00 00 00 02 01 02 00 02 01 01 01 00 00",
    ),
    (
        "start counts the base pool's objects, not those of the type above",
        0,
        "P 03 01 00 05 00 00 02 01 02 03 00 00 03 02 04 01 00 00",
    ),
];

const WITHIN: &[Row] = &[
    (
        "a range may end with the one above",
        0,
        "P 02 01 00 02 00 00 02 01 01 01 00 00",
    ),
    (
        "a range may be the whole of the one above",
        0,
        "P 02 01 00 02 00 00 02 01 00 02 00 00",
    ),
    (
        "a range ends one past the one above",
        21,
        "P 02 01 00 02 00 00 02 01 01 02",
    ),
    (
        "a range starts at the end of the one above",
        21,
        "P 02 01 00 02 00 00 02 01 02 01",
    ),
    (
        "a range may start with the one above",
        0,
        "P 03 01 00 03 00 00 02 01 01 02 00 00 03 02 01 01 00 00",
    ),
    (
        "a range starts one before the one above",
        21,
        "P 03 01 00 03 00 00 02 01 01 02 00 00 03 02 00 01",
    ),
    (
        "a range is within the one two above, but ends past the one above",
        21,
        "P 03 01 00 04 00 00 02 01 01 02 00 00 03 02 02 02",
    ),
    (
        "a range is within the one two above, but starts before the one above",
        21,
        "P 03 01 00 04 00 00 02 01 01 02 00 00 03 02 00 02",
    ),
    (
        "a range above that starts later has its end later",
        0,
        "P 03 01 00 05 00 00 02 01 02 03 00 00 03 02 03 02 00 00",
    ),
    (
        "a range above of the same block: an earlier block's is no matter",
        21,
        "P 01 01 00 05 00 00 00 02 01 01 00 02 01 01 01",
    ),
    (
        "a range above of the same block: an earlier block's alone",
        21,
        "P 01 01 00 05 00 00 00 01 02 01 00 01",
    ),
    (
        "a range above of the same block: an earlier block's of a known type",
        21,
        "P 02 01 00 05 00 00 02 01 00 01 00 00 00 01 02 00 01",
    ),
    (
        "a range above of the super type: another base type's is no matter",
        21,
        "P 03 01 00 01 00 00 03 00 05 00 00 02 01 01 01",
    ),
    (
        "a range above of the super type: a sibling's is no matter",
        21,
        "P 04 01 00 05 00 00 02 01 00 02 00 00 03 01 02 03 00 00 04 02 02 01",
    ),
    (
        "a range above of the super type: the last of three base types",
        0,
        "P 04 01 00 01 00 00 02 00 02 00 00 03 00 03 00 00 04 03 02 01 00 00",
    ),
    (
        "a range above of the super type: the first of three base types",
        0,
        "P 04 01 00 03 00 00 02 00 02 00 00 03 00 01 00 00 04 01 02 01 00 00",
    ),
    (
        "the entry above comes later",
        21,
        "P 02 01 00 01 00 00 02 01 00 00 00 00 00 02 02 00 01 00 01 01 00",
    ),
    (
        "the entry above has count 0",
        21,
        "P 02 01 00 00 00 00 02 01 00 01",
    ),
    (
        "the entry two above is there, the one above is not",
        21,
        "P 03 01 00 01 00 00 02 01 00 01 00 00 03 02 00 00 00 00 00 02 01 01 00 03 00 01",
    ),
    (
        "the entry two above is there, the one above has count 0",
        21,
        "P 03 01 00 01 00 00 02 01 00 00 00 00 03 02 00 01",
    ),
    (
        "the range rules are tested at the count, before restrictions",
        21,
        "P 02 01 00 01 00 00 02 01 01 01 01",
    ),
    (
        "the range rules are tested at the count, before the file's end",
        21,
        "P 02 01 00 01 00 00 02 01 01 01",
    ),
];

const SIBLINGS: &[Row] = &[
    ("a sibling may follow at once", 0, "P 03 01 00 03 00 00 02 01 00 02 00 00 03 01 02 01 00 00"),
    ("a sibling may leave a gap", 0, "P 03 01 00 03 00 00 02 01 00 01 00 00 03 01 02 01 00 00"),
    ("a sibling starts in an earlier one", 21, "P 03 01 00 03 00 00 02 01 00 02 00 00 03 01 01 02"),
    ("a sibling starts with an earlier one", 21, "P 03 01 00 03 00 00 02 01 00 01 00 00 03 01 00 01"),
    ("a sibling starts before an earlier one, without touching it", 21, "P 03 01 00 03 00 00 02 01 02 01 00 00 03 01 00 01"),
    ("every earlier sibling: the first of three is touched, not the second", 21, "P 04 01 00 05 00 00 02 01 00 02 00 00 03 01 00 00 00 00 04 01 01 01"),
    ("every earlier sibling: the second of three is touched, not the first", 21, "P 04 01 00 05 00 00 02 01 00 02 00 00 03 01 02 02 00 00 04 01 03 01"),
    ("every earlier sibling: the first and the third of four let through, the second not", 21, "P 05 01 00 05 00 00 02 01 00 01 00 00 03 01 01 03 00 00 04 01 00 00 00 00 05 01 02 01"),
    ("every earlier sibling: four in a row", 0, "P 05 01 00 05 00 00 02 01 00 01 00 00 03 01 01 02 00 00 04 01 03 01 00 00 05 01 04 01 00 00"),
    ("an earlier sibling is of the earlier entry, not of the earlier declaration", 21, "P 03 01 00 02 00 00 02 01 00 01 00 00 03 01 01 01 00 00 00 03 01 02 00 03 01 01 00 02 00 01"),
    ("a later sibling against the order of declaration", 0, "P 03 01 00 00 00 00 02 01 00 00 00 00 03 01 00 00 00 00 00 03 01 02 00 03 00 01 00 02 01 01 00"),
    ("a sibling's range of an earlier block is no matter", 0, "P 03 01 00 02 00 00 02 01 00 02 00 00 03 01 00 00 00 00 00 02 01 02 00 03 00 02 00"),
    ("a type's own range of an earlier block is no matter", 0, "P 02 01 00 02 00 00 02 01 00 02 00 00 00 02 01 02 00 02 00 02 00"),
    ("siblings are counted in the block, not in the pool", 0, "P 03 01 00 02 00 00 02 01 00 01 00 00 03 01 01 01 00 00 00 03 01 02 00 02 00 01 00 03 01 01 00"),
    ("siblings are counted in the block, not in the pool: touched", 21, "P 03 01 00 02 00 00 02 01 00 01 00 00 03 01 01 01 00 00 00 03 01 03 00 02 00 02 00 03 01 02"),
    ("a range of the one above's sibling is no matter", 0, "P 04 01 00 04 00 00 02 01 00 02 00 00 03 01 02 02 00 00 04 02 00 01 00 00"),
    ("a cousin's range is no matter", 0, "P 05 01 00 04 00 00 02 01 02 02 00 00 05 02 02 02 00 00 03 00 02 00 00 04 03 00 01 00 00"),
    ("ranges of two pools are no matter to each other", 0, "P 04 01 00 02 00 00 02 00 02 00 00 03 01 00 02 00 00 04 02 00 02 00 00"),
    ("ranges of two pools are no matter to each other: the later declared pool first", 0, "P 04 01 00 02 00 00 02 00 02 00 00 04 02 00 02 00 00 03 01 00 02 00 00"),
    ("a nephew's range is no matter, its sibling's is", 21, "P 04 01 00 04 00 00 02 01 00 03 00 00 03 02 00 01 00 00 04 01 01 01"),
];

const EMPTY: &[Row] = &[
    ("count 0: the start is 0", 21, "P 02 01 00 02 00 00 02 01 01 00"),
    ("count 0: the start is 0, also where no entry is above", 21, "P 01 01 00 02 00 00 00 01 02 01 01 00"),
    ("count 0: the start is 0, also under a range that starts at 1", 21, "P 03 01 00 02 00 00 02 01 01 01 00 00 03 02 01 00"),
    ("count 0: no entry above is asked for, new type", 0, "P 01 01 00 01 00 00 00 01 02 01 00 00 00 00"),
    ("count 0: no entry above is asked for, known type", 0, "P 02 01 00 01 00 00 02 01 00 01 00 00 00 01 02 00 00 00"),
    ("count 0: the entry above may come later", 0, "P 02 01 00 01 00 00 02 01 00 01 00 00 00 02 02 00 00 00 01 01 00"),
    ("count 0: the one above may start at 1", 0, "P 03 01 00 02 00 00 02 01 01 01 00 00 03 02 00 00 00 00"),
    ("count 0: the one above may have count 0", 0, "P 02 01 00 00 00 00 02 01 00 00 00 00"),
    ("count 0: an earlier sibling is no matter", 0, "P 03 01 00 02 00 00 02 01 00 02 00 00 03 01 00 00 00 00"),
    ("count 0 of a known type: an earlier sibling is no matter", 0, "P 03 01 00 00 00 00 02 01 00 00 00 00 03 01 00 00 00 00 00 03 01 02 00 02 00 02 00 03 00 00 00"),
];
