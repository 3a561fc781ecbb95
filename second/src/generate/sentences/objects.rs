//! "Bounds": objects over all base pools, tested at a base type's count; and
//! how objects are counted.

use super::{ruled, Row};
use crate::generate::Case;

pub fn cases() -> Vec<Case> {
    ruled(&[BOUND, COUNTED])
}

const BOUND: &[Row] = &[
    (
        "65535 objects of a base type are accepted",
        0,
        "P 01 01 00 FF FF 03 00 00",
    ),
    (
        "65536 objects of a base type, at the count",
        3,
        "P 01 01 00 80 80 04",
    ),
    ("2^64 - 1 objects of a base type", 3, "P 01 01 00 FF*9"),
    (
        "65536 objects of a subtype: 3 before 21",
        3,
        "P 02 01 00 01 00 00 02 01 00 80 80 04",
    ),
    (
        "2^64 - 1 objects of a subtype: 3 before 21",
        3,
        "P 02 01 00 01 00 00 02 01 05 FF*9",
    ),
    (
        "65535 objects of a subtype: 21",
        21,
        "P 02 01 00 01 00 00 02 01 00 FF FF 03",
    ),
    (
        "subtypes' counts are not added: 65535 of a base type and below it",
        0,
        "P 02 01 00 FF FF 03 00 00 02 01 00 FF FF 03 00 00",
    ),
    (
        "subtypes' counts are not added: 1 below 65535",
        0,
        "P 02 01 00 FF FF 03 00 00 02 01 FE FF 03 01 00 00",
    ),
    (
        "subtypes' counts are not added to a later base type's",
        0,
        "P 03 01 00 02 00 00 02 01 00 02 00 00 03 00 FD FF 03 00 00",
    ),
    (
        "subtypes' counts are not added to a later base type's, one more",
        3,
        "P 03 01 00 02 00 00 02 01 00 02 00 00 03 00 FE FF 03",
    ),
    (
        "two pools of 65535 together are accepted",
        0,
        "P 02 01 00 FE FF 03 00 00 02 00 01 00 00",
    ),
    (
        "two pools of 65536 together",
        3,
        "P 02 01 00 FE FF 03 00 00 02 00 02",
    ),
    (
        "three pools of 65535 together are accepted",
        0,
        "P 03 01 00 FD FF 03 00 00 02 00 01 00 00 03 00 01 00 00",
    ),
    (
        "three pools of 65536 together",
        3,
        "P 03 01 00 FD FF 03 00 00 02 00 01 00 00 03 00 02",
    ),
    (
        "three pools of 65536 together, the small one first",
        3,
        "P 03 01 00 01 00 00 02 00 01 00 00 03 00 FE FF 03",
    ),
    (
        "65535 objects in two blocks are accepted",
        0,
        "P 01 01 00 FE FF 03 00 00 00 01 01 01 00",
    ),
    (
        "65536 objects in two blocks",
        3,
        "P 01 01 00 FE FF 03 00 00 00 01 01 02",
    ),
    (
        "65536 objects in three blocks",
        3,
        "P 01 01 00 FE FF 03 00 00 00 01 01 01 00 00 01 01 01",
    ),
    (
        "65536 objects in two pools and two blocks",
        3,
        "P 01 01 00 FF FF 03 00 00 00 01 02 00 01",
    ),
    (
        "no objects where 65535 are there",
        0,
        "P 01 01 00 FF FF 03 00 00 00 02 01 00 00 02 00 00 00 00",
    ),
    (
        "65535 and 65535: no sum wraps",
        3,
        "P 02 01 00 FF FF 03 00 00 02 00 FF FF 03",
    ),
];

/// How many values a new field has says how many objects are counted.
const COUNTED: &[Row] = &[
    ("a type's objects include those below it", 0, "P 03 01 00 03 00 01 00 07 01 03 02 01 01 02 00 01 00 07 01 05 03 02 02 01 00 01 00 07 01 06 010203 0405 06"),
    ("a type's objects are those of all blocks", 0, "P 02 01 00 02 00 00 02 01 00 01 00 00 00 02 01 03 00 02 00 02 00 00 02 01 00 01 00 07 01 05 02 00 00 01 00 07 01 08 0102030405 060708"),
    ("a type's objects are not its super type's", 12, "P 02 01 00 02 00 00 02 01 00 01 00 01 00 07 01 02 0102"),
    ("a type's objects are not its super type's of an earlier block", 12, "P 02 01 00 02 00 00 02 01 00 01 00 00 00 02 01 02 00 02 00 01 01 00 07 01 03 010203"),
    ("a type's objects are not another pool's", 0, "P 02 01 00 02 00 00 02 00 01 00 01 00 07 01 01 05"),
    ("a new field's chunk has a value for each object, this block included", 0, "P 01 01 00 02 00 00 00 01 01 01 01 00 07 01 03 010203"),
    ("a new field's chunk has a value for each object: one missing", 12, "P 01 01 00 02 00 00 00 01 01 01 01 00 07 01 02 0102"),
    ("a new field's chunk has a value for each object: one too many", 12, "P 01 01 00 02 00 00 00 01 01 01 01 00 07 01 04 01020304"),
    ("a known field's chunk has a value for each object added", 0, "P 01 01 00 02 00 01 00 07 01 02 0102 00 01 01 03 01 03 030405"),
    ("a known field's chunk has a value for each object added: one missing", 12, "P 01 01 00 02 00 01 00 07 01 02 0102 00 01 01 03 01 02 0304"),
    ("a known field's chunk has a value for each object added: one too many", 12, "P 01 01 00 02 00 01 00 07 01 02 0102 00 01 01 03 01 05 0304050607"),
    ("a known field of a subtype: the objects added to it", 0, "P 02 01 00 02 00 00 02 01 00 02 00 01 00 07 01 02 0102 00 02 01 03 00 02 01 01 01 01 05"),
    ("known and new fields of one entry in a third block", 0, "P 01 01 00 01 00 01 00 07 01 01 01 00 01 01 02 01 02 0203 00 01 01 01 02 01 00 07 02 05 04 05060708"),
];
