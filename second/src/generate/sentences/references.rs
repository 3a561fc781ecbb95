//! References: the object's number in its base pool, and of which type it is.

use super::{ruled, Row};
use crate::generate::Case;

pub fn cases() -> Vec<Case> {
    ruled(&[POOL, TYPE, REACH])
}

const POOL: &[Row] = &[
    ("0, the first and the last object", 0, "Q 01 01 00 03 00 01 00 20 01 03 00 01 03"),
    ("one past the last object", 14, "Q 01 01 00 03 00 01 00 20 01 03 00 01 04"),
    ("the number is unsigned: 2^64 - 1", 14, "Q 01 01 00 01 00 01 00 20 01 09 FF*9"),
    ("the number is unsigned: 2^63", 14, "Q 01 01 00 01 00 01 00 20 01 09 80*9"),
    ("for one reference: 12 before 14", 12, "Q 01 01 00 01 00 01 00 20 01 01 82"),
    ("a padded reference has its value: no object", 14, "Q 01 01 00 01 00 01 00 20 01 02 82 00"),
    ("32 + n is the type declared n-th, whatever its string's number", 0, "P 02 05 00 01 00 02 00 20 01 01 00 21 02 02 03 00 02 00 00 01 02"),
    ("32 + n is the type declared n-th: past the first's objects", 14, "P 02 05 00 01 00 02 00 20 01 01 00 21 02 02 03 00 02 00 00 02 02"),
    ("32 + n is the type declared n-th, not the n-th entry of the block", 14, "Q 02 01 00 01 00 00 02 00 02 00 00 00 02 02 00 01 00 20 01 02 01 00 00 00 02"),
    ("32 + n is the type declared n-th: a later block's", 0, "P 02 01 00 01 00 00 02 00 01 00 00 00 01 03 00 03 00 01 00 22 01 03 01 02 03"),
    ("32 + n is the type declared n-th: entries of known types are not counted", 0, "Q 01 01 00 01 00 00 00 02 01 01 00 02 00 02 00 01 00 21 01 02 01 02"),
    ("pools stay apart: another pool's objects do not count", 14, "Q 02 01 00 03 00 00 02 00 01 00 01 00 21 01 01 02"),
    ("pools stay apart: both begin at 1", 0, "Q 02 01 00 03 00 01 00 21 01 03 02 00 01 00 01 00 20 01 04 01 00 01 03"),
    ("a pool's objects are numbered block after block: the first block's", 0, "Q 01 01 00 02 00 00 00 01 01 03 01 00 20 01 05 01 02 03 04 05"),
    ("a pool's objects are numbered block after block: past the last block's", 14, "Q 01 01 00 02 00 00 00 01 01 03 01 00 20 01 05 01 02 03 04 06"),
    ("a pool's objects are numbered block after block: other pools' are not before it", 0, "P 02 01 00 02 00 00 02 00 04 00 00 00 02 02 02 00 01 01 01 00 20 01 03 01 02 03"),
    ("a pool's objects are numbered block after block: past it, where other pools have more", 14, "P 02 01 00 02 00 00 02 00 04 00 00 00 02 02 02 00 01 01 01 00 20 01 03 01 02 04"),
    ("a pool's objects are numbered block after block: those below the base are not counted twice", 0, "P 02 01 00 02 00 00 02 01 00 02 00 00 00 02 01 02 00 02 01 01 01 00 21 01 03 01 02 04"),
    ("a pool's objects are numbered block after block: a third block's subtype", 0, "P 02 01 00 02 00 00 02 01 00 00 00 00 00 01 01 03 00 00 02 01 02 00 02 01 01 01 00 21 01 01 07"),
    ("a pool's objects are numbered block after block: one before a third block's subtype", 14, "P 02 01 00 02 00 00 02 01 00 00 00 00 00 01 01 03 00 00 02 01 02 00 02 01 01 01 00 21 01 01 06"),
];

const TYPE: &[Row] = &[
    ("a subtype's objects by their numbers in the base pool", 0, "Q 02 01 00 04 00 01 00 21 01 04 02 01 01 02 00 00 02 03 00 02"),
    ("one before the subtype's first", 14, "Q 02 01 00 04 00 01 00 21 01 04 02 01 01 02 00 00 01 00 00 00"),
    ("one past the subtype's last", 14, "Q 02 01 00 04 00 01 00 21 01 04 02 01 01 02 00 00 04 00 00 00"),
    ("the object is of that type or below it", 0, "Q 02 01 00 03 00 01 00 20 01 03 02 01 01 02 00 00 01 02 03"),
    ("the object is of that type or below it: two below", 0, "P 03 01 00 03 00 01 00 21 01 03 02 01 01 02 00 00 03 02 02 01 00 00 02 03 03"),
    ("the object is of that type or below it: not one above", 14, "P 03 01 00 03 00 01 00 22 01 03 02 01 01 02 00 00 03 02 02 01 00 00 03 03 02"),
    ("the object is of that type or below it: not a sibling's", 14, "P 03 01 00 02 00 01 00 21 01 02 02 01 00 01 00 00 03 01 01 01 00 00 01 02"),
    ("a type with no objects takes 0", 0, "Q 02 01 00 01 00 01 00 21 01 01 02 00 00 00 00 00"),
    ("a type with no objects takes no 1", 14, "Q 02 01 00 01 00 01 00 21 01 01 02 00 00 00 00 01"),
    ("a subtype with no objects takes no 1", 14, "Q 02 01 00 01 00 01 00 21 01 01 02 01 00 00 00 00 01"),
    ("a subtype's ranges of two blocks: of both", 0, "Q 02 01 00 02 00 00 02 01 01 01 00 00 00 02 01 02 01 00 21 01 04 02 00 01 00 02 03 00 02"),
    ("a subtype's ranges of two blocks: before the first", 14, "Q 02 01 00 02 00 00 02 01 01 01 00 00 00 02 01 02 01 00 21 01 04 02 00 01 00 01 03 00 02"),
    ("a subtype's ranges of two blocks: behind the last", 14, "Q 02 01 00 02 00 00 02 01 01 01 00 00 00 02 01 02 01 00 21 01 04 02 00 01 00 02 03 00 04"),
    ("a subtype's ranges of two blocks: between them", 14, "Q 02 01 00 02 00 00 02 01 00 01 00 00 00 02 01 02 01 00 21 01 04 02 00 01 00 01 03 00 02"),
    ("a subtype's ranges of three blocks: of the one between", 0, "Q 02 01 00 01 00 00 02 01 00 01 00 00 00 02 01 02 00 02 01 01 00 00 02 01 02 00 02 01 01 01 00 21 01 03 01 03 05"),
    ("two below the base in a later block: numbers of the base pool, not of the one above", 0, "P 03 01 00 03 00 00 02 01 02 01 00 00 03 02 02 01 00 00 00 03 01 03 00 02 01 02 00 03 02 01 01 00 22 01 02 03 06"),
    ("two below the base in a later block: not counted from the one above", 14, "P 03 01 00 03 00 00 02 01 02 01 00 00 03 02 02 01 00 00 00 03 01 03 00 02 01 02 00 03 02 01 01 00 22 01 02 03 04"),
];

const REACH: &[Row] = &[
    ("objects of a later entry of the block", 0, "Q 02 01 00 01 00 01 00 21 01 01 02 00 02 00 00 02"),
    ("past the objects of a later entry of the block", 14, "Q 02 01 00 01 00 01 00 21 01 01 02 00 02 00 00 03"),
    ("object numbers reach as far as this pair: not the next one's", 14, "Q 01 01 00 01 00 01 00 20 01 01 02 00 01 01 01 01 01 01"),
    ("object numbers reach as far as this pair: an earlier one's", 0, "Q 01 01 00 01 00 01 00 20 01 01 00 00 01 01 01 01 01 01"),
    ("object numbers reach as far as this pair: this one's, in a known field", 0, "Q 01 01 00 01 00 01 00 20 01 01 00 00 01 01 01 01 01 02"),
    ("object numbers reach as far as this pair: past this one's, in a known field", 14, "Q 01 01 00 01 00 01 00 20 01 01 00 00 01 01 01 01 01 03"),
    ("object numbers reach as far as this pair: a later entry's, in a known field", 0, "Q 02 01 00 01 00 01 00 21 01 01 02 00 00 00 00 00 00 02 01 01 01 01 02 03 00 03"),
    ("elements of arrays are references too", 0, "Q 02 01 00 02 00 02 00 11 21 01 05 00 0F 02 21 02 09 02 01 01 01 00 00 02 02 00 01 02 00 00 02 02"),
    ("a wrong element of an array", 14, "Q 02 01 00 02 00 02 00 11 21 01 05 00 0F 02 21 02 09 02 01 01 01 00 00 02 02 00 01 01 00 00 02 02"),
    ("a wrong element of a fixed array", 14, "Q 02 01 00 02 00 02 00 11 21 01 05 00 0F 02 21 02 09 02 01 01 01 00 00 02 02 00 01 02 00 00 02 01"),
    ("the first wrong reference is the place", 14, "Q 01 01 00 03 00 01 00 20 01 03 01 05 06"),
];
