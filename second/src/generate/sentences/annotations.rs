//! Annotations, kind 5: the string number of the base type's name and the
//! object's number, held to their rules after the second.

use super::{ruled, Row};
use crate::generate::Case;

pub fn cases() -> Vec<Case> {
    ruled(&[NUMBERS, ORDER, ARRAYS, NAMES, REACH, POOL])
}

/// Two v64, both 0 or neither.
const NUMBERS: &[Row] = &[
    (
        "the name's string number and then the object's number",
        0,
        "Q 01 01 00 03 00 01 00 05 01 [ 0103 0101 0102 ]",
    ),
    (
        "the name's string number is not the second",
        14,
        "Q 01 01 00 02 00 01 00 05 01 [ 0101 0201 ]",
    ),
    (
        "00 00 is null",
        0,
        "Q 01 01 00 02 00 01 00 05 01 [ 0000 0000 ]",
    ),
    (
        "null is a value like others: behind it the next",
        0,
        "Q 01 01 00 03 00 01 00 05 01 [ 0000 0103 0000 ]",
    ),
    (
        "half-null: a name and no object",
        14,
        "Q 01 01 00 01 00 01 00 05 01 [ 0100 ]",
    ),
    (
        "half-null: an object and no name",
        14,
        "Q 01 01 00 01 00 01 00 05 01 [ 0001 ]",
    ),
    (
        "half-null: a string that names no type, and no object",
        14,
        "Q 01 01 00 01 00 01 00 05 01 [ 0200 ]",
    ),
    (
        "half-null: a string number past the strings, and no object",
        14,
        "Q 01 01 00 01 00 01 00 05 01 [ 0300 ]",
    ),
    (
        "half-null: an object that is not there, and no name",
        14,
        "Q 01 01 00 01 00 01 00 05 01 [ 0002 ]",
    ),
    (
        "half-null: object 2^63 and no name",
        14,
        "Q 01 01 00 01 00 01 00 05 01 [ 00 80*9 ]",
    ),
    (
        "half-null: object 2^64 - 1 and no name",
        14,
        "Q 01 01 00 01 00 01 00 05 01 [ 00 FF*9 ]",
    ),
    (
        "half-null: string 2^64 - 1 and no object",
        14,
        "Q 01 01 00 01 00 01 00 05 01 [ FF*9 00 ]",
    ),
    (
        "half-null: the second of three",
        14,
        "Q 01 01 00 03 00 01 00 05 01 [ 0101 0100 0102 ]",
    ),
    (
        "a string number past the strings",
        14,
        "Q 01 01 00 01 00 01 00 05 01 [ 0301 ]",
    ),
    (
        "the string number is unsigned: 2^63",
        14,
        "Q 01 01 00 01 00 01 00 05 01 [ 80*9 01 ]",
    ),
    (
        "the string number is unsigned: 2^64 - 1",
        14,
        "Q 01 01 00 01 00 01 00 05 01 [ FF*9 01 ]",
    ),
    (
        "all 64 bits of the string number count: 2^32 + 1",
        14,
        "Q 01 01 00 01 00 01 00 05 01 [ 81 80 80 80 10 01 ]",
    ),
    (
        "the object number is unsigned: 2^63",
        14,
        "Q 01 01 00 01 00 01 00 05 01 [ 01 80*9 ]",
    ),
    (
        "the object number is unsigned: 2^64 - 1",
        14,
        "Q 01 01 00 01 00 01 00 05 01 [ 01 FF*9 ]",
    ),
    (
        "all 64 bits of the object number count: 2^32 + 1",
        14,
        "Q 01 01 00 01 00 01 00 05 01 [ 01 81 80 80 80 10 ]",
    ),
    (
        "both numbers are 2^64 - 1",
        14,
        "Q 01 01 00 01 00 01 00 05 01 [ FF*9 FF*9 ]",
    ),
];

/// Number by number, and 14 after the second for every fault.
const ORDER: &[Row] = &[
    (
        "the first number is due",
        12,
        "Q 01 01 00 01 00 01 00 05 01 00",
    ),
    (
        "the second number is due",
        12,
        "Q 01 01 00 01 00 01 00 05 01 [ 01 ]",
    ),
    (
        "the first number crosses the chunk's end",
        12,
        "Q 01 01 00 01 00 01 00 05 01 [ 81 ]",
    ),
    (
        "the second number crosses the chunk's end",
        12,
        "Q 01 01 00 01 00 01 00 05 01 [ 01 81 ]",
    ),
    (
        "a first number of nine bytes crosses the chunk's end",
        12,
        "Q 01 01 00 01 00 01 00 05 01 [ FF*8 ]",
    ),
    (
        "a second number of nine bytes crosses the chunk's end",
        12,
        "Q 01 01 00 01 00 01 00 05 01 [ 01 FF*8 ]",
    ),
    (
        "a string number past the strings, the second number due: 12",
        12,
        "Q 01 01 00 01 00 01 00 05 01 [ 03 ]",
    ),
    (
        "a string number past the strings, the second number cut: 12",
        12,
        "Q 01 01 00 01 00 01 00 05 01 [ 03 81 ]",
    ),
    (
        "a string number of 2^64 - 1, the second number due: 12",
        12,
        "Q 01 01 00 01 00 01 00 05 01 [ FF*9 ]",
    ),
    (
        "a string that names no type, the second number due: 12",
        12,
        "Q 01 01 00 01 00 01 00 05 01 [ 02 ]",
    ),
    (
        "a string that names no type, the second number cut: 12",
        12,
        "Q 01 01 00 01 00 01 00 05 01 [ 02 80 ]",
    ),
    (
        "a null name, the second number cut: 12",
        12,
        "Q 01 01 00 01 00 01 00 05 01 [ 00 81 ]",
    ),
    (
        "the first number is padded",
        0,
        "Q 01 01 00 01 00 01 00 05 01 [ 81 00 01 ]",
    ),
    (
        "the second number is padded",
        0,
        "Q 01 01 00 01 00 01 00 05 01 [ 01 81 00 ]",
    ),
    (
        "the first number is padded, the second due: 12",
        12,
        "Q 01 01 00 01 00 01 00 05 01 [ 81 00 ]",
    ),
    (
        "a string number past the strings, the second number padded: 14",
        14,
        "Q 01 01 00 01 00 01 00 05 01 [ 03 81 00 ]",
    ),
    (
        "a padded second number of 0 is half-null: 14",
        14,
        "Q 01 01 00 01 00 01 00 05 01 [ 01 80 00 ]",
    ),
    (
        "a left-over byte",
        12,
        "Q 01 01 00 01 00 01 00 05 01 [ 0101 00 ]",
    ),
    (
        "a wrong one comes before a left-over byte",
        14,
        "Q 01 01 00 01 00 01 00 05 01 [ 0102 00 ]",
    ),
    (
        "a wrong one comes before a missing one",
        14,
        "Q 01 01 00 02 00 01 00 05 01 [ 0103 ]",
    ),
    (
        "a wrong one comes before a cut one",
        14,
        "Q 01 01 00 02 00 01 00 05 01 [ 0103 81 ]",
    ),
    (
        "the second one is missing",
        12,
        "Q 01 01 00 02 00 01 00 05 01 [ 0101 ]",
    ),
    (
        "the second one's second number is missing",
        12,
        "Q 01 01 00 02 00 01 00 05 01 [ 0101 01 ]",
    ),
    (
        "the first wrong one is the place",
        14,
        "Q 01 01 00 03 00 01 00 05 01 [ 0101 0104 0301 ]",
    ),
];

/// An element kind.
const ARRAYS: &[Row] = &[
    (
        "a fixed array of annotations",
        0,
        "Q 01 01 00 02 00 01 00 0F 02 05 01 [ 0101 0000 0000 0102 ]",
    ),
    (
        "a fixed array of no annotations",
        0,
        "Q 01 01 00 02 00 01 00 0F 00 05 01 00",
    ),
    (
        "an array of annotations",
        0,
        "Q 01 01 00 02 00 01 00 11 05 01 [ 02 0101 0000 00 ]",
    ),
    (
        "a list of annotations",
        0,
        "Q 01 01 00 02 00 01 00 12 05 01 [ 00 01 0102 ]",
    ),
    (
        "a set of annotations is not searched for repeats",
        0,
        "Q 01 01 00 01 00 01 00 13 05 01 [ 03 0101 0101 0101 ]",
    ),
    (
        "a length counts annotations and not numbers: one is missing",
        12,
        "Q 01 01 00 01 00 01 00 11 05 01 [ 02 0101 ]",
    ),
    (
        "a length counts annotations and not numbers: one is left over",
        12,
        "Q 01 01 00 01 00 01 00 11 05 01 [ 01 0101 0101 ]",
    ),
    (
        "a fixed length counts annotations and not numbers",
        12,
        "Q 01 01 00 01 00 01 00 0F 02 05 01 [ 0101 ]",
    ),
    (
        "an element's first number is missing",
        12,
        "Q 01 01 00 01 00 01 00 12 05 01 [ 01 ]",
    ),
    (
        "an element's second number is missing",
        12,
        "Q 01 01 00 01 00 01 00 12 05 01 [ 02 0101 01 ]",
    ),
    (
        "an element's second number is cut",
        12,
        "Q 01 01 00 01 00 01 00 13 05 01 [ 01 01 81 ]",
    ),
    (
        "a wrong element of an array",
        14,
        "Q 01 01 00 01 00 01 00 11 05 01 [ 02 0101 0102 ]",
    ),
    (
        "a wrong element of a fixed array's second value",
        14,
        "Q 01 01 00 02 00 01 00 0F 02 05 01 [ 0101 0000 0102 0103 ]",
    ),
    (
        "a half-null element of a set",
        14,
        "Q 01 01 00 01 00 01 00 13 05 01 [ 02 0000 0100 ]",
    ),
    (
        "before a missing element: 14",
        14,
        "Q 01 01 00 01 00 01 00 12 05 01 [ 03 0101 0201 ]",
    ),
    (
        "before a cut element: 14",
        14,
        "Q 01 01 00 01 00 01 00 12 05 01 [ 02 0201 01 ]",
    ),
];

/// The name is a base type's, compared by bytes.
const NAMES: &[Row] = &[
    (
        "a subtype's objects by the base type's name",
        0,
        "Q 02 01 00 02 00 01 00 05 01 04 02 01 00 02 00 00 0101 0102",
    ),
    (
        "the name is no subtype's",
        14,
        "Q 02 01 00 02 00 01 00 05 01 04 02 01 00 02 00 00 0101 0201",
    ),
    (
        "the name is no subtype's: two below",
        14,
        "P 03 01 00 01 00 01 00 05 01 02 02 01 00 01 00 00 03 02 00 01 00 00 0301",
    ),
    (
        "the name is no subtype's: half-null as well",
        14,
        "Q 02 01 00 02 00 01 00 05 01 04 02 01 00 02 00 00 0200 0000",
    ),
    (
        "the name is no field's",
        14,
        "Q 01 01 00 01 00 01 00 05 02 02 0201",
    ),
    (
        "the name is the last string's",
        0,
        "Q 01 02 00 01 00 01 00 05 01 02 0201",
    ),
    (
        "the name's string number is not the type's: the second type by string 3",
        0,
        "P 02 05 00 01 00 01 00 05 01 02 03 00 02 00 00 0302",
    ),
    (
        "the name's string number is not the type's: string 2",
        14,
        "P 02 05 00 01 00 01 00 05 01 02 03 00 02 00 00 0201",
    ),
    (
        "any string of the name's bytes will do: a later one",
        0,
        "03 00000001 00000002 00000003 616261 01 01 00 01 00 01 00 05 02 02 0301",
    ),
    (
        "any string of the name's bytes will do: an earlier one",
        0,
        "03 00000001 00000002 00000003 616261 01 03 00 01 00 01 00 05 02 02 0101",
    ),
    (
        "any string of the name's bytes will do: a later pair's",
        0,
        "Q 01 01 00 01 00 01 00 05 02 02 0101 01 00000001 61 01 01 01 01 02 0302",
    ),
    (
        "no string of a later pair",
        14,
        "Q 01 01 00 01 00 01 00 05 01 02 0301 01 00000001 61 00",
    ),
    (
        "the front of a name is no name",
        14,
        "02 00000002 00000003 6162 61 01 01 00 01 00 01 00 05 01 02 0201",
    ),
    (
        "a name with a byte more is another",
        14,
        "02 00000001 00000003 61 6162 01 01 00 01 00 01 00 05 01 02 0201",
    ),
    (
        "the empty string may be the name",
        0,
        "01 00000000 01 01 00 01 00 01 00 05 01 02 0101",
    ),
    (
        "the empty string is no name of another",
        14,
        "02 00000000 00000001 61 01 02 00 01 00 01 00 05 02 02 0101",
    ),
];

/// Types and objects as far as this pair.
const REACH: &[Row] = &[
    (
        "a type of a later entry of the block",
        0,
        "Q 02 01 00 01 00 01 00 05 01 02 02 00 02 00 00 0202",
    ),
    (
        "past the objects of a later entry of the block",
        14,
        "Q 02 01 00 01 00 01 00 05 01 02 02 00 02 00 00 0203",
    ),
    (
        "an object that a later entry of the block adds to a known type",
        0,
        "Q 02 01 00 01 00 00 02 00 01 00 00 00 02 01 01 01 00 05 01 04 02 01 00 0202 0101",
    ),
    (
        "past what a later entry of the block adds to a known type",
        14,
        "Q 02 01 00 01 00 00 02 00 01 00 00 00 02 01 01 01 00 05 01 04 02 01 00 0203 0101",
    ),
    (
        "a type of the next pair",
        14,
        "Q 01 01 00 01 00 01 00 05 01 02 0201 00 01 02 00 01 00 00",
    ),
    (
        "a type of an earlier pair that has no entry in this one",
        0,
        "Q 01 01 00 03 00 00 00 01 02 00 01 00 01 00 05 01 02 0103",
    ),
    (
        "past the objects of an earlier pair",
        14,
        "Q 01 01 00 03 00 00 00 01 02 00 01 00 01 00 05 01 02 0104",
    ),
    (
        "a type without objects",
        14,
        "Q 02 01 00 01 00 01 00 05 01 02 02 00 00 00 00 0201",
    ),
    (
        "a type that gets its objects in the next pair",
        14,
        "Q 02 01 00 01 00 01 00 05 01 02 02 00 00 00 00 0201 00 01 02 01 00",
    ),
    (
        "a known field's: this pair's objects and earlier ones",
        0,
        "Q 01 01 00 01 00 01 00 05 02 02 0000 00 01 01 02 01 04 0103 0101",
    ),
    (
        "a known field's: past this pair's objects",
        14,
        "Q 01 01 00 01 00 01 00 05 02 02 0000 00 01 01 02 01 04 0103 0104",
    ),
    (
        "a known field's: a type that is new in this pair",
        0,
        "Q 01 01 00 01 00 01 00 05 02 02 0000 00 02 01 01 01 02 02 00 01 00 00 0201",
    ),
    (
        "a known field's array: a type that is new in this pair",
        0,
        "Q 01 01 00 01 00 01 00 11 05 02 01 00 00 02 01 01 01 03 02 00 01 00 00 01 0201",
    ),
    (
        "a late field's: a value for each object so far",
        0,
        "Q 01 01 00 01 00 00 00 01 01 01 01 00 05 02 04 0102 0101",
    ),
    (
        "a late field's: this block's value alone",
        12,
        "Q 01 01 00 01 00 00 00 01 01 01 01 00 05 02 02 0102",
    ),
];

/// The object's number counts in the base pool.
const POOL: &[Row] = &[
    ("pools stay apart: past the named one's", 14, "Q 02 01 00 03 00 00 02 00 01 00 01 00 05 01 02 0202"),
    ("pools stay apart: the same number in the other", 0, "Q 02 01 00 03 00 00 02 00 01 00 01 00 05 01 02 0102"),
    ("objects are numbered block after block", 0, "Q 01 01 00 02 00 00 00 01 01 03 01 00 05 01 0A 0101 0102 0103 0104 0105"),
    ("objects are numbered block after block: past the last", 14, "Q 01 01 00 02 00 00 00 01 01 03 01 00 05 01 0A 0101 0102 0103 0104 0106"),
    ("objects of other pools are not counted", 14, "P 02 01 00 02 00 00 02 00 04 00 00 00 02 02 02 00 01 01 01 00 05 01 06 0101 0102 0104"),
    ("objects below the base are not counted twice", 14, "P 02 01 00 02 00 00 02 01 00 02 00 00 00 02 01 01 01 00 05 01 06 02 00 01 00 0103 0203 0104"),
    ("an object number of two bytes", 0, "Q 01 01 00 80 01 00 00 00 01 02 00 01 00 01 00 05 01 03 01 80 01"),
    ("an object number of two bytes, one too far", 14, "Q 01 01 00 80 01 00 00 00 01 02 00 01 00 01 00 05 01 03 01 81 01"),
];
