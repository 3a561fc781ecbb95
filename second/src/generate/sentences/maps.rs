//! Maps, kind 20: a number of types, that many element kinds; a value is a
//! size and so many keys, each with what it leads to.

use super::{ruled, Row};
use crate::generate::Case;

pub fn cases() -> Vec<Case> {
    ruled(&[TYPES, LATE, SHAPE, SIZES, INNER, ELEMENTS, LINKS, PAIRS])
}

/// The number of types and the element kinds, each tested at its number.
const TYPES: &[Row] = &[
    ("the number of types is due", 1, "Q 01 01 00 00 00 01 00 14"),
    ("the number of types is cut", 1, "Q 01 01 00 00 00 01 00 14 82"),
    ("no types, at their number", 10, "Q 01 01 00 00 00 01 00 14 00"),
    ("1 type, at the number", 10, "Q 01 01 00 00 00 01 00 14 01"),
    ("1 type, with an element kind behind it", 10, "Q 01 01 00 00 00 01 00 14 01 06 01 00"),
    ("9 types, at the number", 10, "Q 01 01 00 00 00 01 00 14 09"),
    ("9 types, before an element kind that is none", 10, "Q 01 01 00 00 00 01 00 14 09 10"),
    ("9 types, with their element kinds behind them", 10, "Q 01 01 00 00 00 01 00 14 09 06*9 01 00"),
    ("258 types are not 2", 10, "Q 01 01 00 00 00 01 00 14 82 02 06 06 01 00"),
    ("2^32 + 2 types are not 2", 10, "Q 01 01 00 00 00 01 00 14 82 80 80 80 10 06 06 01 00"),
    ("2^63 types: 10 at that number", 10, "Q 01 01 00 00 00 01 00 14 80*9"),
    ("2^64 - 1 types: 10 at that number", 10, "Q 01 01 00 00 00 01 00 14 FF*9"),
    ("a padded number of types: 1 is none", 10, "Q 01 01 00 00 00 01 00 14 81 00"),
    ("a padded number of types: 2", 0, "Q 01 01 00 00 00 01 00 14 82 00 06 06 01 00"),
    ("2 to 8 types", 0, "S7 01 01 00 00 00 07 00 14 02 06*2 01 00 00 14 03 07*3 02 00 00 14 04 08*4 03 00 00 14 05 09*5 04 00 \
        00 14 06 0A*6 05 00 00 14 07 0B*7 06 00 00 14 08 0C*8 07 00"),
    ("the first element kind is due", 1, "Q 01 01 00 00 00 01 00 14 02"),
    ("the second element kind is due", 1, "Q 01 01 00 00 00 01 00 14 02 06"),
    ("the third of three element kinds is due", 1, "Q 01 01 00 00 00 01 00 14 03 06 06"),
    ("the eighth of eight element kinds is due", 1, "Q 01 01 00 00 00 01 00 14 08 06*7"),
    ("behind two element kinds stands the name", 5, "Q 01 01 00 00 00 01 00 14 02 06 06 06 00"),
    ("behind eight element kinds stands the name", 5, "Q 01 01 00 00 00 01 00 14 08 06*8 06 00"),
    ("a key's kind that is none, before the next is due", 10, "Q 01 01 00 00 00 01 00 14 02 14"),
    ("a value's kind that is none", 10, "Q 01 01 00 00 00 01 00 14 02 06 14"),
    ("the third of four element kinds is none", 10, "Q 01 01 00 00 00 01 00 14 04 06 06 11 06 01 00"),
    ("the eighth of eight element kinds is none", 10, "Q 01 01 00 00 00 01 00 14 08 05*7 0F 01 00"),
    ("the first of two that are none is the place", 10, "Q 01 01 00 00 00 01 00 14 03 06 10 1F 01 00"),
    ("a padded element kind: 20 is none", 10, "Q 01 01 00 00 00 01 00 14 02 06 94 00"),
    ("a map's element kind that is none before a falling end", 10, "P 01 01 00 00 00 02 00 0B 01 02 00 14 02 06 10 02 01"),
];

/// Element kinds from 32 upwards are tested behind the region, each on its
/// own.
const LATE: &[Row] = &[
    (
        "a key's type that is not there",
        10,
        "Q 01 01 00 01 00 01 00 14 02 21 06 01 01 00",
    ),
    (
        "a value's type that is not there",
        10,
        "Q 01 01 00 01 00 01 00 14 02 20 21 01 01 00",
    ),
    (
        "the first of two that are not there is the place",
        10,
        "Q 01 01 00 01 00 01 00 14 02 22 21 01 01 00",
    ),
    (
        "the second of three is not there",
        10,
        "Q 01 01 00 01 00 01 00 14 03 20 21 20 01 01 00",
    ),
    (
        "the last of eight is not there, where no value is read",
        10,
        "Q 01 01 00 00 00 01 00 14 08 20*7 21 01 00",
    ),
    (
        "behind a type that is not there an element kind that is none",
        10,
        "Q 01 01 00 00 00 01 00 14 02 21 10",
    ),
    (
        "one in a map, then one of a plain field: the first is the place",
        10,
        "Q 01 01 00 00 00 02 00 14 02 06 23 01 00 00 22 02 00",
    ),
    (
        "one of a plain field, then one in a map: the first is the place",
        10,
        "Q 01 01 00 00 00 02 00 21 01 00 00 14 02 06 23 02 00",
    ),
    (
        "in the second of two maps",
        10,
        "Q 01 01 00 00 00 02 00 14 02 20 20 01 00 00 14 02 20 21 02 00",
    ),
    (
        "in the second of two entries",
        10,
        "Q 02 01 00 00 00 01 00 14 02 21 21 01 00 02 00 00 00 01 00 14 02 06 22 01 00",
    ),
    (
        "an element kind of 255",
        10,
        "Q 01 01 00 00 00 01 00 14 02 FF 01 06 01 00",
    ),
    (
        "an element kind of 256 + 6 is none of 6",
        10,
        "Q 01 01 00 00 00 01 00 14 02 06 86 02 01 00",
    ),
    (
        "an element kind of 2^32 + 32 is none of 32",
        10,
        "Q 01 01 00 00 00 01 00 14 02 06 A0 80 80 80 10 01 00",
    ),
    (
        "an element kind of 2^63",
        10,
        "Q 01 01 00 00 00 01 00 14 02 80*9 06 01 00",
    ),
    (
        "an element kind of 2^64 - 1",
        10,
        "Q 01 01 00 00 00 01 00 14 02 06 FF*9 01 00",
    ),
    (
        "2^64 - 1 is not tested before the name",
        5,
        "Q 01 01 00 00 00 01 00 14 02 FF*9 06 00",
    ),
    (
        "2^64 - 1 is not tested before the region",
        1,
        "Q 01 01 00 00 00 01 00 14 02 06 FF*9 01 05",
    ),
    (
        "a type that is not there comes before the values",
        10,
        "Q 01 01 00 01 00 02 00 06 01 01 00 14 02 06 21 02 02 01 00",
    ),
    (
        "types of later entries of the block",
        0,
        "P 03 01 00 01 00 01 00 14 03 21 06 22 01 05 02 00 01 00 00 03 00 02 00 00 01 01 01 FF 02",
    ),
    (
        "a type of the next pair",
        10,
        "Q 01 01 00 01 00 01 00 14 02 21 06 01 01 00 00 01 02 00 01 00 00",
    ),
];

/// Counted keys, each followed by what it leads to.
const SHAPE: &[Row] = &[
    ("a size, and for each key the key and then its value", 0, "Q 01 01 00 02 00 01 00 14 02 06 08 01 [ 02 FF 0001 00 8000 00 ]"),
    ("empty maps", 0, "Q 01 01 00 03 00 01 00 14 02 06 08 01 [ 00 00 00 ]"),
    ("not the keys first and then the values", 13, "Q 01 01 00 01 00 01 00 14 02 06 07 01 [ 02 FF FF 05 06 ]"),
    ("three types: each key is followed by a map of the other two", 0, "Q 01 01 00 01 00 01 00 14 03 06 07 08 01 [ 02 FF 01 05 0006 00 00 ]"),
    ("three types: an inner size for each key", 12, "Q 01 01 00 01 00 01 00 14 03 06 07 08 01 [ 02 FF 01 05 0006 00 ]"),
    ("three types: not one size for all", 12, "Q 01 01 00 01 00 01 00 14 03 07 07 07 01 [ 01 05 06 07 ]"),
    ("three types: inner maps of different sizes", 0, "Q 01 01 00 02 00 01 00 14 03 07 07 07 01 [ 03 01 00 02 02 03 04 05 06 07 01 08 09 01 0A 00 ]"),
    ("three types: the kinds in their order", 13, "Q 01 01 00 01 00 01 00 14 03 06 07 06 01 [ 01 00 01 00 05 ]"),
    ("four types", 0, "Q 01 01 00 01 00 01 00 14 04 06 07 08 06 01 [ 01 FF 01 05 02 0006 FF 0007 00 ]"),
    ("four types: the third size is the third map's", 12, "Q 01 01 00 01 00 01 00 14 04 07 07 07 07 01 [ 01 02 01 03 02 04 05 ]"),
    ("eight types, a size before each key and one value", 0, "Q 01 01 00 01 00 01 00 14 08 07*8 01 [ 01 01 01 02 01 03 01 04 01 05 01 06 01 07 08 ]"),
    ("eight types, a size of 0 ends a map at each depth", 0, "Q 01 01 00 03 00 01 00 14 08 07*8 01 [ 00 01 05 00 02 06 01 07 01 08 01 09 00 0A 00 ]"),
    ("eight types, the value is missing", 12, "Q 01 01 00 01 00 01 00 14 08 07*8 01 [ 01 01 01 02 01 03 01 04 01 05 01 06 01 07 ]"),
    ("eight types, the seventh size is missing", 12, "Q 01 01 00 01 00 01 00 14 08 07*8 01 [ 01 01 01 02 01 03 01 04 01 05 01 06 ]"),
    ("a size of two digits", 0, "Q 01 01 00 01 00 01 00 14 02 07 06 01 [ 0C 0500*12 ]"),
    ("sizes of two bytes, the outer one and an inner one", 0, "Q 01 01 00 01 00 01 00 14 03 07 07 06 01 [ 82 01 0500*129 06 81 01 0700*129 ]"),
    ("repeated keys, keys that fall", 0, "Q 01 01 00 01 00 01 00 14 02 07 06 01 [ 04 05 00 05 FF 02 00 05 00 ]"),
    ("null keys, and more than one", 0, "Q 01 01 00 01 00 01 00 14 02 0E 20 01 [ 03 00 01 00 00 00 01 ]"),
    ("a left-over byte", 12, "Q 01 01 00 01 00 01 00 14 02 06 06 01 [ 01 FF 00 00 ]"),
    ("a left-over byte behind an empty map", 12, "Q 01 01 00 01 00 01 00 14 02 06 06 01 [ 00 00 ]"),
    ("left-over bytes come behind all values", 13, "Q 01 01 00 02 00 01 00 14 02 06 06 01 [ 01 FF 00 01 01 FF 00 ]"),
    ("the second value begins behind the first", 0, "Q 01 01 00 02 00 01 00 14 02 07 07 01 [ 01 02 03 02 04 05 06 07 ]"),
];

/// The size of a value: 12, 2, 3, and then the keys.
const SIZES: &[Row] = &[
    (
        "a size is due",
        12,
        "Q 01 01 00 01 00 01 00 14 02 06 06 01 00",
    ),
    (
        "a second value's size is due",
        12,
        "Q 01 01 00 02 00 01 00 14 02 06 06 01 [ 01 FF 00 ]",
    ),
    (
        "a size crosses the chunk's end",
        12,
        "Q 01 01 00 01 00 01 00 14 02 06 06 01 [ 80 ]",
    ),
    (
        "a size that would be too large crosses the chunk's end: 12 before 3",
        12,
        "Q 01 01 00 01 00 01 00 14 02 06 06 01 [ 80 80 ]",
    ),
    (
        "a padded size",
        0,
        "Q 01 01 00 01 00 01 00 14 02 06 06 01 [ 80 00 ]",
    ),
    (
        "a padded size above 65535",
        3,
        "Q 01 01 00 01 00 01 00 14 02 06 06 01 [ FF FF FF 00 ]",
    ),
    (
        "a size of 65535: its first key is missing",
        12,
        "Q 01 01 00 01 00 01 00 14 02 06 06 01 [ FF FF 03 ]",
    ),
    (
        "a size of 65536, at the size",
        3,
        "Q 01 01 00 01 00 01 00 14 02 06 06 01 [ 80 80 04 ]",
    ),
    (
        "a size of 65536, before a wrong key",
        3,
        "Q 01 01 00 01 00 01 00 14 02 06 06 01 [ 80 80 04 01 ]",
    ),
    (
        "a size of 2^64 - 1",
        3,
        "Q 01 01 00 01 00 01 00 14 02 06 06 01 [ FF*9 ]",
    ),
    (
        "a second value's size of 65536",
        3,
        "Q 01 01 00 02 00 01 00 14 02 06 06 01 [ 01 FF 00 80 80 04 ]",
    ),
    (
        "a size counts keys and not elements: a key is missing",
        12,
        "Q 01 01 00 01 00 01 00 14 02 07 07 01 [ 02 05 06 ]",
    ),
    (
        "a size counts keys and not elements: two bytes are left over",
        12,
        "Q 01 01 00 01 00 01 00 14 02 07 07 01 [ 01 05 06 07 08 ]",
    ),
];

/// Inner sizes alike.
const INNER: &[Row] = &[
    (
        "an inner size is due",
        12,
        "Q 01 01 00 01 00 01 00 14 03 06 06 06 01 [ 01 FF ]",
    ),
    (
        "a second key's inner size is due",
        12,
        "Q 01 01 00 01 00 01 00 14 03 06 06 06 01 [ 02 FF 00 FF ]",
    ),
    (
        "an inner size crosses the chunk's end",
        12,
        "Q 01 01 00 01 00 01 00 14 03 06 06 06 01 [ 01 FF 80 ]",
    ),
    (
        "a padded inner size",
        0,
        "Q 01 01 00 01 00 01 00 14 03 06 06 06 01 [ 01 FF 80 00 ]",
    ),
    (
        "an inner size of 65535: its first key is missing",
        12,
        "Q 01 01 00 01 00 01 00 14 03 06 06 06 01 [ 01 FF FF FF 03 ]",
    ),
    (
        "an inner size of 65536, at the size",
        3,
        "Q 01 01 00 01 00 01 00 14 03 06 06 06 01 [ 01 FF 80 80 04 01 ]",
    ),
    (
        "an inner size of 2^64 - 1",
        3,
        "Q 01 01 00 01 00 01 00 14 03 06 06 06 01 [ 01 FF FF*9 ]",
    ),
    (
        "the last of seven sizes is 65536",
        3,
        "Q 01 01 00 01 00 01 00 14 08 07*8 01 [ 01 01 01 02 01 03 01 04 01 05 01 06 80 80 04 ]",
    ),
    (
        "a wrong key before its inner size of 65536",
        13,
        "Q 01 01 00 01 00 01 00 14 03 06 06 06 01 [ 01 01 80 80 04 ]",
    ),
];

/// Keys and values in turn; what stands before a missing one is tested first.
const ELEMENTS: &[Row] = &[
    (
        "a key is missing",
        12,
        "Q 01 01 00 01 00 01 00 14 02 06 06 01 [ 02 FF FF ]",
    ),
    (
        "a value is missing",
        12,
        "Q 01 01 00 01 00 01 00 14 02 06 06 01 [ 02 FF FF 00 ]",
    ),
    (
        "a key is cut",
        12,
        "Q 01 01 00 01 00 01 00 14 02 08 06 01 [ 01 00 ]",
    ),
    (
        "a value is cut",
        12,
        "Q 01 01 00 01 00 01 00 14 02 06 0D 01 [ 01 FF 00*7 ]",
    ),
    (
        "a key crosses the chunk's end",
        12,
        "Q 01 01 00 01 00 01 00 14 02 0B 06 01 [ 02 05 FF 80 ]",
    ),
    (
        "a value crosses the chunk's end",
        12,
        "Q 01 01 00 01 00 01 00 14 02 06 0B 01 [ 01 FF 80 ]",
    ),
    (
        "a padded key",
        0,
        "Q 01 01 00 01 00 01 00 14 02 0B 06 01 [ 01 80 00 FF ]",
    ),
    (
        "a padded value",
        0,
        "Q 01 01 00 01 00 01 00 14 02 06 0B 01 [ 01 FF 80 00 ]",
    ),
    (
        "a wrong key, and its value is missing: 13",
        13,
        "Q 01 01 00 01 00 01 00 14 02 06 06 01 [ 01 01 ]",
    ),
    (
        "a wrong value before a missing key: 13",
        13,
        "Q 01 01 00 01 00 01 00 14 02 06 06 01 [ 02 FF 01 ]",
    ),
    (
        "a wrong key of the second",
        13,
        "Q 01 01 00 01 00 01 00 14 02 06 06 01 [ 02 FF 00 02 00 ]",
    ),
    (
        "a wrong value of an inner map",
        13,
        "Q 01 01 00 01 00 01 00 14 03 06 06 06 01 [ 02 FF 00 00 02 FF FF 00 03 ]",
    ),
    (
        "a wrong key of an inner map before a missing value",
        13,
        "Q 01 01 00 01 00 01 00 14 03 06 06 06 01 [ 01 FF 01 04 ]",
    ),
    (
        "a wrong key before a padded value: 13",
        13,
        "Q 01 01 00 01 00 01 00 14 02 06 0B 01 [ 01 01 80 00 ]",
    ),
];

/// Strings, references and annotations in maps.
const LINKS: &[Row] = &[
    (
        "string, reference and annotation, each as a key and as a value",
        0,
        "Q 01 01 00 02 00 01 00 14 05 0E 05 20 05 0E 01 [ 01 02 01 0102 01 02 01 0000 01 00 ]",
    ),
    (
        "a key that is a string past the strings",
        14,
        "Q 01 01 00 01 00 01 00 14 02 0E 06 01 [ 01 03 FF ]",
    ),
    (
        "a value that is a string past the strings",
        14,
        "Q 01 01 00 01 00 01 00 14 02 06 0E 01 [ 02 FF 02 00 03 ]",
    ),
    (
        "a key that is no object",
        14,
        "Q 01 01 00 01 00 01 00 14 02 20 06 01 [ 01 02 FF ]",
    ),
    (
        "a value that is no object",
        14,
        "Q 01 01 00 01 00 01 00 14 02 06 20 01 [ 01 FF 02 ]",
    ),
    (
        "a key that is an annotation of no object",
        14,
        "Q 01 01 00 01 00 01 00 14 02 05 06 01 [ 01 0102 FF ]",
    ),
    (
        "a key that is a half-null annotation",
        14,
        "Q 01 01 00 01 00 01 00 14 02 05 06 01 [ 02 0000 FF 0001 FF ]",
    ),
    (
        "a value that is an annotation of no type",
        14,
        "Q 01 01 00 01 00 01 00 14 02 06 05 01 [ 01 FF 0201 ]",
    ),
    (
        "a key that is an annotation has two numbers",
        12,
        "Q 01 01 00 01 00 01 00 14 02 05 06 01 [ 01 01 ]",
    ),
    (
        "a value that is an annotation: its second number is cut",
        12,
        "Q 01 01 00 01 00 01 00 14 02 06 05 01 [ 01 FF 03 81 ]",
    ),
    (
        "an annotation in an inner map",
        14,
        "Q 01 01 00 01 00 01 00 14 03 07 07 05 01 [ 01 05 02 06 0000 07 0100 ]",
    ),
    (
        "a wrong reference before a missing value",
        14,
        "Q 01 01 00 01 00 01 00 14 02 20 20 01 [ 01 02 ]",
    ),
];

/// Known and late fields.
const PAIRS: &[Row] = &[
    (
        "a known field's maps: values for the objects added",
        0,
        "Q 01 01 00 01 00 01 00 14 02 07 06 01 03 01 05 FF 00 01 01 02 01 04 00 01 06 00",
    ),
    (
        "a known field's maps: three types",
        13,
        "Q 01 01 00 01 00 01 00 14 03 06 06 06 01 01 00 00 01 01 01 01 05 01 FF 01 FF 01",
    ),
    (
        "a late field's maps: values for all objects so far",
        0,
        "Q 01 01 00 01 00 00 00 01 01 01 01 00 14 02 07 06 02 04 01 05 FF 00",
    ),
    (
        "a late field's maps: this block's value alone",
        12,
        "Q 01 01 00 01 00 00 00 01 01 01 01 00 14 02 07 06 02 03 01 05 FF",
    ),
    (
        "a known field's maps: objects of this pair",
        0,
        "Q 01 01 00 01 00 01 00 14 02 20 05 01 01 00 00 01 01 01 01 04 01 02 0102",
    ),
    (
        "a known field's maps: no objects of the next pair",
        14,
        "Q 01 01 00 01 00 01 00 14 02 20 05 01 04 01 02 0000 00 01 01 01 01 01 00",
    ),
    (
        "a map does not go on into the next chunk",
        12,
        "Q 01 01 00 01 00 02 00 14 02 07 07 01 02 00 07 02 03 01 05 06",
    ),
    (
        "a map does not go on into the next chunk: an inner size",
        12,
        "Q 01 01 00 01 00 02 00 14 03 07 07 07 01 02 00 07 02 03 01 05 00",
    ),
    (
        "the next chunk begins behind a map",
        13,
        "Q 01 01 00 01 00 02 00 14 02 07 06 01 03 00 06 02 04 01 05 FF 01",
    ),
    (
        "a type without objects has no maps",
        12,
        "Q 01 01 00 00 00 01 00 14 02 07 06 01 01 00",
    ),
];
