//! Values: what fills a chunk, what stands in it, and in which order that is
//! tested.

use super::{ruled, Row};
use crate::generate::Case;

pub fn cases() -> Vec<Case> {
    ruled(&[SINGLE, STRINGS, CHUNK, FIXED, MANY])
}

const SINGLE: &[Row] = &[
    (
        "a bool is 00 or FF",
        0,
        "Q 01 01 00 03 00 01 00 06 01 03 00 FF 00",
    ),
    ("a bool is not FE", 13, "Q 01 01 00 01 00 01 00 06 01 01 FE"),
    ("a bool is not 80", 13, "Q 01 01 00 01 00 01 00 06 01 01 80"),
    ("a bool is not 7F", 13, "Q 01 01 00 01 00 01 00 06 01 01 7F"),
    (
        "a bool is not 02: the second of three",
        13,
        "Q 01 01 00 03 00 01 00 06 01 03 00 02 00",
    ),
    (
        "a bool is not 01: the last of three",
        13,
        "Q 01 01 00 03 00 01 00 06 01 03 00 FF 01",
    ),
    (
        "a known field's bool",
        13,
        "Q 01 01 00 01 00 01 00 06 01 01 00 00 01 01 01 01 01 01",
    ),
    (
        "a second bool is missing",
        12,
        "Q 01 01 00 02 00 01 00 06 01 01 00",
    ),
    ("an i8 is missing", 12, "Q 01 01 00 02 00 01 00 07 01 01 7F"),
    (
        "an i16 is cut",
        12,
        "Q 01 01 00 02 00 01 00 08 01 03 7FFF 80",
    ),
    (
        "an i32 is cut",
        12,
        "Q 01 01 00 01 00 01 00 09 01 03 7FFFFF",
    ),
    (
        "an i64 is cut",
        12,
        "Q 01 01 00 01 00 01 00 0A 01 07 7F FF*6",
    ),
    (
        "an f32 is cut",
        12,
        "Q 01 01 00 02 00 01 00 0C 01 07 7FC00000 7FC000",
    ),
    (
        "an f64 is cut",
        12,
        "Q 01 01 00 01 00 01 00 0D 01 07 7F FF*6",
    ),
    (
        "an i64 is left over",
        12,
        "Q 01 01 00 01 00 01 00 0A 01 10 80 00*15",
    ),
    (
        "an f32 has four bytes, one is left over",
        12,
        "Q 01 01 00 01 00 01 00 0C 01 05 80 00*4",
    ),
    (
        "an f64 has eight bytes, one is left over",
        12,
        "Q 01 01 00 01 00 01 00 0D 01 09 80 00*8",
    ),
    ("a v64 is missing", 12, "Q 01 01 00 02 00 01 00 0B 01 01 05"),
    (
        "a v64 is left over",
        12,
        "Q 01 01 00 01 00 01 00 0B 01 02 05 06",
    ),
    (
        "a v64 crosses the chunk's end and the file's",
        12,
        "Q 01 01 00 01 00 01 00 0B 01 01 80",
    ),
    (
        "a v64 crosses the chunk's end, behind one that does not",
        12,
        "Q 01 01 00 02 00 01 00 0B 01 02 05 80",
    ),
    (
        "a v64 crosses into the next chunk",
        12,
        "Q 01 01 00 01 00 02 00 0B 01 01 00 0B 02 02 80 01",
    ),
    (
        "a v64 crosses into the next chunk, 12 before 2",
        12,
        "Q 01 01 00 01 00 02 00 0B 01 01 00 0B 02 02 80 00",
    ),
    (
        "a v64 crosses into the next pair",
        12,
        "Q 01 01 00 01 00 01 00 0B 01 01 80 01 00000000 00",
    ),
    (
        "a v64 crosses into the next pair, 12 before 2",
        12,
        "Q 01 01 00 01 00 01 00 0B 01 01 80 00 00",
    ),
    (
        "a v64 of nine bytes is cut behind eight",
        12,
        "Q 01 01 00 01 00 02 00 0B 01 08 00 0B 02 09 80*8 00",
    ),
    (
        "a padded v64 and a left-over byte",
        12,
        "Q 01 01 00 01 00 01 00 0B 01 03 80 00 05",
    ),
    (
        "a padded v64 and a missing one",
        12,
        "Q 01 01 00 03 00 01 00 0B 01 03 05 80 00",
    ),
    (
        "a left-over byte is not decoded",
        12,
        "Q 01 01 00 01 00 01 00 0B 01 03 05 80 00",
    ),
    (
        "a known field's v64 is padded",
        0,
        "D 00 01 01 02 01 03 05 81 00",
    ),
];

const STRINGS: &[Row] = &[
    (
        "a string number is 0 or at most the last string's",
        0,
        "Q 01 01 00 04 00 01 00 0E 01 04 00 01 02 00",
    ),
    (
        "a string number is not past the last string's",
        14,
        "Q 01 01 00 02 00 01 00 0E 01 02 02 03",
    ),
    (
        "a string number is unsigned: 2^64 - 1",
        14,
        "Q 01 01 00 01 00 01 00 0E 01 09 FF*9",
    ),
    (
        "a string number is unsigned: 2^63",
        14,
        "Q 01 01 00 01 00 01 00 0E 01 09 80*9",
    ),
    (
        "a string number may have two bytes",
        14,
        "Q 01 01 00 01 00 01 00 0E 01 02 81 02",
    ),
    (
        "string numbers reach as far as this pair: this pair's",
        0,
        "Q 00 02 00000001 00000002 6364 01 01 00 02 00 01 00 0E 01 02 04 01",
    ),
    (
        "string numbers reach as far as this pair: not the next one's",
        14,
        "Q 01 01 00 01 00 01 00 0E 01 01 03 01 00000001 63 00",
    ),
    (
        "string numbers reach as far as this pair: in a known field",
        0,
        "Q 01 01 00 01 00 01 00 0E 01 01 02 01 00000001 63 01 01 01 01 01 03",
    ),
    (
        "string numbers reach as far as this pair: past it in a known field",
        14,
        "Q 01 01 00 01 00 01 00 0E 01 01 02 01 00000001 63 01 01 01 01 01 04",
    ),
    (
        "a string number is not an object's",
        14,
        "Q 01 01 00 03 00 01 00 0E 01 03 00 00 03",
    ),
    (
        "for one string number: 12 before 14",
        12,
        "Q 01 01 00 01 00 01 00 0E 01 01 86",
    ),
    (
        "for one string number: 12 before 14, with the next pair behind it",
        12,
        "Q 01 01 00 01 00 01 00 0E 01 01 FF 01 00000000 00",
    ),
    (
        "a padded string number has its value: too large",
        14,
        "Q 01 01 00 01 00 01 00 0E 01 02 86 00",
    ),
    (
        "a string number too large comes before a missing one",
        14,
        "Q 01 01 00 03 00 01 00 0E 01 02 00 03",
    ),
    (
        "a string number too large comes before a left-over byte",
        14,
        "Q 01 01 00 01 00 01 00 0E 01 02 03 00",
    ),
];

const CHUNK: &[Row] = &[
    (
        "left-over bytes come behind all values: 13 before 12",
        13,
        "Q 01 01 00 01 00 01 00 06 01 02 01 00",
    ),
    (
        "left-over bytes come behind all values: 12 behind the last one",
        12,
        "Q 01 01 00 02 00 01 00 06 01 04 00 FF 01 02",
    ),
    (
        "values are read one by one: a wrong one before a missing one",
        13,
        "Q 01 01 00 03 00 01 00 06 01 02 00 01",
    ),
    (
        "values are read one by one: the first wrong one is the place",
        13,
        "Q 01 01 00 03 00 01 00 06 01 03 00 01 02",
    ),
    (
        "a value past the chunk's end is 12, whatever it is",
        12,
        "Q 01 01 00 02 00 02 00 06 01 01 00 07 02 03 00 01 01",
    ),
    (
        "a value past the end of an empty chunk is 12, although the next chunk has one",
        12,
        "Q 01 01 00 01 00 02 00 07 01 00 00 07 02 01 05",
    ),
    (
        "an earlier chunk's value before a later chunk's",
        14,
        "Q 01 01 00 01 00 02 00 0E 01 01 00 06 02 02 03 01",
    ),
    (
        "an earlier chunk's left-over bytes before a later chunk's value",
        12,
        "Q 01 01 00 01 00 02 00 07 01 02 00 06 02 03 00 00 01",
    ),
    (
        "an earlier pair's value before a later pair's strings",
        13,
        "Q 01 01 00 01 00 01 00 06 01 01 01 81 08",
    ),
    (
        "values of a known field before those of a new one",
        13,
        "Q 01 01 00 01 00 01 00 06 01 01 00 00 01 01 01 02 01 00 0E 02 03 01 0000",
    ),
];

const FIXED: &[Row] = &[
    (
        "a fixed array's elements, value by value",
        0,
        "Q 01 01 00 02 00 01 00 0F 03 07 01 06 010203 040506",
    ),
    (
        "a fixed array of v64",
        0,
        "Q 01 01 00 02 00 01 00 0F 02 0B 01 06 80 01 05 06 FF 01",
    ),
    (
        "a fixed array's last element is missing",
        12,
        "Q 01 01 00 02 00 01 00 0F 02 07 01 03 010203",
    ),
    (
        "a fixed array's element is left over",
        12,
        "Q 01 01 00 01 00 01 00 0F 02 07 01 03 010203",
    ),
    (
        "a fixed array's element is cut",
        12,
        "Q 01 01 00 01 00 01 00 0F 02 08 01 03 000102",
    ),
    (
        "a fixed array's v64 crosses",
        12,
        "Q 01 01 00 01 00 01 00 0F 02 0B 01 02 05 80",
    ),
    (
        "before a missing element of a fixed array: 13",
        13,
        "Q 01 01 00 01 00 01 00 0F 03 06 01 02 00 01",
    ),
    (
        "a padded element of a fixed array, and one missing",
        12,
        "Q 01 01 00 01 00 01 00 0F 03 0B 01 03 05 80 00",
    ),
    (
        "before a missing element of a fixed array: 14 of a string",
        14,
        "Q 01 01 00 01 00 01 00 0F 03 0E 01 02 02 03",
    ),
    (
        "before a missing element of a fixed array: 14 of an object",
        14,
        "Q 01 01 00 01 00 01 00 0F 03 20 01 02 01 02",
    ),
    (
        "before a cut element of a fixed array: 14",
        14,
        "Q 01 01 00 01 00 01 00 0F 03 0E 01 03 01 03 80",
    ),
    (
        "a padded element of a fixed array, and one cut",
        12,
        "Q 01 01 00 01 00 01 00 0F 02 0B 01 03 80 00 80",
    ),
    (
        "before a missing element of a fixed array's second value: 13",
        13,
        "Q 01 01 00 02 00 01 00 0F 02 06 01 03 00 FF 02",
    ),
    (
        "before a left-over byte of a fixed array: 13",
        13,
        "Q 01 01 00 01 00 01 00 0F 02 06 01 03 00 01 00",
    ),
    (
        "a fixed array of length 0 has an empty chunk",
        12,
        "Q 01 01 00 02 00 01 00 0F 00 06 01 01 00",
    ),
    (
        "a fixed array of length 65535: the third element is missing",
        12,
        "Q 01 01 00 01 00 01 00 0F FF FF 03 0B 01 02 0000",
    ),
    (
        "a fixed array of a known field",
        13,
        "Q 01 01 00 01 00 01 00 0F 02 06 01 02 00FF 00 01 01 01 01 02 FF01",
    ),
];

const MANY: &[Row] = &[
    ("an array, a list and a set: each value a length and its elements", 0, "P 01 01 00 02 00 03 00 11 07 01 05 00 12 0B 02 0B 00 13 0E 03 10 02 0506 01 07 00 03 80 01 05 03 03 02 02 00 00"),
    ("sets are not searched for repeats", 0, "Q 01 01 00 01 00 01 00 13 0B 01 04 03 05 05 05"),
    ("a length is due", 12, "Q 01 01 00 01 00 01 00 11 06 01 00"),
    ("a second value's length is due", 12, "Q 01 01 00 02 00 01 00 11 06 01 02 01 FF"),
    ("a length crosses the chunk's end", 12, "Q 01 01 00 01 00 01 00 11 06 01 01 80"),
    ("a length crosses the chunk's end: 12 before 2", 12, "Q 01 01 00 01 00 02 00 11 06 01 01 00 07 02 02 80 00"),
    ("a length crosses the chunk's end: 12 before 3", 12, "Q 01 01 00 01 00 02 00 11 06 01 02 00 07 02 03 80 80 04"),
    ("a padded length has its value: above 65535", 3, "Q 01 01 00 01 00 01 00 11 06 01 04 FF FF FF 00"),
    ("a length of 65535: its first element is missing", 12, "Q 01 01 00 01 00 01 00 11 06 01 03 FF FF 03"),
    ("a length of 65536 of an array, at the length", 3, "Q 01 01 00 01 00 01 00 11 06 01 04 80 80 04 01"),
    ("a length of 65536 of a list, at the length", 3, "Q 01 01 00 01 00 01 00 12 0B 01 03 80 80 04"),
    ("a length of 65536 of a set, at the length", 3, "Q 01 01 00 01 00 01 00 13 20 01 03 80 80 04"),
    ("a length of 2^64 - 1", 3, "Q 01 01 00 01 00 01 00 12 06 01 09 FF*9"),
    ("a second value's length of 65536", 3, "Q 01 01 00 02 00 01 00 11 06 01 05 01 FF 80 80 04"),
    ("a second value's padded length", 0, "Q 01 01 00 02 00 01 00 11 06 01 04 01 FF 80 00"),
    ("before a second value's padded length: 13", 13, "Q 01 01 00 02 00 01 00 11 06 01 04 01 01 80 00"),
    ("an element is missing", 12, "Q 01 01 00 01 00 01 00 11 06 01 03 03 00 FF"),
    ("an element is cut", 12, "Q 01 01 00 01 00 01 00 12 08 01 04 02 0001 02"),
    ("an element crosses the chunk's end", 12, "Q 01 01 00 01 00 01 00 11 0B 01 03 02 05 80"),
    ("an element crosses the chunk's end: 12 before 2", 12, "Q 01 01 00 01 00 02 00 11 0B 01 03 00 07 02 04 02 05 80 00"),
    ("an element crosses the chunk's end: 12 before 14", 12, "Q 01 01 00 01 00 02 00 11 0E 01 03 00 07 02 04 02 01 83 01"),
    ("an element is padded", 0, "Q 01 01 00 01 00 01 00 11 0B 01 04 02 05 80 00"),
    ("a padded element has its value: too large", 14, "Q 01 01 00 01 00 01 00 13 0E 01 04 02 01 83 00"),
    ("before a missing element: 13", 13, "Q 01 01 00 01 00 01 00 11 06 01 03 03 00 01"),
    ("a padded element, and one missing", 12, "Q 01 01 00 01 00 01 00 12 0B 01 04 03 05 80 00"),
    ("before a missing element: 14 of a string", 14, "Q 01 01 00 01 00 01 00 12 0E 01 03 03 01 03"),
    ("before a missing element: 14 of an object", 14, "Q 01 01 00 01 00 01 00 13 20 01 03 03 01 02"),
    ("before a cut element: 14", 14, "Q 01 01 00 01 00 01 00 13 0E 01 04 03 01 03 80"),
    ("elements are left over", 12, "Q 01 01 00 01 00 01 00 11 06 01 03 01 00 01"),
    ("a wrong element of the second value", 13, "Q 01 01 00 02 00 01 00 11 06 01 05 01 00 02 00 01"),
    ("a known field's array", 14, "Q 01 01 00 01 00 01 00 11 0E 01 02 01 02 00 01 01 01 01 03 02 02 03"),
];
