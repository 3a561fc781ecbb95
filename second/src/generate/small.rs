//! Small files, quick to read even for a slow interpreter.

use super::notation::bytes;
use super::Case;

/// Some 80 files of at most about 60 bytes with the answer the paper gives.
pub fn cases() -> Vec<Case> {
    let rows = REFUSED.iter().chain(ACCEPTED);
    rows.map(|&(label, answer, text)| Case::ruled(label, answer, bytes(text)))
        .collect()
}

type Row = (&'static str, u8, &'static str);

const REFUSED: &[Row] = &[
    ("number of entries missing", 1, "00"),
    ("coding cut by the file's end", 1, "80"),
    ("string's bytes missing", 1, "01 00000002 61"),
    ("region past the file", 1, "D 00 01 01 01 01 03 80 02"),
    (
        "a padded 0 as the number of strings, no entries",
        1,
        "80 00",
    ),
    ("a 0 of nine bytes, no entries", 1, "80*8 00"),
    ("1025 strings", 3, "81 08"),
    ("65536 entries", 3, "00 80 80 04"),
    ("65536 objects", 3, "Q 01 01 00 80 80 04"),
    (
        "two base types above 65535 together",
        3,
        "Q 02 01 00 FF FF 03 00 00 02 00 01",
    ),
    (
        "array length above 65535",
        3,
        "Q 01 01 00 01 00 01 00 11 06 01 03 80 80 04",
    ),
    (
        "inner map size above 65535",
        3,
        "Q 01 01 00 01 00 01 00 14 03 06 06 06 01 05 01 FF 80 80 04",
    ),
    ("129 fields", 3, "Q 01 01 00 01 00 81 01"),
    ("string end falls", 4, "02 FFFFFFFF 00000000"),
    (
        "end falls",
        4,
        "Q 01 01 00 01 00 02 00 0B 01 01 00 0B 02 00 00",
    ),
    (
        "end falls from 2^64-1",
        4,
        "Q 01 01 00 01 00 02 00 07 01 FF*9 00 07 02 00",
    ),
    ("name 0", 5, "Q 01 00"),
    ("super name too large", 5, "Q 01 01 03"),
    ("field name too large", 5, "Q 01 01 00 01 00 01 00 0B 03"),
    ("second entry", 6, "Q 02 01 00 00 00 00 01"),
    (
        "second entry by an equal string",
        6,
        "02 00000001 00000002 6161 02 01 00 00 00 00 02",
    ),
    (
        "field name used",
        6,
        "Q 01 01 00 01 00 02 00 0B 02 01 00 0B 02",
    ),
    (
        "field name used in an earlier block",
        6,
        "D 00 01 01 00 01 00 0B 01",
    ),
    ("super name is no type", 7, "Q 01 01 02"),
    ("super name is its own", 7, "Q 01 01 01"),
    ("restriction of a type", 9, "Q 01 01 00 01 01"),
    ("restriction of a field", 9, "Q 01 01 00 01 00 01 FF*9"),
    ("kind 16", 10, "Q 01 01 00 01 00 01 00 10"),
    ("kind 21", 10, "Q 01 01 00 01 00 01 00 15"),
    ("map of 9 types", 10, "Q 01 01 00 01 00 01 00 14 09"),
    ("array of arrays", 10, "Q 01 01 00 01 00 01 00 11 12"),
    ("no such type", 10, "Q 01 01 00 00 00 01 00 21 01 00"),
    ("kind of 2^64-1", 10, "Q 01 01 00 00 00 01 00 FF*9 01 00"),
    ("fewer fields than known", 11, "D 00 01 01 01 00"),
    (
        "one of two known fields",
        11,
        "Q 01 01 00 01 00 02 00 07 01 01 00 07 02 02 0505 00 01 01 01 01",
    ),
    ("value missing", 12, "D 00 01 01 02 01 02 80 02"),
    ("value crosses", 12, "D 00 01 01 01 01 01 80 02"),
    (
        "left-over byte",
        12,
        "Q 01 01 00 01 00 01 00 07 01 02 05 06",
    ),
    (
        "constant's chunk is not empty",
        12,
        "Q 01 01 00 01 00 01 00 00 05 01 01 00",
    ),
    (
        "late field with this block's value only",
        12,
        "D 01 00000001 78 01 01 01 02 01 00 07 02 02 09 05",
    ),
    ("bool 01", 13, "Q 01 01 00 01 00 01 00 06 01 01 01"),
    (
        "wrong bool in an array, another missing",
        13,
        "Q 01 01 00 01 00 01 00 11 06 01 03 03 00 01",
    ),
    ("string 3 of 2", 14, "Q 01 01 00 01 00 01 00 0E 01 01 03"),
    ("object 2 of 1", 14, "Q 01 01 00 01 00 01 00 20 01 01 02"),
    ("half-null", 14, "Q 01 01 00 01 00 01 00 05 01 02 0100"),
    (
        "annotation by a subtype's name",
        14,
        "Q 02 01 00 01 00 01 00 05 01 02 02 01 00 01 00 00 0201",
    ),
    (
        "counted from the subtype's first object",
        14,
        "Q 02 01 00 03 00 01 00 21 01 03 02 01 02 01 00 00 01 00 00",
    ),
    (
        "range ends past the one above",
        21,
        "Q 02 01 00 01 00 00 02 01 01 01",
    ),
    (
        "count 0 with start 1",
        21,
        "Q 02 01 00 01 00 00 02 01 01 00",
    ),
    (
        "entry above is missing",
        21,
        "Q 01 01 00 01 00 00 00 01 02 01 00 01",
    ),
    (
        "siblings overlap",
        21,
        "P 03 01 00 02 00 00 02 01 00 02 00 00 03 01 01 01",
    ),
];

const ACCEPTED: &[Row] = &[
    ("empty file", 0, ""),
    ("one empty pair", 0, "00 00"),
    ("three empty pairs", 0, "0000*3"),
    ("file D", 0, "D"),
    ("file E", 0, "E"),
    ("equal strings and an empty one", 0, "03 00000001 00000002 00000002 6161 00"),
    ("empty string as a name", 0, "01 00000000 01 01 00 01 00 01 00 0B 01 01 05"),
    ("constants i8 and i16", 0, "Q 01 01 00 02 00 02 00 00 80 01 00 00 01 8000 02 00"),
    ("constants i32 and i64", 0, "Q 01 01 00 01 00 02 00 02 80000000 01 00 00 03 FF*8 02 00"),
    ("constant v64", 0, "Q 01 01 00 01 00 01 00 04 80*9 01 00"),
    ("bool and i8", 0, "Q 01 01 00 02 00 02 00 06 01 02 00 07 02 04 FF00 807F"),
    ("i16 and i32", 0, "Q 01 01 00 01 00 02 00 08 01 02 00 09 02 06 8000 80000000"),
    ("i64 and f64", 0, "Q 01 01 00 01 00 02 00 0A 01 08 00 0D 02 10 80 00*7 FFF0 00*6"),
    ("v64 and f32", 0, "Q 01 01 00 01 00 02 00 0B 01 09 00 0C 02 0D 80*8 01 FF800000"),
    ("strings", 0, "Q 01 01 00 03 00 01 00 0E 01 03 020001"),
    ("fixed arrays", 0, "Q 01 01 00 01 00 02 00 0F 02 08 01 04 00 0F 00 06 02 04 0001 8000"),
    ("arrays and lists", 0, "Q 01 01 00 02 00 02 00 11 07 01 04 00 12 0B 02 08 02 05 80 00 01 80 01 00"),
    ("sets of references", 0, "Q 01 01 00 02 00 01 00 13 20 01 05 03 010102 00"),
    ("annotations", 0, "Q 02 01 00 02 00 01 00 05 01 04 02 00 01 00 00 0201 0000"),
    ("arrays of annotations", 0, "Q 01 01 00 02 00 02 00 0F 02 05 01 08 00 11 05 02 0C 0101 0000 0000 0102 01 0102 00"),
    ("maps of two types", 0, "Q 01 01 00 02 00 02 00 14 02 06 08 01 08 00 14 02 0E 20 02 0C 02 FF 0001 00 8000 00 01 02 02 00"),
    ("maps of three types", 0, "Q 01 01 00 03 00 01 00 14 03 07 05 0B 01 10 02 05 01 0103 80 01 05 00 00 01 06 01 0000 07"),
    ("reference to the type itself", 0, "Q 01 01 00 02 00 01 00 20 01 02 02 00"),
    ("reference to a later entry", 0, "Q 02 01 00 01 00 01 00 21 01 01 02 00 02 00 00 02"),
    ("subtype and a reference to it", 0, "Q 02 01 00 03 00 01 00 21 01 03 02 01 01 02 00 00 02 00 03"),
    ("subtype in two blocks", 0, "Q 02 01 00 02 00 00 02 01 01 01 00 00 00 02 01 02 01 00 21 01 04 02 00 01 00 00 02 03 00"),
    ("chain of three types", 0, "P 03 01 00 03 00 00 02 01 01 02 00 00 03 02 02 01 00 00"),
    ("siblings against the order of declaration", 0, "P 03 01 00 02 00 00 02 01 00 01 00 00 03 01 01 01 00 00 00 03 01 02 00 03 00 01 00 02 01 01 00"),
    ("late field, count 0", 0, "D 01 00000001 78 01 01 00 01 00 07 02 02 0506"),
    ("late field, count 1", 0, "D 01 00000001 78 01 01 01 02 01 00 07 02 04 09 050607"),
    ("known type without fields", 0, "Q 01 01 00 01 00 00 00 01 01 00 00 00 01 01 01 00"),
    ("subtype with count 0 alone in its block", 0, "Q 02 01 00 01 00 00 02 01 00 01 00 00 00 01 02 00 00 00"),
    ("a padded value", 0, "Q 01 01 00 01 00 01 00 0B 01 02 80 00"),
];
