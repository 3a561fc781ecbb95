//! "File, pair, string block", with the bounds of pairs and strings.

use super::{ruled, Row};
use crate::generate::Case;

pub fn cases() -> Vec<Case> {
    ruled(&[PAIRS, STRINGS])
}

const PAIRS: &[Row] = &[
    ("32 pairs are accepted", 0, "0000*32"),
    ("a 33rd pair is refused at its first byte", 3, "0000*33"),
    (
        "a 33rd pair is refused before its first byte is decoded, cut",
        3,
        "0000*32 80",
    ),
    (
        "a 33rd pair is refused before its first byte is decoded, padded",
        3,
        "0000*32 80 00",
    ),
    ("the 32nd pair is decoded, cut", 1, "0000*31 80"),
    (
        "the 32nd pair is decoded: a padded 0, and the entries are due",
        1,
        "0000*31 80 00",
    ),
    ("the next pair starts where the region ends", 1, "D 00"),
    (
        "a pair with strings alone, and one with entries alone",
        0,
        "Q 00 00 01 01 00 00 00 00",
    ),
];

const STRINGS: &[Row] = &[
    (
        "1024 strings are accepted: the first end is due",
        1,
        "80 08",
    ),
    (
        "1025 strings, before any end is read",
        3,
        "81 08 00000001 00000000",
    ),
    (
        "the bound of strings is the file's: 1 and 1023",
        1,
        "01 00000000 00 FF 07",
    ),
    (
        "the bound of strings is the file's: 1 and 1024",
        3,
        "01 00000000 00 80 08",
    ),
    (
        "the bound of strings is the file's: 1, 2 and 1021",
        1,
        "01 00000000 00 02 00000000*2 00 FD 07",
    ),
    (
        "the bound of strings is the file's: 1, 2 and 1022",
        3,
        "01 00000000 00 02 00000000*2 00 FE 07",
    ),
    (
        "the bound of strings is the file's: 1 and 2^64 - 1",
        3,
        "01 00000000 00 FF*9",
    ),
    (
        "ends have four bytes, highest first",
        0,
        "02 00000100 00000101 61*256 62 00",
    ),
    (
        "ends are unsigned: 80000000 is above 7FFFFFFF",
        1,
        "02 7FFFFFFF 80000000",
    ),
    (
        "ends are unsigned: 7FFFFFFF is below 80000000",
        4,
        "02 80000000 7FFFFFFF",
    ),
    ("the first end is cut", 1, "01 000000"),
    (
        "the second end is cut, and the first past the file",
        1,
        "02 FFFFFFFF FFFF",
    ),
    ("ends do not fall", 4, "02 00000001 00000000 61 00"),
    (
        "ends do not fall: against the one before, not the first",
        4,
        "03 00000000 00000002 00000001 6162 00",
    ),
    (
        "ends do not fall: the third against the second",
        4,
        "03 00000001 00000002 00000001 6162 00",
    ),
    (
        "ends do not fall: before a later end is missed",
        4,
        "03 00000001 00000000",
    ),
    (
        "equal ends are empty strings, at the front, between and last",
        0,
        "05 00000000 00000001 00000001 00000003 00000003 616263 00",
    ),
    (
        "a string runs from the end before it to its own",
        0,
        "03 00000001 00000003 00000006 616262636363 00",
    ),
    (
        "ends begin anew in each block",
        0,
        "01 00000002 6161 00 01 00000001 62 00",
    ),
    (
        "the last end is held against the file's end: one byte short",
        1,
        "02 00000001 00000003 6162",
    ),
    (
        "the last end is held against the file's end: all there",
        1,
        "02 00000001 00000002 6162",
    ),
    (
        "the last end is held against the file's end: the number of entries is no string byte",
        1,
        "01 00000002 61 00",
    ),
    (
        "the last end alone is held against the file's end, behind the ends",
        1,
        "02 00000008 00000009 61",
    ),
    (
        "the last end is held against the file's end before the entries are read",
        1,
        "01 00000009 61 01 00",
    ),
    ("an end of 2^32 - 1", 1, "01 FFFFFFFF 61"),
    (
        "equal strings may occur twice, in a pair and over pairs",
        0,
        "02 00000001 00000002 6161 00 01 00000001 61 00",
    ),
    ("UTF-8 is not checked", 0, "01 00000004 FFC08000 00"),
    (
        "strings are numbered through the whole file, the earlier ones first",
        6,
        "02 00000001 00000002 6161 00 01 00000001 62 02 01 00 00 00 00 02",
    ),
    (
        "strings are numbered through the whole file: the third pair's",
        6,
        "01 00000001 61 00 01 00000001 62 00 02 00000001 00000002 6363 02 03 00 00 00 00 04",
    ),
    (
        "strings are numbered through the whole file: pairs without strings count none",
        0,
        "01 00000001 61 00 00 00 01 00000001 62 01 02 00 00 00 00",
    ),
];
