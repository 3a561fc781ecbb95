//! "Numbers", and where the file ends before or in one.

use super::{ruled, Row};
use crate::generate::Case;

pub fn cases() -> Vec<Case> {
    ruled(&[CODINGS, WIDTHS, FULL, PADDED, CUT])
}

const CODINGS: &[Row] = &[
    ("v64: the smallest and the largest coding of one to nine bytes, the 64 bits signed in values", 0, "P 01 01 00 15 00 01 00 0B 01 75 00 7F 80 01 FF 7F 80*2 01 FF*2 7F 80*3 01 FF*3 7F 80*4 01 FF*4 7F 80*5 01 FF*5 7F 80*6 01 FF*6 7F 80*7 01 FF*7 7F 80*8 01 FF*8 7F 80*9 FF*9 81 82 83 84 85 86 87 88 09"),
    ("v64: a count of two bytes, low seven bits first", 0, "Q 01 01 00 81 02 00 00"),
    ("v64: 127 in two bytes", 1, "FF 00"),
    ("v64: 0 in three bytes", 1, "80*2 00"),
    ("v64: 49409 in four bytes", 3, "81 82 83 00"),
    ("v64: 2^42 - 1 in seven bytes", 3, "FF*6 00"),
    ("v64: 0 in eight bytes", 1, "80*7 00"),
    ("v64: 2^56 - 1 in nine bytes", 3, "FF*8 00"),
    ("v64: 00 alone is a coding", 1, "00 01"),
    ("v64: unsigned in counts, the ninth byte is the last whatever its top bit", 3, "80*9 00"),
    ("v64: unsigned in counts, 2^64 - 1", 3, "FF*9"),
    ("v64: a tenth byte is left over", 12, "P 01 01 00 01 00 01 00 0B 01 0A 80*9 01"),
    ("v64: cut behind its first byte, at its first byte", 1, "00 80"),
    ("v64: cut behind two bytes, at its first byte", 1, "00 FF FF"),
    ("v64: cut behind eight bytes, at its first byte", 1, "00 80*8"),
    ("v64: 0 in three bytes, further on", 0, "00 80 80 00"),
];

const WIDTHS: &[Row] = &[
    ("i8 is two's complement", 0, "P 01 01 00 05 00 01 00 07 01 05 00 01 7F 80 FF"),
    ("i16 is two's complement, highest byte first", 0, "P 01 01 00 05 00 01 00 08 01 0A 0000 0102 7FFF 8000 FFFE"),
    ("i32 is two's complement, highest byte first", 0, "P 01 01 00 05 00 01 00 09 01 14 00000000 01020304 7FFFFFFF 80000000 FFFFFFFE"),
    ("i64 is two's complement, highest byte first", 0, "P 01 01 00 04 00 01 00 0A 01 20 0102030405060708 7FFFFFFFFFFFFFFF 8000000000000000 FFFFFFFFFFFFFFFE"),
    ("f32 is four bytes, highest first", 0, "P 01 01 00 03 00 01 00 0C 01 0C 01020304 7FC00001 FF800000"),
    ("f64 is eight bytes, highest first", 0, "P 01 01 00 03 00 01 00 0D 01 18 0102030405060708 7FF0000000000001 FFF0000000000000"),
    ("constants i8 are two's complement", 0, "P 01 01 00 01 00 03 00 00 7F 01 00 00 00 80 02 00 00 00 FF 03 00"),
    ("constants i16 are two's complement", 0, "P 01 01 00 01 00 04 00 01 7FFF 01 00 00 01 8000 02 00 00 01 FFFF 03 00 00 01 0102 04 00"),
    ("constants i32 are two's complement", 0, "P 01 01 00 01 00 04 00 02 7FFFFFFF 01 00 00 02 80000000 02 00 00 02 FFFFFFFF 03 00 00 02 01020304 04 00"),
    ("constants i64 are two's complement", 0, "P 01 01 00 01 00 04 00 03 7F FF*7 01 00 00 03 80 00*7 02 00 00 03 FF*8 03 00 00 03 0102030405060708 04 00"),
    ("constants v64 are signed", 0, "P 01 01 00 01 00 05 00 04 FF*8 7F 01 00 00 04 80*9 02 00 00 04 FF*9 03 00 00 04 80 01 04 00 00 04 00 05 00"),
];

/// Numbers that would be good in their low 8, 16 or 32 bits.
const FULL: &[Row] = &[
    ("all 64 bits count: 2^32 strings", 3, "80 80 80 80 10 00"),
    ("all 64 bits count: 2^32 entries", 3, "Q 80 80 80 80 10 00"),
    (
        "all 64 bits count: a name of 257",
        5,
        "Q 01 81 02 00 00 00 00",
    ),
    (
        "all 64 bits count: a name of 2^32 + 1",
        5,
        "Q 01 81 80 80 80 10 00 00 00 00",
    ),
    (
        "all 64 bits count: a super name of 2^32",
        5,
        "Q 01 01 80 80 80 80 10 00 00 00",
    ),
    (
        "all 64 bits count: a local start of 2^32",
        3,
        "Q 02 01 00 01 00 00 02 01 80 80 80 80 10 01 00 00",
    ),
    (
        "all 64 bits count: a count of 2^32 + 1",
        3,
        "Q 01 01 00 81 80 80 80 10 00 00",
    ),
    (
        "all 64 bits count: 2^32 fields",
        3,
        "Q 01 01 00 01 00 80 80 80 80 10",
    ),
    (
        "all 64 bits count: a length of 2^32 + 1 in a kind",
        3,
        "Q 01 01 00 01 00 01 00 0F 81 80 80 80 10 07 01 01 05",
    ),
    (
        "all 64 bits count: a field name of 2^32 + 1",
        5,
        "Q 01 01 00 01 00 01 00 07 81 80 80 80 10 01 05",
    ),
    (
        "all 64 bits count: an end of 2^32 + 1",
        1,
        "Q 01 01 00 01 00 01 00 07 01 81 80 80 80 10 05",
    ),
    (
        "all 64 bits count: an end of 257",
        1,
        "Q 01 01 00 01 00 01 00 07 01 81 02 05",
    ),
    (
        "all 64 bits count: a string number of 2^32 + 1",
        14,
        "Q 01 01 00 01 00 01 00 0E 01 05 81 80 80 80 10",
    ),
    (
        "all 64 bits count: an object number of 2^32 + 1",
        14,
        "Q 01 01 00 01 00 01 00 20 01 05 81 80 80 80 10",
    ),
    (
        "all 64 bits count: an array's length of 2^32 + 1",
        3,
        "Q 01 01 00 01 00 01 00 11 07 01 06 81 80 80 80 10 05",
    ),
];

/// A padded number has its value, and is refused by what that breaks.
const PADDED: &[Row] = &[
    (
        "padded number of strings: 16383 is above the bound",
        3,
        "FF FF 80 00",
    ),
    (
        "padded number of entries: 2097151 is above the bound",
        3,
        "P FF FF FF 00",
    ),
    ("padded name: 0 is none", 5, "P 01 80 00"),
    ("padded name: 127 is too large", 5, "P 01 FF 00"),
    (
        "padded name: 1 has an entry",
        6,
        "P 02 01 00 00 00 00 81 00",
    ),
    ("padded super name: 127 is too large", 5, "P 01 01 FF 00"),
    ("padded super name: 2 is no type", 7, "P 01 01 82 00"),
    (
        "padded super name: 0 is for none, and the count is due",
        1,
        "P 01 01 80 00",
    ),
    (
        "padded local start: 2097151 is above the bound",
        3,
        "P 02 01 00 01 00 00 02 01 FF FF FF 00",
    ),
    (
        "padded count: 2097151 is above the bound",
        3,
        "P 01 01 00 FF FF FF 00",
    ),
    (
        "padded count: 5 is past the range above",
        21,
        "P 02 01 00 01 00 00 02 01 00 85 00",
    ),
    (
        "padded restrictions of a type: 0, and the number of fields is due",
        1,
        "P 01 01 00 01 80 00",
    ),
    ("padded restrictions of a type: 1", 9, "P 01 01 00 01 81 00"),
    (
        "padded number of fields: 16383 is above the bound",
        3,
        "P 01 01 00 01 00 FF FF 00",
    ),
    (
        "padded number of fields: 0 of one known field",
        11,
        "D 00 01 01 01 80 00",
    ),
    (
        "padded end of a known field: 1 is past the file",
        1,
        "D 00 01 01 01 01 81 00",
    ),
    (
        "padded restrictions of a field: 1",
        9,
        "P 01 01 00 01 00 01 81 00",
    ),
    (
        "padded kind: 16 is not listed",
        10,
        "P 01 01 00 01 00 01 00 90 00",
    ),
    (
        "padded kind: 11 is listed",
        0,
        "P 01 01 00 01 00 01 00 8B 00 01 01 00",
    ),
    (
        "padded constant: 0",
        0,
        "P 01 01 00 01 00 01 00 04 80 00 01 00",
    ),
    (
        "padded length in a kind: 2097151 is above the bound",
        3,
        "P 01 01 00 01 00 01 00 0F FF FF FF 00",
    ),
    (
        "padded element kind: 16 is not listed",
        10,
        "P 01 01 00 01 00 01 00 11 90 00",
    ),
    (
        "padded element kind of a fixed array: 16 is not listed",
        10,
        "P 01 01 00 01 00 01 00 0F 02 90 00",
    ),
    (
        "padded field name: 0 is none",
        5,
        "P 01 01 00 01 00 01 00 0B 80 00",
    ),
    (
        "padded field name: 1 is used",
        6,
        "P 01 01 00 01 00 02 00 0B 01 01 00 0B 81 00",
    ),
    (
        "padded end: 0 falls",
        4,
        "P 01 01 00 01 00 02 00 0B 01 01 00 0B 02 80 00",
    ),
];

/// The file ends before (a) or in (b) a number that is due.
const CUT: &[Row] = &[
    ("a number of strings is due, b", 1, "0000 80"),
    ("the number of entries is due, a", 1, "Q"),
    ("the number of entries is due, b", 1, "Q 80"),
    ("a name is due, a", 1, "Q 01"),
    ("a name is due, b", 1, "Q 01 80"),
    ("a second entry's name is due", 1, "Q 02 01 00 00 00 00"),
    ("a super name is due, a", 1, "Q 01 01"),
    ("a super name is due, b", 1, "Q 01 01 80"),
    ("a local start is due, a", 1, "Q 02 01 00 00 00 00 02 01"),
    ("a local start is due, b", 1, "Q 02 01 00 00 00 00 02 01 80"),
    (
        "a known type's local start is due",
        1,
        "Q 02 01 00 00 00 00 02 01 00 00 00 00 00 01 02",
    ),
    ("a count is due, a", 1, "Q 01 01 00"),
    ("a count is due, b", 1, "Q 01 01 00 80"),
    (
        "a subtype's count is due",
        1,
        "Q 02 01 00 00 00 00 02 01 00",
    ),
    (
        "a known type's count is due",
        1,
        "Q 01 01 00 00 00 00 00 01 01",
    ),
    ("restrictions are due, a", 1, "Q 01 01 00 01"),
    ("restrictions are due, b", 1, "Q 01 01 00 01 80"),
    ("the number of fields is due, a", 1, "Q 01 01 00 01 00"),
    ("the number of fields is due, b", 1, "Q 01 01 00 01 00 80"),
    (
        "a known type's number of fields is due",
        1,
        "Q 01 01 00 01 00 00 00 01 01 01",
    ),
    ("a known field's end is due, a", 1, "D 00 01 01 01 01"),
    ("a known field's end is due, b", 1, "D 00 01 01 01 01 80"),
    (
        "restrictions of a field are due, a",
        1,
        "Q 01 01 00 01 00 01",
    ),
    (
        "restrictions of a field are due, b",
        1,
        "Q 01 01 00 01 00 01 80",
    ),
    ("a kind is due, a", 1, "Q 01 01 00 01 00 01 00"),
    ("a kind is due, b", 1, "Q 01 01 00 01 00 01 00 8B"),
    ("a constant i8 is due", 1, "Q 01 01 00 01 00 01 00 00"),
    (
        "a constant i16 is due, b",
        1,
        "Q 01 01 00 01 00 01 00 01 FF",
    ),
    (
        "a constant i32 is due, b",
        1,
        "Q 01 01 00 01 00 01 00 02 FF FF FF",
    ),
    (
        "a constant i64 is due, b",
        1,
        "Q 01 01 00 01 00 01 00 03 FF*7",
    ),
    ("a constant v64 is due, a", 1, "Q 01 01 00 01 00 01 00 04"),
    (
        "a constant v64 is due, b",
        1,
        "Q 01 01 00 01 00 01 00 04 FF*8",
    ),
    ("a length in a kind is due", 1, "Q 01 01 00 01 00 01 00 0F"),
    (
        "a fixed array's element kind is due",
        1,
        "Q 01 01 00 01 00 01 00 0F 02",
    ),
    (
        "an array's element kind is due",
        1,
        "Q 01 01 00 01 00 01 00 11",
    ),
    (
        "a list's element kind is due",
        1,
        "Q 01 01 00 01 00 01 00 12",
    ),
    (
        "a set's element kind is due",
        1,
        "Q 01 01 00 01 00 01 00 13",
    ),
    ("a field name is due, a", 1, "Q 01 01 00 01 00 01 00 0B"),
    ("a field name is due, b", 1, "Q 01 01 00 01 00 01 00 0B 80"),
    (
        "a field name is due behind a constant",
        1,
        "Q 01 01 00 01 00 01 00 01 FF FF",
    ),
    (
        "a field name is due behind an element kind",
        1,
        "Q 01 01 00 01 00 01 00 0F 02 0B",
    ),
    ("an end is due, a", 1, "Q 01 01 00 01 00 01 00 0B 01"),
    ("an end is due, b", 1, "Q 01 01 00 01 00 01 00 0B 01 80"),
    (
        "a second field is due",
        1,
        "Q 01 01 00 01 00 02 00 0B 01 01",
    ),
];
