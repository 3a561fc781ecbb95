//! "Take every coding of at most nine bytes": a padded number has its value
//! wherever a v64 stands.

use super::{ruled, Row};
use crate::generate::spelling::Parts;
use crate::generate::Case;

pub fn cases() -> Vec<Case> {
    let mut cases = ruled(&[CODINGS, HEADS, KINDS, VALUES, BROKEN, BROKEN_VALUES, CUT]);
    cases.extend(whole());
    cases
}

const CODINGS: &[Row] = &[
    ("80 00 is 0", 0, "Q 01 01 00 01 00 01 00 0B 01 [ 8000 ]"),
    ("80 eight times and 00 is 0", 0, "Q 01 01 00 01 00 01 00 0B 01 [ 80*8 00 ]"),
    ("81, 80 seven times and 80 is 1 - 2^63", 0, "Q 01 01 00 01 00 01 00 0B 01 [ 81 80*8 ]"),
    ("FF eight times and 00 is 2^56 - 1", 0, "Q 01 01 00 01 00 01 00 0B 01 [ FF*8 00 ]"),
    ("1 in one to nine bytes", 0, "Q 01 01 00 09 00 01 00 0B 01 [ 01 8100 818000 81 80*2 00 81 80*3 00 81 80*4 00 81 80*5 00 81 80*6 00 81 80*7 00 ]"),
    ("256 in two to nine bytes", 0, "Q 01 01 00 08 00 01 00 0B 01 [ 8002 808200 80828000 8082 80*2 00 8082 80*3 00 8082 80*4 00 8082 80*5 00 8082 80*6 00 ]"),
    ("bits in every byte but the last", 0, "Q 01 01 00 01 00 01 00 0B 01 [ 81 82 84 88 90 A0 C0 81 00 ]"),
    ("a tenth byte is the next number's", 0, "Q 01 01 00 02 00 01 00 0B 01 [ 80*8 00 05 ]"),
    ("a tenth byte is the next number's, the ninth has its top bit", 0, "Q 01 01 00 02 00 01 00 0B 01 [ 80*9 05 ]"),
    ("a tenth byte is left over", 12, "Q 01 01 00 01 00 01 00 0B 01 [ 80*8 00 00 ]"),
];

/// Padded numbers of entries.
const HEADS: &[Row] = &[
    (
        "padded: the number of strings",
        0,
        "8200 00000001 00000002 6162 00",
    ),
    (
        "padded: a second pair's number of strings",
        0,
        "0000 8000 00",
    ),
    ("padded: the number of entries", 0, "Q 8000"),
    ("padded: a name", 0, "Q 01 8100 00 01 00 00"),
    (
        "padded: a known type's name",
        0,
        "Q 01 01 00 01 00 00 00 01 8100 01 00",
    ),
    ("padded: a super name of 0", 0, "Q 01 01 8000 01 00 00"),
    (
        "padded: a super name",
        0,
        "Q 02 01 00 01 00 00 02 8100 00 01 00 00",
    ),
    (
        "padded: a local start",
        0,
        "Q 02 01 00 02 00 00 02 01 8100 01 00 00",
    ),
    ("padded: a count", 0, "Q 01 01 00 8200 00 00"),
    ("padded: a type's restrictions", 0, "Q 01 01 00 01 8000 00"),
    (
        "padded: a number of fields",
        0,
        "Q 01 01 00 01 00 8100 00 07 01 01 05",
    ),
    (
        "padded: a field's restrictions",
        0,
        "Q 01 01 00 01 00 01 8000 07 01 01 05",
    ),
    (
        "padded: a field's name",
        0,
        "Q 01 01 00 01 00 01 00 07 8200 01 05",
    ),
    (
        "padded: an end offset",
        0,
        "Q 01 01 00 01 00 01 00 07 01 8100 05",
    ),
    (
        "padded: a known field's end offset",
        0,
        "D 00 01 01 01 01 8200 8002",
    ),
    (
        "padded: a chunk, and the end of the next",
        0,
        "Q 01 01 00 01 00 02 00 0B 01 02 00 0B 02 8300 8500 06",
    ),
];

/// Padded numbers of kinds.
const KINDS: &[Row] = &[
    ("padded: a kind", 0, "Q 01 01 00 01 00 01 00 8700 01 01 05"),
    (
        "padded: a kind of a reference",
        0,
        "Q 01 01 00 01 00 01 00 A000 01 01 01",
    ),
    (
        "padded: a constant's kind, and the constant",
        0,
        "Q 01 01 00 01 00 01 00 8400 858000 01 00",
    ),
    (
        "padded: a length in a kind",
        0,
        "Q 01 01 00 01 00 01 00 0F 8200 07 01 02 0506",
    ),
    (
        "padded: a fixed array's element kind",
        0,
        "Q 01 01 00 01 00 01 00 0F 02 8700 01 02 0506",
    ),
    (
        "padded: an array's element kind",
        0,
        "Q 01 01 00 01 00 01 00 11 8700 01 02 0105",
    ),
    (
        "padded: a map's number of types",
        0,
        "Q 01 01 00 01 00 01 00 14 8200 07 07 01 03 010506",
    ),
    (
        "padded: a map's element kinds",
        0,
        "Q 01 01 00 01 00 01 00 14 02 8700 A000 01 03 010501",
    ),
];

/// Padded numbers of values.
const VALUES: &[Row] = &[
    (
        "padded: a string",
        0,
        "Q 01 01 00 01 00 01 00 0E 01 [ 8200 ]",
    ),
    (
        "padded: null strings",
        0,
        "Q 01 01 00 02 00 01 00 0E 01 [ 8000 80*8 00 ]",
    ),
    (
        "padded: a reference",
        0,
        "Q 01 01 00 01 00 01 00 20 01 [ 8100 ]",
    ),
    (
        "padded: an annotation's numbers",
        0,
        "Q 01 01 00 02 00 01 00 05 01 [ 8100 01 01 8200 ]",
    ),
    (
        "padded: null annotations",
        0,
        "Q 01 01 00 02 00 01 00 05 01 [ 8000 00 00 8000 ]",
    ),
    (
        "padded: an array's length",
        0,
        "Q 01 01 00 01 00 01 00 11 07 01 [ 8100 05 ]",
    ),
    (
        "padded: an empty list's length",
        0,
        "Q 01 01 00 01 00 01 00 12 0B 01 [ 80*8 00 ]",
    ),
    (
        "padded: elements of a set",
        0,
        "Q 01 01 00 01 00 01 00 13 0B 01 [ 02 8500 06 ]",
    ),
    (
        "padded: elements of a fixed array",
        0,
        "Q 01 01 00 01 00 01 00 0F 02 0E 01 [ 8100 02 ]",
    ),
    (
        "padded: a map's size, key and value",
        0,
        "Q 01 01 00 01 00 01 00 14 02 0B 0E 01 [ 8100 8500 8200 ]",
    ),
    (
        "padded: an inner map's size",
        0,
        "Q 01 01 00 01 00 01 00 14 03 07 07 07 01 [ 01 05 8100 06 07 ]",
    ),
];

/// A padded number is refused by what its value breaks; others of them are among
/// those of "Numbers".
const BROKEN: &[Row] = &[
    ("padded: 1025 strings", 3, "818800"),
    ("padded: 65536 entries", 3, "Q 80808400"),
    (
        "padded: a local start of 65536",
        3,
        "Q 02 01 00 01 00 00 02 01 80808400",
    ),
    (
        "padded: a local start with count 0",
        21,
        "Q 02 01 00 01 00 00 02 01 8100 00",
    ),
    ("padded: 65536 objects", 3, "Q 01 01 00 80808400"),
    (
        "padded: a count past the range above",
        21,
        "Q 02 01 00 01 00 00 02 01 00 8200",
    ),
    ("padded: 129 fields", 3, "Q 01 01 00 01 00 818100"),
    ("padded: kind 21", 10, "Q 01 01 00 01 00 01 00 9500"),
    (
        "padded: kind 33 of one type",
        10,
        "Q 01 01 00 00 00 01 00 A100 01 00",
    ),
    (
        "padded: a length of 65536 in a kind",
        3,
        "Q 01 01 00 01 00 01 00 0F 80808400",
    ),
    (
        "padded: element kind 4",
        10,
        "Q 01 01 00 01 00 01 00 11 8400",
    ),
    (
        "padded: a map of nine types",
        10,
        "Q 01 01 00 01 00 01 00 14 8900",
    ),
    (
        "padded: field name 3 of 2",
        5,
        "Q 01 01 00 01 00 01 00 07 8300",
    ),
    (
        "padded: an end past the file",
        1,
        "Q 01 01 00 01 00 01 00 07 01 8200 05",
    ),
    (
        "padded: an end with a byte left over",
        12,
        "Q 01 01 00 01 00 01 00 07 01 8200 0506",
    ),
    (
        "padded: a count with a value missing",
        12,
        "Q 01 01 00 8200 00 01 00 07 01 01 05",
    ),
];

const BROKEN_VALUES: &[Row] = &[
    (
        "padded: string 3 of 2",
        14,
        "Q 01 01 00 01 00 01 00 0E 01 [ 8300 ]",
    ),
    (
        "padded: object 2 of 1",
        14,
        "Q 01 01 00 01 00 01 00 20 01 [ 8200 ]",
    ),
    (
        "padded: an annotation by no type's name",
        14,
        "Q 01 01 00 01 00 01 00 05 01 [ 8200 01 ]",
    ),
    (
        "padded: an annotation to object 2 of 1",
        14,
        "Q 01 01 00 01 00 01 00 05 01 [ 01 8200 ]",
    ),
    (
        "padded: half-null",
        14,
        "Q 01 01 00 01 00 01 00 05 01 [ 01 8000 ]",
    ),
    (
        "padded: an array of 65536",
        3,
        "Q 01 01 00 01 00 01 00 11 06 01 [ 80808400 ]",
    ),
    (
        "padded: a wrong bool behind a length",
        13,
        "Q 01 01 00 01 00 01 00 11 06 01 [ 8200 FF01 ]",
    ),
    (
        "padded: a length with an element missing",
        12,
        "Q 01 01 00 01 00 01 00 11 06 01 [ 8200 FF ]",
    ),
    (
        "padded: an inner map of 65536",
        3,
        "Q 01 01 00 01 00 01 00 14 03 06 06 06 01 [ 01 FF 80808400 ]",
    ),
];

/// A coding that is cut in its padding has no value, though it would be known.
const CUT: &[Row] = &[
    (
        "a number cut in its padding by the file's end",
        1,
        "8000 80*8",
    ),
    (
        "a name cut in its padding by the file's end",
        1,
        "Q 01 81 80*7",
    ),
    (
        "a value cut in its padding by the chunk's end",
        12,
        "Q 01 01 00 01 00 01 00 0B 01 08 81 80*7",
    ),
    (
        "a value's padding goes on behind the chunk",
        12,
        "Q 01 01 00 01 00 01 00 0B 01 02 8180 00",
    ),
    (
        "a value's padding goes on in the next chunk",
        12,
        "Q 01 01 00 01 00 02 00 0B 01 01 00 0B 02 02 8100",
    ),
    (
        "a string cut in its padding",
        12,
        "Q 01 01 00 01 00 01 00 0E 01 01 8100",
    ),
    (
        "an annotation cut in its padding",
        12,
        "Q 01 01 00 01 00 01 00 05 01 02 018100",
    ),
    (
        "a length cut in its padding",
        12,
        "Q 01 01 00 01 00 01 00 11 07 01 01 8000",
    ),
    (
        "a map's size cut in its padding",
        12,
        "Q 01 01 00 01 00 01 00 14 02 07 07 01 01 8000",
    ),
];

/// Files with every number in nine bytes.
fn whole() -> Vec<Case> {
    let texts = [
        (
            "file D",
            "1 =00000004 'date 1 1 0 2 0 1 0 B 1 ^ [ 1 FFFFFFFFFFFFFFFF ]",
        ),
        (
            "two pairs and a type below another",
            "Q 2 1 0 2 0 0 2 1 1 1 0 0 0 1 1 1 0",
        ),
    ];
    let nine = |(name, text): (&str, &str)| {
        let label = format!("every number in nine bytes: {name}");
        Case::ruled(&label, 0, Parts::of(text).nine())
    };
    texts.map(nine).to_vec()
}
