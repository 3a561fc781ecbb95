//! "Type block": an entry's name, super name and restrictions, with the bound
//! of types.

use super::{ruled, Row};
use crate::generate::notation::bytes;
use crate::generate::Case;

pub fn cases() -> Vec<Case> {
    let mut cases = ruled(&[ENTRIES, NAMES, SUPERS, RESTRICTIONS]);
    cases.extend(bound_of_types());
    cases
}

const ENTRIES: &[Row] = &[
    ("65535 entries: the first name is due", 1, "Q FF FF 03"),
    ("65536 entries, at their number", 3, "Q 80 80 04"),
    ("2^64 - 1 entries", 3, "Q FF*9"),
    ("33 entries: the first name is due", 1, "Q 21"),
    ("no entries, and the next pair at once", 0, "Q 00 00 00"),
    ("an entry holds name, super name, count, restrictions and fields in this order", 0, "P 02 01 00 02 00 00 03 00 04 00 00"),
    ("a subtype's entry holds name, super name, start, count, restrictions and fields in this order", 0, "P 02 05 00 09 00 00 04 05 02 03 00 00"),
    ("a known type's entry holds name, count and fields in this order", 0, "P 01 03 00 00 00 00 00 01 03 02 01 00 0B 04 02 07 08"),
    ("a known subtype's entry holds name, start, count and fields in this order", 0, "P 02 05 00 00 00 00 04 05 00 00 00 00 00 02 05 09 00 04 02 03 01 00 0B 01 03 07 08 09"),
];

const NAMES: &[Row] = &[
    ("a name is at most the last string's number", 0, "Q 01 02 00 00 00 00"),
    ("a name is not past the last string's number", 5, "Q 01 03"),
    ("a name is not 2^64 - 1", 5, "Q 01 FF*9"),
    ("a name is not 2^63", 5, "Q 01 80*9"),
    ("a name where there is no string", 5, "00 01 01"),
    ("a second entry's name is not 0", 5, "Q 02 02 00 00 00 00 00"),
    ("a second entry's name is not too large", 5, "Q 02 02 00 00 00 00 03"),
    ("a name of an earlier pair's string, and of this pair's", 0, "01 00000001 61 00 01 00000001 62 02 02 00 00 00 00 01 00 00 00 00"),
    ("a name of the next pair's string", 5, "01 00000001 61 01 02 00 00 00 00 01 00000001 62 00"),
    ("5 before 6: name 0, string 1 has its entry", 5, "Q 02 01 00 00 00 00 00"),
    ("5 before 6: name too large, the empty name has its entry", 5, "01 00000000 02 01 00 00 00 00 02"),
    ("names are compared by bytes: six that differ", 0, "06 00000002 00000004 00000006 00000007 0000000A 0000000A 61626163626261616263 06 01 00 00 00 00 02 00 00 00 00 03 00 00 00 00 04 00 00 00 00 05 00 00 00 00 06 00 00 00 00"),
    ("names are compared by bytes: the empty one first", 0, "03 00000000 00000001 00000003 616162 03 01 00 00 00 00 03 00 00 00 00 02 00 00 00 00"),
    ("names are compared by bytes: an equal string of another number has its entry", 6, "03 00000002 00000003 00000005 6162616162 02 03 00 00 00 00 01"),
    ("names are compared by bytes: two empty ones are equal", 6, "02 00000000 00000000 02 01 00 00 00 00 02"),
    ("at most one entry in a block: the first of two again", 6, "Q 03 01 00 00 00 00 02 00 00 00 00 01"),
    ("at most one entry in a block: the second of two again", 6, "Q 03 01 00 00 00 00 02 00 00 00 00 02"),
    ("at most one entry in a block: a known type again", 6, "Q 01 01 00 00 00 00 00 02 01 00 00 01"),
    ("at most one entry in a block: with objects", 6, "Q 02 01 00 01 00 00 01 01 00"),
    ("at most one entry in a block, at the name", 6, "Q 02 01 00 01 00 00 01"),
    ("an entry in every third block", 0, "Q 01 01 00 00 00 00 00 00 00 01 01 01 00"),
    ("the first entry in a block is not the second of all", 0, "Q 02 01 00 00 00 00 02 00 00 00 00 00 02 02 00 00 01 00 00 00 01 01 01 00"),
    ("known by an equal string of a later pair", 0, "Q 01 01 00 01 00 00 01 00000001 61 01 03 01 00"),
    ("new: a string of that name is no entry", 0, "02 00000001 00000002 6161 00 00 01 02 00 00 00 00"),
    ("new: a field of that name is no entry", 0, "Q 02 01 00 00 00 01 00 0B 02 00 02 00 00 00 00"),
    ("the empty string may name a type", 0, "02 00000000 00000001 61 02 01 00 01 00 00 02 01 00 01 00 00"),
];

const SUPERS: &[Row] = &[
    (
        "a super name is at most the last string's number",
        0,
        "Q 02 02 00 01 00 00 01 02 00 01 00 00",
    ),
    (
        "a super name is not past the last string's number: 5 before 7",
        5,
        "Q 02 02 00 00 00 00 01 03",
    ),
    (
        "a super name past the strings is not the empty name",
        5,
        "02 00000000 00000001 61 02 01 00 00 00 00 02 03",
    ),
    ("a super name is not 2^64 - 1", 5, "Q 01 01 FF*9"),
    (
        "a super name of 0 is none, also where string 1 names a type",
        0,
        "Q 02 01 00 01 00 00 02 00 01 00 00",
    ),
    (
        "a super name of a string that names no type",
        7,
        "Q 02 01 00 00 00 00 02 02",
    ),
    (
        "a super name is not the type's own, by an equal string",
        7,
        "02 00000001 00000002 6161 01 01 02",
    ),
    (
        "a super name is not a later entry's",
        7,
        "P 02 01 02 00 00 00 00 02 00 00 00 00",
    ),
    (
        "a super name is not a field's",
        7,
        "P 02 01 00 00 00 01 00 0B 02 00 03 02",
    ),
    (
        "a super name of the first of three types",
        0,
        "P 04 01 00 01 00 00 02 00 02 00 00 03 00 03 00 00 04 01 00 01 00 00",
    ),
    (
        "a super name of the second of three types",
        0,
        "P 04 01 00 01 00 00 02 00 02 00 00 03 00 03 00 00 04 02 01 01 00 00",
    ),
    (
        "a super name by an equal string",
        0,
        "03 00000001 00000002 00000003 616162 02 01 00 01 00 00 03 02 00 01 00 00",
    ),
    (
        "a super name from an earlier block, by a string of this pair",
        0,
        "01 00000001 61 01 01 00 01 00 00 02 00000001 00000002 6162 02 01 01 00 03 02 00 01 00 00",
    ),
    (
        "a super type that itself has one",
        0,
        "P 04 01 00 04 00 00 02 01 01 03 00 00 03 02 02 02 00 00 04 03 03 01 00 00",
    ),
    (
        "a known type gives no super name and no restrictions",
        0,
        "Q 01 01 00 01 00 00 00 01 01 02 00",
    ),
    (
        "a known type's super type is not forgotten",
        0,
        "Q 02 01 00 01 00 00 02 01 00 01 00 00 00 02 01 03 00 02 01 02 00",
    ),
    (
        "a known type's super type is not another's: declared behind an entry of a known type",
        0,
        "Q 01 01 00 01 00 00 00 02 01 02 00 02 01 01 01 00 00 00 02 01 01 00 02 00 01 00",
    ),
    (
        "a known type's super type is not forgotten: its start is held to the range",
        21,
        "Q 02 01 00 01 00 00 02 01 00 01 00 00 00 02 01 03 00 02 02 02",
    ),
    (
        "a type without super type has no start",
        0,
        "Q 02 01 00 01 00 00 02 00 02 00 00 00 02 02 01 00 01 02 00",
    ),
];

const RESTRICTIONS: &[Row] = &[
    ("restrictions of a type: 1", 9, "Q 01 01 00 01 01 00"),
    ("restrictions of a type: 2^64 - 1", 9, "Q 01 01 00 01 FF*9"),
    (
        "restrictions of a type: 2^32",
        9,
        "Q 01 01 00 01 80 80 80 80 10 00",
    ),
    (
        "restrictions of a subtype: 1",
        9,
        "Q 02 01 00 01 00 00 02 01 00 01 01 00",
    ),
    (
        "restrictions of a field: 1",
        9,
        "Q 01 01 00 01 00 01 01 0B 01 00",
    ),
    (
        "restrictions of a second field: 2",
        9,
        "Q 01 01 00 00 00 02 00 0B 01 00 02 0B 02 00",
    ),
    (
        "restrictions of a known type's field: 1",
        9,
        "D 00 01 01 00 01 01",
    ),
    (
        "restrictions of a field: 2^32",
        9,
        "Q 01 01 00 01 00 01 80 80 80 80 10 0B 01 00",
    ),
];

/// `count` new types without objects, by the strings from `first` on.
fn new_types(first: u64, count: u64) -> String {
    (first..first + count)
        .map(|name| format!("{name:02X} 00 00 00 00 "))
        .collect()
}

/// 32 types are accepted; without a string there is no new name, and a known
/// name needs no room.
fn bound_of_types() -> Vec<Case> {
    let all = new_types(2, 32);
    let most = new_types(2, 31);
    let again = "00 02 01 00 00 02 00 00 ".repeat(16);
    let rows = [
        ("a 33rd type, at its name", 3, format!("S34 21 {all} 22")),
        (
            "a 33rd type in the next block",
            3,
            format!("S34 20 {all} 00 01 01"),
        ),
        (
            "a 32nd type in the next block, and a 33rd",
            3,
            format!("S34 1F {most} 00 02 21 00 00 00 00 22"),
        ),
        (
            "32 types and name 0: 5, for there is no new name",
            5,
            format!("S33 21 {all} 00"),
        ),
        (
            "32 types and a name too large: 5, for there is no new name",
            5,
            format!("S33 21 {all} 22"),
        ),
        (
            "32 types and a second entry: 6, for it is no new name",
            6,
            format!("S33 21 {all} 21"),
        ),
        (
            "the bound counts types, not entries: two in 17 blocks, and a third",
            0,
            format!("S3 02 {} {again} 00 01 03 00 00 00 00", new_types(1, 2)),
        ),
        (
            "32 types are accepted, and known ones in the next block",
            0,
            format!("S33 20 {all} 00 02 21 01 00 02 00 00"),
        ),
    ];
    rows.into_iter()
        .map(|(label, answer, text)| Case::ruled(label, answer, bytes(&text)))
        .collect()
}
