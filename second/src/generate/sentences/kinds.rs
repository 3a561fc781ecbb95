//! "Kinds": which are listed, and the types of those from 32 upwards.

use super::{ruled, Row};
use crate::generate::notation::bytes;
use crate::generate::Case;
use crate::v64;

pub fn cases() -> Vec<Case> {
    let mut cases = unlisted();
    cases.extend(listed());
    cases.extend(ruled(&[EARLY, LATE]));
    cases
}

/// A type without objects with one field, up to its kind.
const FIELD: &str = "Q 01 01 00 00 00 01 00";

/// Each kind and element kind that is not listed, refused at its number: the
/// file ends there.
fn unlisted() -> Vec<Case> {
    let kind = |front: &str, number: u64| {
        let file = [bytes(FIELD), bytes(front), v64::coded(number)].concat();
        let label = match front {
            "" => format!("kind {number} is not listed"),
            _ => format!("element kind {number} behind {front} is not listed"),
        };
        Case::ruled(&label, 10, file)
    };
    let kinds = [16].into_iter().chain(21..32);
    let mut cases: Vec<Case> = kinds.map(|number| kind("", number)).collect();
    for front in ["0F 02", "11", "14 02"] {
        cases.extend((0..5).chain(15..32).map(|number| kind(front, number)));
    }
    for front in ["12", "13", "14 02 05"] {
        cases.extend([0, 4, 15, 16, 17, 18, 19, 20, 31].map(|number| kind(front, number)));
    }
    cases
}

/// Each kind and element kind that is listed, in a type without objects.
fn listed() -> Vec<Case> {
    let numbers = || (5..15).chain([32]);
    let plain = numbers().map(|number| format!("{number:02X}"));
    let array = numbers().map(|number| format!("0F 02 {number:02X}"));
    let mut fields: Vec<String> = plain.chain(array).collect();
    for many in ["11", "12", "13", "14 02 06"] {
        fields.extend(numbers().map(|number| format!("{many} {number:02X}")));
    }
    fields.extend(numbers().map(|number| format!("14 02 {number:02X} 06")));
    let rows = fields.iter().enumerate();
    let text: String = rows
        .map(|(index, kind)| format!("00 {kind} {:02X} 00 ", index + 1))
        .collect();
    let text = format!(
        "S{} 01 01 00 00 00 {:02X} {text}",
        fields.len(),
        fields.len()
    );
    vec![Case::ruled(
        "every kind and element kind that is listed",
        0,
        bytes(&text),
    )]
}

const EARLY: &[Row] = &[
    ("a kind of 288 is no kind of 32", 10, "Q 01 01 00 01 00 01 00 A0 02 01 01 00"),
    ("a kind of 2^32 + 11 is no kind of 11", 10, "Q 01 01 00 01 00 01 00 8B 80 80 80 10 01 01 00"),
    ("an unlisted kind of a second field", 10, "Q 01 01 00 00 00 02 00 0B 01 00 00 10"),
    ("an unlisted kind before a falling end", 10, "P 01 01 00 00 00 02 00 0B 01 02 00 15 02 01"),
    ("a fixed array of length 65535: the element kind is due", 1, "Q 01 01 00 01 00 01 00 0F FF FF 03"),
    ("a fixed array of length 65535 is accepted", 0, "Q 01 01 00 00 00 01 00 0F FF FF 03 0D 01 00"),
    ("a fixed array of length 65536, at the length", 3, "Q 01 01 00 01 00 01 00 0F 80 80 04"),
    ("a fixed array of length 65536, before the element kind", 3, "Q 01 01 00 01 00 01 00 0F 80 80 04 10 01 00"),
    ("a fixed array of length 2^64 - 1", 3, "Q 01 01 00 01 00 01 00 0F FF*9"),
    ("a fixed array has its length before its element kind", 0, "Q 01 01 00 01 00 01 00 0F 07 08 01 0E 00*7 01*7"),
    ("a fixed array of length 0 is accepted", 0, "Q 01 01 00 02 00 01 00 0F 00 0B 01 00"),
    ("a fixed array of length 1", 0, "Q 01 01 00 02 00 01 00 0F 01 07 01 02 0506"),
    ("17, 18 and 19 have no length in the kind", 0, "P 01 01 00 01 00 03 00 11 07 01 03 00 12 08 02 06 00 13 06 03 07 02 0506 01 0007 00"),
    ("a constant's value stands behind its kind, and its chunk is empty", 0, "P 01 01 00 02 00 05 00 00 05 01 00 00 01 0006 02 00 00 02 00000007 03 00 00 03 00*7 08 04 00 00 04 09 05 00"),
];

/// A kind from 32 upwards is tested behind the region and before the values.
const LATE: &[Row] = &[
    (
        "a type that is not there: the last one is 32 + types - 1",
        0,
        "Q 02 01 00 01 00 01 00 21 01 01 02 00 00 00 00 00",
    ),
    (
        "a type that is not there: 32 + types",
        10,
        "Q 02 01 00 01 00 01 00 22 01 01 02 00 00 00 00 00",
    ),
    (
        "a type that is not there: an array's",
        10,
        "Q 01 01 00 01 00 01 00 11 21 01 01 00",
    ),
    (
        "a type that is not there: a list's",
        10,
        "Q 01 01 00 01 00 01 00 12 21 01 01 00",
    ),
    (
        "a type that is not there: a set's",
        10,
        "Q 01 01 00 01 00 01 00 13 21 01 01 00",
    ),
    (
        "a type that is not there: a fixed array's",
        10,
        "Q 01 01 00 01 00 01 00 0F 02 21 01 02 0000",
    ),
    (
        "a type that is not there, where no value is read: no objects",
        10,
        "Q 01 01 00 00 00 01 00 12 21 01 00",
    ),
    (
        "a type that is not there, where no value is read: length 0",
        10,
        "Q 01 01 00 01 00 01 00 0F 00 21 01 00",
    ),
    (
        "a type that is not there: the first of three fields",
        10,
        "P 01 01 00 01 00 03 00 21 01 01 00 20 02 02 00 20 03 03 000000",
    ),
    (
        "a type that is not there: the second of three fields",
        10,
        "P 01 01 00 01 00 03 00 20 01 01 00 21 02 02 00 20 03 03 000000",
    ),
    (
        "a type that is not there: the last of three fields",
        10,
        "P 01 01 00 01 00 03 00 20 01 01 00 20 02 02 00 21 03 03 000000",
    ),
    (
        "a type that is not there: the first of two entries",
        10,
        "P 02 01 00 01 00 01 00 22 01 01 02 00 01 00 01 00 20 01 02 0000",
    ),
    (
        "a type that is not there: the second of two entries",
        10,
        "P 02 01 00 01 00 01 00 20 01 01 02 00 01 00 01 00 22 01 02 0000",
    ),
    (
        "a type that is not there: the first of two is the place",
        10,
        "P 01 01 00 01 00 02 00 23 01 01 00 22 02 02 0000",
    ),
    (
        "a type that is not there: in a second block",
        10,
        "D 01 00000001 78 01 01 00 01 00 21 02 02 0000",
    ),
    (
        "a type that is not there: behind a known field",
        10,
        "D 01 00000001 78 01 01 01 02 01 00 21 02 04 05 000000",
    ),
    (
        "a type that is not there: declared in the next block",
        10,
        "Q 01 01 00 01 00 01 00 21 01 01 00 00 01 02 00 01 00 00",
    ),
    (
        "a type declared by the end of this block: in an array's and a fixed array's kind too",
        0,
        "P 02 01 00 01 00 03 00 11 21 01 01 00 0F 01 21 02 02 00 21 03 03 02 00 00 00 00 000000",
    ),
    (
        "a type declared in an earlier block, not in this one",
        0,
        "Q 01 01 00 01 00 00 00 01 02 00 01 00 01 00 20 01 01 01",
    ),
    (
        "a kind of 2^63 names no type",
        10,
        "Q 01 01 00 01 00 01 00 80*9 01 00",
    ),
    (
        "an element kind of 2^64 - 1 names no type",
        10,
        "Q 01 01 00 00 00 01 00 11 FF*9 01 00",
    ),
    (
        "a kind of 2^64 - 1 is not tested before its name",
        5,
        "Q 01 01 00 01 00 01 00 FF*9 00",
    ),
    (
        "a kind of 2^64 - 1 is not tested before the region",
        1,
        "Q 01 01 00 01 00 01 00 FF*9 01 05",
    ),
    (
        "an element kind of 2^63 is not tested before its name",
        5,
        "Q 01 01 00 01 00 01 00 13 80*9 03",
    ),
    (
        "a type that is not there comes behind its name",
        5,
        "Q 01 01 00 01 00 01 00 21 00",
    ),
    (
        "a type that is not there comes behind its end",
        4,
        "P 01 01 00 01 00 02 00 07 01 01 00 21 02 00",
    ),
    (
        "a type that is not there comes behind the next field",
        9,
        "P 01 01 00 01 00 02 00 21 01 01 01",
    ),
    (
        "a type that is not there comes behind the next entry",
        5,
        "P 02 01 00 01 00 01 00 23 01 01 00",
    ),
    (
        "a type that is not there, an element's, comes behind the next entry",
        5,
        "P 02 01 00 01 00 01 00 11 23 01 01 00",
    ),
    (
        "a type that is not there comes behind the region",
        1,
        "P 01 01 00 01 00 02 00 06 01 01 00 21 02 03 01 00",
    ),
    (
        "a type that is not there, a fixed array's, comes behind the region",
        1,
        "P 01 01 00 01 00 01 00 0F 01 21 01 02 00",
    ),
    (
        "a type that is not there comes before the values: 13 of an earlier field",
        10,
        "P 01 01 00 01 00 02 00 06 01 01 00 21 02 02 01 00",
    ),
    (
        "a type that is not there comes before the values: 12 of an earlier field",
        10,
        "P 01 01 00 01 00 02 00 0B 01 01 00 11 21 02 02 80 00",
    ),
    (
        "a type that is not there comes before the values: 14 of an earlier entry",
        10,
        "P 02 01 00 01 00 01 00 0E 01 01 02 00 01 00 01 00 22 01 02 06 00",
    ),
];
