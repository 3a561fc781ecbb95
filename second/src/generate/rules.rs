//! Files written by hand, one or more for each rule of the paper and each
//! sentence of its readings, with the answer the paper gives.

use super::notation::bytes;
use super::{maps, Case};
use crate::v64;

/// A case by its label, answer (0 for accepted) and bytes.
type Row = (&'static str, u8, &'static str);

/// All of them.
pub fn cases() -> Vec<Case> {
    let tables = [
        NUMBERS, PADDED, PAIRS, STRINGS, NAMES, SUPERS, RANGES, FIELDS, KINDS, ENDS, ORDER, VALUES,
        ARRAYS, REFERENCES, GOOD,
    ];
    let rows = tables.into_iter().flatten();
    let mut cases: Vec<Case> = rows
        .map(|&(label, answer, text)| Case::ruled(label, answer, bytes(text)))
        .collect();
    cases.extend(unlisted_kinds());
    cases.extend(element_kinds());
    cases.extend(constants());
    cases
}

/// A type `a` with one object and one new field; kind, name, end and values
/// follow.
const NUMBERS: &[Row] = &[
    ("v64 value 0", 0, "P 01 01 00 01 00 01 00 0B 01 01 00"),
    ("v64 value 127", 0, "P 01 01 00 01 00 01 00 0B 01 01 7F"),
    ("v64 value 128", 0, "P 01 01 00 01 00 01 00 0B 01 02 80 01"),
    ("v64 value 255", 0, "P 01 01 00 01 00 01 00 0B 01 02 FF 01"),
    ("v64 value 256", 0, "P 01 01 00 01 00 01 00 0B 01 02 80 02"),
    (
        "v64 value 16383",
        0,
        "P 01 01 00 01 00 01 00 0B 01 02 FF 7F",
    ),
    (
        "v64 value 16384",
        0,
        "P 01 01 00 01 00 01 00 0B 01 03 80 80 01",
    ),
    (
        "v64 value 2^56-1",
        0,
        "P 01 01 00 01 00 01 00 0B 01 08 FF*7 7F",
    ),
    (
        "v64 value 2^56",
        0,
        "P 01 01 00 01 00 01 00 0B 01 09 80*8 01",
    ),
    ("v64 value -2^63", 0, "P 01 01 00 01 00 01 00 0B 01 09 80*9"),
    ("v64 value -1", 0, "P 01 01 00 01 00 01 00 0B 01 09 FF*9"),
    (
        "v64 value 80 00",
        0,
        "P 01 01 00 01 00 01 00 0B 01 02 80 00",
    ),
    (
        "v64 value of nine bytes, last 00",
        0,
        "P 01 01 00 01 00 01 00 0B 01 09 80*8 00",
    ),
    (
        "v64 value of ten bytes",
        12,
        "P 01 01 00 01 00 01 00 0B 01 0A 80*9 01",
    ),
    (
        "kind of 2^63, all else good",
        10,
        "P 01 01 00 01 00 01 00 80*9 01 00",
    ),
    (
        "kind of 2^64-1, all else good",
        10,
        "P 01 01 00 01 00 01 00 FF*9 01 00",
    ),
    (
        "kind of 2^64-1 is not tested before its name",
        5,
        "P 01 01 00 01 00 01 00 FF*9 00",
    ),
    (
        "kind of 2^64-1 is not tested before the region",
        1,
        "P 01 01 00 01 00 01 00 FF*9 01 05",
    ),
    (
        "element kind of 2^64-1",
        10,
        "P 01 01 00 01 00 01 00 11 FF*9 01 00",
    ),
    (
        "element kind of 2^63 is not tested before its name",
        5,
        "P 01 01 00 01 00 01 00 13 80*9 06",
    ),
    (
        "string number of 2^64-1 is large",
        14,
        "P 01 01 00 01 00 01 00 0E 01 09 FF*9",
    ),
    (
        "object number of 2^64-1 is large",
        14,
        "P 01 01 00 01 00 01 00 20 01 09 FF*9",
    ),
    (
        "object number of 2^63 is large",
        14,
        "P 01 01 00 01 00 01 00 20 01 09 80*9",
    ),
    (
        "constant v64 of -1",
        0,
        "P 01 01 00 01 00 01 00 04 FF*9 01 00",
    ),
    (
        "constant v64 of -2^63",
        0,
        "P 01 01 00 01 00 01 00 04 80*9 01 00",
    ),
    ("80 and the end of the file", 1, "80"),
    ("80 00, the number of entries due", 1, "80 00"),
    ("80 eight times and the end of the file", 1, "80*8"),
    (
        "80 eight times and 00, the number of entries due",
        1,
        "80*8 00",
    ),
    ("ninth byte with its top bit", 3, "80*9"),
    (
        "v64 crosses the chunk's and the file's end",
        12,
        "P 01 01 00 01 00 01 00 0B 01 01 80",
    ),
    (
        "v64 crosses into the next chunk",
        12,
        "P 01 01 00 01 00 02 00 0B 01 01 00 0B 02 02 80 00",
    ),
    (
        "v64 crosses into the next pair",
        12,
        "P 01 01 00 01 00 01 00 0B 01 01 80 01 00000000 00",
    ),
    (
        "v64 crosses where it would be padded",
        12,
        "P 01 01 00 01 00 01 00 0B 01 01 80 00 00",
    ),
    (
        "string number crosses where it would be too large",
        12,
        "P 01 01 00 01 00 01 00 0E 01 01 FF 01 00",
    ),
];

/// A padded number has its value, and is refused by what that breaks.
const PADDED: &[Row] = &[
    ("padded number of strings above its bound", 3, "FF FF 80 00"),
    (
        "padded number of entries above its bound",
        3,
        "P FF FF FF 00",
    ),
    ("padded number of entries, a name due", 1, "P 81 00"),
    ("padded name 0", 5, "P 01 80 00"),
    ("padded name too large", 5, "P 01 FF 00"),
    ("padded super name 0, a count due", 1, "P 01 01 80 00"),
    ("padded super name that is no type", 7, "P 01 01 82 00"),
    ("padded super name too large", 5, "P 01 01 FF 00"),
    (
        "padded local start above its bound",
        3,
        "P 02 01 00 01 00 00 02 01 FF FF FF 00",
    ),
    ("padded count above its bound", 3, "P 01 01 00 FF FF FF 00"),
    (
        "padded count outside of its range",
        21,
        "P 02 01 00 01 00 00 02 01 00 85 00",
    ),
    (
        "padded number of restrictions 0, a number of fields due",
        1,
        "P 01 01 00 01 80 00",
    ),
    ("padded number of restrictions 1", 9, "P 01 01 00 01 81 00"),
    (
        "padded number of fields above its bound",
        3,
        "P 01 01 00 01 00 FF FF 00",
    ),
    (
        "padded number of fields fewer than known",
        11,
        "D 00 01 01 01 80 00",
    ),
    (
        "padded restrictions of a field",
        9,
        "P 01 01 00 01 00 01 81 00",
    ),
    (
        "padded kind that is not listed",
        10,
        "P 01 01 00 01 00 01 00 90 00",
    ),
    ("padded kind", 0, "P 01 01 00 01 00 01 00 8B 00 01 01 00"),
    (
        "padded constant",
        0,
        "P 01 01 00 01 00 01 00 04 80 00 01 00",
    ),
    (
        "padded length in a kind, above its bound",
        3,
        "P 01 01 00 01 00 01 00 0F FF FF FF 00",
    ),
    (
        "padded element kind that is not listed",
        10,
        "P 01 01 00 01 00 01 00 11 90 00",
    ),
    ("padded field name 0", 5, "P 01 01 00 01 00 01 00 0B 80 00"),
    (
        "padded field name that is used",
        6,
        "P 01 01 00 01 00 02 00 0B 01 01 00 0B 81 00",
    ),
    (
        "padded end that falls",
        4,
        "P 01 01 00 01 00 02 00 0B 01 01 00 0B 02 80 00",
    ),
    (
        "padded string number too large",
        14,
        "P 01 01 00 01 00 01 00 0E 01 02 FF 00",
    ),
    (
        "padded object number that is no object",
        14,
        "P 01 01 00 01 00 01 00 20 01 02 FF 00",
    ),
    (
        "padded array length above its bound",
        3,
        "P 01 01 00 01 00 01 00 11 06 01 04 FF FF FF 00",
    ),
];

const PAIRS: &[Row] = &[
    ("empty file", 0, ""),
    ("one empty pair", 0, "00 00"),
    ("32 empty pairs", 0, "0000*32"),
    ("33 empty pairs", 3, "0000*33"),
    ("one byte after 32 pairs", 3, "0000*32 80"),
    ("a padded number after 32 pairs", 3, "0000*32 80 00"),
    ("one byte after 31 pairs", 1, "0000*31 80"),
    (
        "a padded number after 31 pairs, the entries due",
        1,
        "0000*31 80 00",
    ),
    ("number of entries missing", 1, "00"),
    (
        "number of entries missing in the second pair",
        1,
        "00 00 00",
    ),
    (
        "number of entries missing after strings",
        1,
        "01 00000001 61",
    ),
];

const STRINGS: &[Row] = &[
    ("1024 strings announced, no end there", 1, "80 08"),
    ("1025 strings announced, no end there", 3, "81 08"),
    ("2^64-1 strings announced", 3, "FF*9"),
    (
        "1024 strings announced after one",
        3,
        "01 00000000 00 80 08",
    ),
    (
        "1023 strings announced after one",
        1,
        "01 00000000 00 FF 07",
    ),
    ("1024 empty strings", 0, "80 08 00000000*1024 00"),
    (
        "a later block has no room for a string",
        3,
        "80 08 00000000*1024 00 01",
    ),
    (
        "a later block without strings after 1024",
        0,
        "80 08 00000000*1024 00 00 00",
    ),
    (
        "end falls behind one past the file",
        4,
        "02 FFFFFFFF 00000000",
    ),
    ("end falls", 4, "02 00000001 00000000 61 00"),
    ("end falls by the highest byte", 4, "02 01000000 00FFFFFF"),
    ("end past the file", 1, "01 FFFFFFFF"),
    ("end one past the file", 1, "01 00000003 61 00"),
    ("end cut", 1, "01 000000"),
    (
        "second end cut, first one past the file",
        1,
        "02 FFFFFFFF FFFF",
    ),
    (
        "ends do not fall and the first is past the file",
        1,
        "02 00000008 00000009 61",
    ),
    (
        "equal ends are empty strings",
        0,
        "03 00000000 00000001 00000001 61 00",
    ),
    ("equal strings twice", 0, "02 00000001 00000002 61 61 00"),
    (
        "equal strings in two pairs",
        0,
        "01 00000001 61 00 01 00000001 61 00",
    ),
    ("bytes that are no UTF-8", 0, "01 00000003 FF C0 00 00"),
];

const NAMES: &[Row] = &[
    ("name 0", 5, "P 01 00"),
    ("name too large", 5, "P 01 06"),
    ("name of 2^64-1", 5, "P 01 FF*9"),
    ("name without any string", 5, "00 01 01"),
    (
        "name of a string of this pair",
        0,
        "P 00 01 00000001 66 01 06 00 00 00 00",
    ),
    (
        "name of a string of the next pair",
        5,
        "P 01 06 00 00 00 00 01 00000001 66 00",
    ),
    ("second entry", 6, "P 02 01 00 00 00 00 01"),
    (
        "second entry by an equal string",
        6,
        "03 00000001 00000002 00000003 616261 02 01 00 00 00 00 03",
    ),
    (
        "second entry by the same name that is not the first string",
        6,
        "03 00000001 00000002 00000003 616261 02 03 00 00 00 00 01",
    ),
    (
        "known by an equal string of a later pair",
        0,
        "D 01 00000004 64617465 01 02 01 01 01 05",
    ),
    (
        "a longer name is another type",
        0,
        "02 00000001 00000003 616161 02 01 00 00 00 00 02 00 00 00 00",
    ),
    (
        "empty string as a type's name",
        0,
        "01 00000000 01 01 00 01 00 00",
    ),
    (
        "empty string as a type's and a field's name",
        0,
        "02 00000000 00000000 01 01 00 01 00 01 00 0B 02 01 07",
    ),
    (
        "two empty strings are the same name",
        6,
        "02 00000000 00000000 02 01 00 00 00 00 02",
    ),
    ("field name 0", 5, "P 01 01 00 01 00 01 00 0B 00"),
    ("field name too large", 5, "P 01 01 00 01 00 01 00 0B 06"),
    ("field name of 2^63", 5, "P 01 01 00 01 00 01 00 0B 80*9"),
    (
        "field name used in the entry",
        6,
        "P 01 01 00 01 00 02 00 0B 02 01 00 0B 02",
    ),
    (
        "field name used in the entry, by an equal string",
        6,
        "02 00000001 00000002 6161 01 01 00 01 00 02 00 0B 01 01 00 0B 02",
    ),
    (
        "field name used in an earlier block",
        6,
        "D 00 01 01 01 02 0B 00 0B 01",
    ),
    (
        "field name used in an earlier block, count 0",
        6,
        "D 00 01 01 00 01 00 0B 01",
    ),
    (
        "field name used in an earlier block, by an equal string",
        6,
        "D 01 00000004 64617465 01 01 00 01 00 0B 02",
    ),
    (
        "field has its type's name",
        0,
        "P 01 01 00 00 00 01 00 0B 01 00",
    ),
    (
        "field has its super type's field's name",
        0,
        "P 02 01 00 01 00 01 00 0B 03 01 02 01 00 01 00 01 00 0B 03 02 05 06",
    ),
    (
        "field has another type's field's name",
        0,
        "P 02 01 00 01 00 01 00 0B 03 01 02 00 01 00 01 00 0B 03 02 05 06",
    ),
];

const SUPERS: &[Row] = &[
    ("super name too large", 5, "P 01 01 06"),
    ("super name of 2^64-1", 5, "P 01 01 FF*9"),
    ("super name is no type", 7, "P 01 01 02"),
    ("super name is its own", 7, "P 01 01 01"),
    (
        "super name is its own by an equal string",
        7,
        "02 00000001 00000002 6161 01 01 02",
    ),
    (
        "super name is a later type",
        7,
        "P 02 01 02 00 00 00 00 02 00 00 00 00",
    ),
    (
        "super name is a field",
        7,
        "P 02 01 00 00 00 01 00 0B 02 00 03 02",
    ),
    (
        "super type from the same block",
        0,
        "P 02 01 00 01 00 00 02 01 00 01 00 00",
    ),
    (
        "super type by an equal string",
        0,
        "03 00000001 00000002 00000003 616162 02 01 00 01 00 00 03 02 00 01 00 00",
    ),
    (
        "super type from an earlier block",
        0,
        "P 01 01 00 01 00 00 00 02 01 01 00 02 01 00 01 00 00",
    ),
    (
        "known type gives no super name",
        5,
        "P 01 01 00 01 00 00 00 01 01 00 01 00 00 00 00",
    ),
    (
        "chain of four types",
        0,
        "P 04 01 00 04 00 00 02 01 01 03 00 00 03 02 02 02 00 00 04 03 03 01 00 00",
    ),
];

const RANGES: &[Row] = &[
    ("local start is read for a known type", 0, "P 02 01 00 01 00 00 02 01 00 01 00 00 00 02 01 02 00 02 01 01 00"),
    ("local start is read with count 0", 0, "P 02 01 00 01 00 00 02 01 00 00 00 00 00 01 02 00 00 00"),
    ("local start of 65535, no entry above", 21, "P 02 01 00 00 00 00 02 01 FF FF 03 01"),
    ("local start of 65536, nothing behind", 3, "P 02 01 00 01 00 00 02 01 80 80 04"),
    ("local start of 2^64-1", 3, "P 02 01 00 01 00 00 02 01 FF*9 00"),
    ("count of 65536 before the range rule", 3, "P 02 01 00 01 00 00 02 01 05 80 80 04"),
    ("count of 2^64-1 of a subtype", 3, "P 02 01 00 01 00 00 02 01 00 FF*9"),
    ("count of 2^64-1 of a base type", 3, "P 01 01 00 FF*9"),
    ("count of 65536 of a base type", 3, "P 01 01 00 80 80 04"),
    ("entry above is missing", 21, "P 02 01 00 01 00 00 02 01 00 00 00 00 00 01 02 00 01 00"),
    ("entry above is missing, new type", 21, "P 01 01 00 01 00 00 00 01 02 01 00 01"),
    ("entry above comes later", 21, "P 02 01 00 01 00 00 02 01 00 00 00 00 00 02 02 00 01 00 01 01 00"),
    ("entry above has count 0", 21, "P 02 01 00 00 00 00 02 01 00 01"),
    ("entry two above is there, the one above is not", 21, "P 03 01 00 01 00 00 02 01 00 01 00 00 03 02 00 00 00 00 00 02 01 01 00 03 00 01 00"),
    ("count 0 with start 1", 21, "P 02 01 00 02 00 00 02 01 01 00"),
    ("count 0 with start 0, no entry above", 0, "P 02 01 00 01 00 00 02 01 00 01 00 00 00 01 02 00 00 00"),
    ("count 0 with start 0, new, no entry above", 0, "P 01 01 00 01 00 00 00 01 02 01 00 00 00 00"),
    ("count 0 with start 0, entry above later", 0, "P 02 01 00 01 00 00 02 01 00 01 00 00 00 02 02 00 00 00 01 01 00"),
    ("count 0 with start 0 under a range that starts at 1", 0, "P 03 01 00 02 00 00 02 01 01 01 00 00 03 02 00 00 00 00"),
    ("range ends one past the one above", 21, "P 02 01 00 02 00 00 02 01 01 02"),
    ("range ends with the one above", 0, "P 02 01 00 02 00 00 02 01 01 01 00 00"),
    ("range starts before the one above", 21, "P 03 01 00 03 00 00 02 01 01 02 00 00 03 02 00 01"),
    ("range starts with the one above", 0, "P 03 01 00 03 00 00 02 01 01 02 00 00 03 02 01 01 00 00"),
    ("range is counted in the block, not in the pool", 21, "P 01 01 00 03 00 00 00 02 01 01 00 02 01 03 01"),
    ("range starts past 65535 with its count", 21, "P 02 01 00 01 00 00 02 01 FF FF 03 FF FF 03"),
    ("sibling overlaps", 21, "P 03 01 00 03 00 00 02 01 00 02 00 00 03 01 01 01"),
    ("sibling starts before an earlier one", 21, "P 03 01 00 03 00 00 02 01 02 01 00 00 03 01 00 01"),
    ("sibling follows at once", 0, "P 03 01 00 03 00 00 02 01 00 02 00 00 03 01 02 01 00 00"),
    ("sibling leaves a gap", 0, "P 03 01 00 03 00 00 02 01 00 01 00 00 03 01 02 01 00 00"),
    ("third sibling overlaps the first", 21, "P 04 01 00 04 00 00 02 01 00 02 00 00 03 01 00 00 00 00 04 01 01 01"),
    ("siblings in the order of declaration", 0, "P 03 01 00 02 00 00 02 01 00 01 00 00 03 01 01 01 00 00 00 03 01 02 00 02 00 01 00 03 01 01 00"),
    ("siblings against the order of declaration", 0, "P 03 01 00 02 00 00 02 01 00 01 00 00 03 01 01 01 00 00 00 03 01 02 00 03 00 01 00 02 01 01 00"),
    ("earlier sibling is the earlier entry", 21, "P 03 01 00 02 00 00 02 01 00 01 00 00 03 01 01 01 00 00 00 03 01 02 00 03 01 01 00 02 00 01 00"),
    ("a sibling's range of an earlier block does not count", 0, "P 02 01 00 02 00 00 02 01 00 02 00 00 00 02 01 02 00 03 01 00 02 00 00"),
    ("cousins do not count as siblings", 0, "P 05 01 00 04 00 00 02 01 00 02 00 00 03 01 02 02 00 00 04 02 00 02 00 00 05 03 02 02 00 00"),
    ("two base types each start at 0", 0, "P 02 01 00 02 00 00 02 00 02 00 00"),
];

const FIELDS: &[Row] = &[
    ("restrictions of a type 1", 9, "P 01 01 00 01 01"),
    ("restrictions of a type 2^64-1", 9, "P 01 01 00 01 FF*9"),
    ("restrictions of a field 1", 9, "P 01 01 00 01 00 01 01"),
    (
        "restrictions of a field 2^64-1",
        9,
        "P 01 01 00 01 00 01 FF*9",
    ),
    (
        "restrictions of a field of a known type",
        9,
        "D 00 01 01 00 01 02",
    ),
    ("fewer fields than known", 11, "D 00 01 01 01 00"),
    (
        "fewer fields than known, two of three",
        11,
        "P 01 01 00 01 00 03 00 07 01 01 00 07 02 02 00 07 03 03 010203 00 01 01 01 02",
    ),
    ("count 0 and fewer fields than known", 0, "D 00 01 01 00 00"),
    (
        "known type, count 0, no fields, no known ones",
        0,
        "P 01 01 00 01 00 00 00 01 01 00 00",
    ),
    (
        "known type, objects, no fields, no known ones",
        0,
        "P 01 01 00 01 00 00 00 01 01 02 00",
    ),
    ("33 entries announced, nothing behind", 1, "P 21"),
    ("65535 entries announced, nothing behind", 1, "P FF FF 03"),
    ("65536 entries announced, nothing behind", 3, "P 80 80 04"),
    ("2^64-1 entries announced", 3, "P FF*9"),
    (
        "129 fields announced, nothing behind",
        3,
        "P 01 01 00 01 00 81 01",
    ),
    (
        "128 fields announced, nothing behind",
        1,
        "P 01 01 00 01 00 80 01",
    ),
    ("2^64-1 fields announced", 3, "P 01 01 00 00 00 FF*9"),
    (
        "128 fields announced after one, count 0",
        3,
        "D 00 01 01 00 80 01",
    ),
    (
        "127 fields announced after one, count 0",
        1,
        "D 00 01 01 00 7F",
    ),
    (
        "128 fields announced, one of them known",
        1,
        "D 00 01 01 01 80 01",
    ),
    (
        "129 fields announced, one of them known",
        3,
        "D 00 01 01 01 81 01",
    ),
    (
        "new field in a late block, count 0",
        0,
        "D 01 00000001 78 01 01 00 01 00 07 02 02 0506",
    ),
    (
        "new field in a late block, count 0, this block's values only",
        12,
        "D 01 00000001 78 01 01 00 01 00 07 02 00",
    ),
    (
        "new field in a late block, count 1",
        0,
        "D 01 00000001 78 01 01 01 02 01 00 07 02 04 09 050607",
    ),
    (
        "new field in a late block, count 1, this block's value only",
        12,
        "D 01 00000001 78 01 01 01 02 01 00 07 02 02 09 05",
    ),
    (
        "two new fields in a late block, two string numbers",
        0,
        "D 02 00000001 00000002 7879 01 01 00 02 00 07 02 02 00 07 03 04 05060708",
    ),
];

const KINDS: &[Row] = &[
    ("kind 5, nothing behind", 1, "P 01 01 00 01 00 01 00 05"),
    ("kind 16, nothing behind", 10, "P 01 01 00 01 00 01 00 10"),
    ("kind 20, nothing behind", 1, "P 01 01 00 01 00 01 00 14"),
    ("kind 21, nothing behind", 10, "P 01 01 00 01 00 01 00 15"),
    ("kind 31, nothing behind", 10, "P 01 01 00 01 00 01 00 1F"),
    ("kind 32, nothing behind", 1, "P 01 01 00 01 00 01 00 20"),
    (
        "reference to the type itself",
        0,
        "P 01 01 00 01 00 01 00 20 01 01 01",
    ),
    ("no such type", 10, "P 01 01 00 01 00 01 00 21 01 01 00"),
    (
        "no such type where no value is read",
        10,
        "P 01 01 00 00 00 01 00 21 01 00",
    ),
    (
        "no such type, in an array",
        10,
        "P 01 01 00 00 00 01 00 12 21 01 00",
    ),
    (
        "no such type, in a fixed array of length 0",
        10,
        "P 01 01 00 01 00 01 00 0F 00 21 01 00",
    ),
    (
        "no such type in the second field",
        10,
        "P 01 01 00 01 00 02 00 20 01 01 00 21 02 02 00 00",
    ),
    (
        "no such type before a bool byte is tested",
        10,
        "P 01 01 00 01 00 02 00 06 01 01 00 21 02 02 01 00",
    ),
    (
        "no such type after the region",
        1,
        "P 01 01 00 01 00 02 00 06 01 01 00 21 02 03 01 00",
    ),
    (
        "type declared later in the block",
        0,
        "P 02 01 00 01 00 01 00 21 01 01 02 00 01 00 00 01",
    ),
    (
        "type declared in the next block",
        10,
        "P 01 01 00 01 00 01 00 21 01 01 00 00 01 02 00 01 00 00",
    ),
    (
        "fixed array of length 65536, nothing behind",
        3,
        "P 01 01 00 01 00 01 00 0F 80 80 04",
    ),
    (
        "fixed array of length 2^64-1",
        3,
        "P 01 01 00 01 00 01 00 0F FF*9",
    ),
    (
        "fixed array of length 65535, no objects",
        0,
        "P 01 01 00 00 00 01 00 0F FF FF 03 0D 01 00",
    ),
    (
        "fixed array of length 0",
        0,
        "P 01 01 00 02 00 01 00 0F 00 0B 01 00",
    ),
    (
        "fixed array of length 0 with a byte",
        12,
        "P 01 01 00 02 00 01 00 0F 00 0B 01 01 00",
    ),
    (
        "fixed array of fixed arrays",
        10,
        "P 01 01 00 01 00 01 00 0F 02 0F",
    ),
    ("array of arrays", 10, "P 01 01 00 01 00 01 00 11 11"),
    ("array of constants", 10, "P 01 01 00 01 00 01 00 11 00"),
    ("array element kind missing", 1, "P 01 01 00 01 00 01 00 11"),
    (
        "fixed array's element kind missing",
        1,
        "P 01 01 00 01 00 01 00 0F 02",
    ),
    ("constant i8 missing", 1, "P 01 01 00 01 00 01 00 00"),
    ("constant i16 cut", 1, "P 01 01 00 01 00 01 00 01 FF"),
    ("constant i32 cut", 1, "P 01 01 00 01 00 01 00 02 FF FF FF"),
    ("constant i64 cut", 1, "P 01 01 00 01 00 01 00 03 FF*7"),
    ("constant v64 cut", 1, "P 01 01 00 01 00 01 00 04 FF*8"),
    (
        "old constant",
        0,
        "P 01 01 00 01 00 01 00 00 80 01 00 00 01 01 02 01 00",
    ),
];

const ENDS: &[Row] = &[
    (
        "end falls",
        4,
        "P 01 01 00 01 00 02 00 0B 01 01 00 0B 02 00 00",
    ),
    (
        "end falls over two entries",
        4,
        "P 02 01 00 01 00 01 00 0B 01 01 02 00 01 00 01 00 0B 01 00",
    ),
    (
        "end falls among known fields",
        4,
        "P 01 01 00 01 00 02 00 07 01 01 00 07 02 02 0000 00 01 01 01 02 01 00",
    ),
    (
        "ends begin anew in the next block",
        0,
        "D 00 01 01 01 01 01 05",
    ),
    (
        "end of 2^64-1 alone",
        1,
        "P 01 01 00 01 00 01 00 0B 01 FF*9",
    ),
    ("end of 2^63 alone", 1, "P 01 01 00 01 00 01 00 0B 01 80*9"),
    (
        "end of 2^64-1, then 0",
        4,
        "P 01 01 00 01 00 02 00 0B 01 FF*9 00 0B 02 00",
    ),
    (
        "end of 1, then 2^63: large, not falling",
        1,
        "P 01 01 00 01 00 02 00 0B 01 01 00 0B 02 80*9 0000",
    ),
    (
        "first end past the file, then a restriction",
        9,
        "P 01 01 00 01 00 02 00 0B 01 7F 01",
    ),
    (
        "region one byte past the file",
        1,
        "P 01 01 00 01 00 01 00 0B 01 02 00",
    ),
    (
        "region empty and the next pair at once",
        0,
        "P 01 01 00 00 00 01 00 0B 01 00 00 00",
    ),
    (
        "block without an end has no region",
        0,
        "P 01 01 00 05 00 00 00 00",
    ),
    (
        "constant's chunk is not empty",
        12,
        "P 01 01 00 01 00 01 00 00 05 01 01 00",
    ),
    (
        "old constant's chunk is not empty",
        12,
        "P 01 01 00 01 00 01 00 00 05 01 00 00 01 01 01 01 01 00",
    ),
    (
        "chunk of a type without objects is not empty",
        12,
        "P 01 01 00 00 00 01 00 0B 01 01 00",
    ),
    (
        "constant's chunk has its turn after an earlier chunk",
        13,
        "P 01 01 00 01 00 02 00 06 02 01 00 00 05 01 02 01 00",
    ),
    (
        "constant's chunk has its turn before a later chunk",
        12,
        "P 01 01 00 01 00 02 00 00 05 01 01 00 06 02 02 00 01",
    ),
    (
        "constant's chunk is not tested before the region",
        1,
        "P 01 01 00 01 00 01 00 00 05 01 02 00",
    ),
    ("E with end 01", 12, "D 00 01 01 01 01 01 80 02"),
    ("E with end 03", 1, "D 00 01 01 01 01 03 80 02"),
    ("E with count 02", 12, "D 00 01 01 02 01 02 80 02"),
    ("E with fields 00", 11, "D 00 01 01 01 00 02 80 02"),
];

/// Two rules broken: the one read first is given, at one place the smallest.
const ORDER: &[Row] = &[
    (
        "name too large where 32 types are not there",
        5,
        "P 01 07 07",
    ),
    (
        "region past the file before kinds and values",
        1,
        "P 01 01 00 01 00 01 00 3F 01 05 01",
    ),
    (
        "an earlier chunk's value before a later chunk's",
        14,
        "P 01 01 00 01 00 02 00 0E 01 01 00 06 02 02 06 01",
    ),
    (
        "an earlier pair's value before a later pair's count",
        13,
        "P 01 01 00 01 00 01 00 06 01 01 01 81 08",
    ),
    (
        "a string block's bytes before its entries",
        1,
        "01 00000009 61 01 00",
    ),
    (
        "count's bound before its range",
        3,
        "P 01 01 00 FF FF 03 00 00 00 01 02 00 01",
    ),
];

const VALUES: &[Row] = &[
    ("bool 01", 13, "P 01 01 00 01 00 01 00 06 01 01 01"),
    ("bool FE", 13, "P 01 01 00 01 00 01 00 06 01 01 FE"),
    ("bool 00 and FF", 0, "P 01 01 00 02 00 01 00 06 01 02 00 FF"),
    (
        "wrong bool before a left-over byte",
        13,
        "P 01 01 00 01 00 01 00 06 01 02 01 00",
    ),
    (
        "left-over byte after a bool",
        12,
        "P 01 01 00 01 00 01 00 06 01 02 00 01",
    ),
    (
        "wrong bool before a missing one",
        13,
        "P 01 01 00 03 00 01 00 06 01 02 00 01",
    ),
    ("missing bool", 12, "P 01 01 00 02 00 01 00 06 01 01 00"),
    (
        "wrong bool past the chunk's end",
        12,
        "P 01 01 00 02 00 02 00 06 01 01 00 07 02 03 00 01 01",
    ),
    ("i8 7F and 80", 0, "P 01 01 00 02 00 01 00 07 01 02 7F 80"),
    ("i16 cut", 12, "P 01 01 00 02 00 01 00 08 01 03 7FFF 80"),
    ("i32 cut", 12, "P 01 01 00 01 00 01 00 09 01 03 7FFFFF"),
    (
        "i64 left over",
        12,
        "P 01 01 00 01 00 01 00 0A 01 09 80 00*8",
    ),
    (
        "f32 bits",
        0,
        "P 01 01 00 02 00 01 00 0C 01 08 7FC00001 FFFFFFFF",
    ),
    (
        "f64 bits",
        0,
        "P 01 01 00 02 00 01 00 0D 01 10 7FF0000000000001 FF*8",
    ),
    (
        "f32 missing",
        12,
        "P 01 01 00 02 00 01 00 0C 01 04 7FC00001",
    ),
    ("f64 cut", 12, "P 01 01 00 01 00 01 00 0D 01 07 FF*7"),
    ("v64 left over", 12, "P 01 01 00 01 00 01 00 0B 01 02 05 06"),
    ("v64 missing", 12, "P 01 01 00 02 00 01 00 0B 01 01 05"),
    (
        "padded v64 before a left-over byte",
        12,
        "P 01 01 00 01 00 01 00 0B 01 03 80 00 05",
    ),
    (
        "left-over byte that would be padded",
        12,
        "P 01 01 00 01 00 01 00 0B 01 03 05 80 00",
    ),
    ("string null", 0, "P 01 01 00 01 00 01 00 0E 01 01 00"),
    ("string 5 of 5", 0, "P 01 01 00 01 00 01 00 0E 01 01 05"),
    ("string 6 of 5", 14, "P 01 01 00 01 00 01 00 0E 01 01 06"),
    ("string crosses", 12, "P 01 01 00 01 00 01 00 0E 01 01 86"),
    (
        "padded string number 6 of 5",
        14,
        "P 01 01 00 01 00 01 00 0E 01 02 86 00",
    ),
    (
        "string of the next pair",
        14,
        "P 01 01 00 01 00 01 00 0E 01 01 06 01 00000001 66 00",
    ),
    (
        "string of an earlier pair",
        0,
        "P 00 01 00000001 66 01 06 00 01 00 01 00 0E 06 01 03",
    ),
    (
        "string of this pair as an old value",
        0,
        "P 01 01 00 01 00 01 00 0E 01 01 05 01 00000001 66 01 01 01 01 01 06",
    ),
];

const ARRAYS: &[Row] = &[
    (
        "array length missing",
        12,
        "P 01 01 00 01 00 01 00 11 06 01 00",
    ),
    (
        "array length crosses",
        12,
        "P 01 01 00 01 00 01 00 11 06 01 01 80",
    ),
    (
        "array length padded",
        0,
        "P 01 01 00 01 00 01 00 11 06 01 02 80 00",
    ),
    (
        "array length 65536 without elements",
        3,
        "P 01 01 00 01 00 01 00 11 06 01 03 80 80 04",
    ),
    (
        "list length 65536 without elements",
        3,
        "P 01 01 00 01 00 01 00 12 06 01 03 80 80 04",
    ),
    (
        "set length 65536 without elements",
        3,
        "P 01 01 00 01 00 01 00 13 06 01 03 80 80 04",
    ),
    (
        "array length 65535 without elements",
        12,
        "P 01 01 00 01 00 01 00 11 06 01 03 FF FF 03",
    ),
    (
        "array length 2^64-1",
        3,
        "P 01 01 00 01 00 01 00 12 06 01 09 FF*9",
    ),
    (
        "wrong element before a missing one",
        13,
        "P 01 01 00 01 00 01 00 11 06 01 03 03 00 01",
    ),
    (
        "missing element",
        12,
        "P 01 01 00 01 00 01 00 11 06 01 03 03 00 FF",
    ),
    (
        "array element crosses",
        12,
        "P 01 01 00 01 00 01 00 11 0B 01 03 02 05 80",
    ),
    (
        "array element padded",
        0,
        "P 01 01 00 01 00 01 00 11 0B 01 04 02 05 80 00",
    ),
    (
        "array of strings, one too large",
        14,
        "P 01 01 00 01 00 01 00 11 0E 01 03 02 05 06",
    ),
    (
        "array of strings, too large before missing",
        14,
        "P 01 01 00 01 00 01 00 11 0E 01 03 03 05 06",
    ),
    (
        "array of references, one wrong",
        14,
        "P 01 01 00 01 00 01 00 11 20 01 03 02 01 02",
    ),
    (
        "array left over",
        12,
        "P 01 01 00 01 00 01 00 11 06 01 03 01 00 01",
    ),
    ("empty array", 0, "P 01 01 00 01 00 01 00 11 06 01 01 00"),
    (
        "second array missing",
        12,
        "P 01 01 00 02 00 01 00 11 06 01 02 01 FF",
    ),
    (
        "second array's length padded",
        0,
        "P 01 01 00 02 00 01 00 11 06 01 04 01 FF 80 00",
    ),
    (
        "set with repeats",
        0,
        "P 01 01 00 01 00 01 00 13 0B 01 04 03 05 05 05",
    ),
    (
        "fixed array, wrong bool in the second value",
        13,
        "P 01 01 00 02 00 01 00 0F 02 06 01 04 00 FF 00 02",
    ),
    (
        "fixed array, last element missing",
        12,
        "P 01 01 00 02 00 01 00 0F 02 06 01 03 00 FF 00",
    ),
    (
        "fixed array, i16 cut",
        12,
        "P 01 01 00 01 00 01 00 0F 02 08 01 03 000000",
    ),
    (
        "fixed array left over",
        12,
        "P 01 01 00 01 00 01 00 0F 02 07 01 03 000000",
    ),
    (
        "fixed array of length 65535, elements missing",
        12,
        "P 01 01 00 01 00 01 00 0F FF FF 03 0B 01 02 0000",
    ),
];

const REFERENCES: &[Row] = &[
    ("null reference", 0, "P 01 01 00 01 00 01 00 20 01 01 00"),
    ("object 2 of 1", 14, "P 01 01 00 01 00 01 00 20 01 01 02"),
    (
        "reference crosses",
        12,
        "P 01 01 00 01 00 01 00 20 01 01 82",
    ),
    (
        "reference padded",
        0,
        "P 01 01 00 01 00 01 00 20 01 02 81 00",
    ),
    (
        "reference to a later entry",
        0,
        "P 02 01 00 01 00 01 00 21 01 01 02 00 02 00 00 02",
    ),
    (
        "reference past a later entry",
        14,
        "P 02 01 00 01 00 01 00 21 01 01 02 00 02 00 00 03",
    ),
    (
        "reference to an object of the next block",
        14,
        "P 01 01 00 01 00 01 00 20 01 01 02 00 01 01 01 01 01 01",
    ),
    (
        "reference back to an earlier block",
        0,
        "P 01 01 00 01 00 01 00 20 01 01 00 00 01 01 01 01 01 01",
    ),
    (
        "reference to this block's object",
        0,
        "P 01 01 00 01 00 01 00 20 01 01 00 00 01 01 01 01 01 02",
    ),
    (
        "reference to a subtype by its base pool number",
        0,
        "P 02 01 00 03 00 01 00 21 01 03 02 01 02 01 00 00 03 00 03",
    ),
    (
        "reference counted from the subtype's first object",
        14,
        "P 02 01 00 03 00 01 00 21 01 03 02 01 02 01 00 00 01 00 00",
    ),
    (
        "reference one before the subtype",
        14,
        "P 02 01 00 03 00 01 00 21 01 03 02 01 01 01 00 00 01 00 00",
    ),
    (
        "reference one after the subtype",
        14,
        "P 02 01 00 03 00 01 00 21 01 03 02 01 01 01 00 00 03 00 00",
    ),
    (
        "reference to a super type reaches the subtype's objects",
        0,
        "P 02 01 00 03 00 01 00 20 01 03 02 01 01 02 00 00 01 02 03",
    ),
    (
        "null of a type without objects",
        0,
        "P 02 01 00 01 00 01 00 21 01 01 02 00 00 00 00 00",
    ),
    (
        "object 1 of a type without objects",
        14,
        "P 02 01 00 01 00 01 00 21 01 01 02 00 00 00 00 01",
    ),
    (
        "object 1 of a subtype without objects",
        14,
        "P 02 01 00 01 00 01 00 21 01 01 02 01 00 00 00 00 01",
    ),
    (
        "subtype's ranges in two blocks, both reached",
        0,
        "P 02 01 00 02 00 00 02 01 01 01 00 00 00 02 01 02 01 00 21 03 04 02 00 01 00 02 03 00 02",
    ),
    (
        "subtype's ranges in two blocks, before the first",
        14,
        "P 02 01 00 02 00 00 02 01 01 01 00 00 00 02 01 02 01 00 21 03 04 02 00 01 00 02 03 00 01",
    ),
    (
        "subtype's ranges in two blocks, after the last",
        14,
        "P 02 01 00 02 00 00 02 01 01 01 00 00 00 02 01 02 01 00 21 03 04 02 00 01 00 02 03 00 04",
    ),
    (
        "subtype's ranges in two blocks, between them",
        14,
        "P 02 01 00 02 00 00 02 01 00 01 00 00 00 02 01 02 01 00 21 03 04 02 00 01 00 01 03 00 02",
    ),
    (
        "reference to a sibling's object",
        14,
        "P 03 01 00 02 00 01 00 21 01 02 02 01 00 01 00 00 03 01 01 01 00 00 01 02",
    ),
    (
        "numbers of two base pools stay apart",
        0,
        "P 02 01 00 01 00 01 00 21 03 01 02 00 03 00 01 00 20 03 04 03 01 00 01",
    ),
    (
        "old reference to a type of a later block",
        10,
        "P 01 01 00 01 00 01 00 21 01 01 00",
    ),
];

/// Accepted files with several things at once.
const GOOD: &[Row] = &[
    ("file D", 0, "D"),
    ("file E", 0, "E"),
    ("all plain kinds in one type", 0, ALL_PLAIN),
    ("all array kinds in one type", 0, ALL_ARRAYS),
    ("tree of five types in two blocks", 0, TREE),
    ("late fields twice", 0, LATE),
    ("annotations and maps in two blocks", 0, maps::LINKED),
    ("numbers of two bytes", 0, "81 01 00000000*127 00000001 00000002 6162 01 80 01 00 80 01 00 01 00 07 81 01 80 01 05*128"),
];

/// One object, kinds 0 to 4, 6 to 14 and a reference.
pub const ALL_PLAIN: &str = "0F 00000000 00000001 00000002 00000003 00000004 00000005 00000006 \
    00000007 00000008 00000009 0000000A 0000000B 0000000C 0000000D 0000000E \
    'abcdefghijklmn 01 01 00 01 00 0F \
    00 00 80 01 00  00 01 8000 02 00  00 02 7FFFFFFF 03 00  00 03 FF*8 04 00  00 04 FF*9 05 00 \
    00 06 06 01  00 07 07 02  00 08 08 04  00 09 09 08  00 0A 0A 10  00 0B 0B 12  00 0C 0C 16 \
    00 0D 0D 1E  00 0E 0E 1F  00 20 0F 20 \
    FF  80  7FFF  80000000  0102030405060708  80 02  7FC00000  FFF0000000000000  0F  01";

/// Two objects; kinds 15, 17, 18 and 19.
pub const ALL_ARRAYS: &str = "P 01 01 00 02 00 05 \
    00 0F 02 08 01 08  00 0F 00 06 02 08  00 11 0B 03 0D  00 12 20 04 12  00 13 0E 05 15 \
    0001000200038000  02 01 80 01 00  03 01 02 00 00  00 01 05";

/// a above b and c, b above d, e a base of its own; ranges in both blocks, an
/// entry order that is not the one of declaration.
pub const TREE: &str = "P 05 01 00 05 00 01 00 07 01 05  02 01 01 02 00 01 00 20 02 07 \
    03 01 03 02 00 00  04 02 02 01 00 01 00 22 03 08  05 00 01 00 00 \
    0102030405 0105 04 \
    00 04 01 04 02 04 00 22 02 0D  03 00 02 00  02 03 01 01 0E  04 03 01 01 0F \
    06070809 000405060704000600 09 04";

/// A field more in each block, with values for all objects so far.
pub const LATE: &str = "Q 01 01 00 02 00 01 00 07 01 02 0102 \
    00 01 01 01 02 01 00 0B 02 05 03 05 80 01 06 \
    01 00000001 63 01 01 00 01 00 06 03 03 00 FF 00";

/// Every kind and element kind that is not listed, good behind it.
fn unlisted_kinds() -> Vec<Case> {
    let wrong = [16].into_iter().chain(21..32);
    let mut cases = Vec::new();
    for kind in wrong {
        let field = [v64::coded(kind), vec![1, 0]].concat();
        let file = [bytes("P 01 01 00 00 00 01 00"), field].concat();
        cases.push(Case::ruled(&format!("kind {kind}"), 10, file));
    }
    for kind in (0..5).chain(15..32) {
        for array in ["0F 02", "11", "12", "13"] {
            let front = bytes(&format!("P 01 01 00 00 00 01 00 {array}"));
            let file = [front, v64::coded(kind), vec![1, 0]].concat();
            let label = format!("element kind {kind} after {array}");
            cases.push(Case::ruled(&label, 10, file));
        }
    }
    cases
}

/// Every array kind with every element kind, two objects.
fn element_kinds() -> Vec<Case> {
    let elements = [
        ("05", "0203", "0000"),
        ("06", "FF", "00"),
        ("07", "80", "7F"),
        ("08", "8000", "7FFF"),
        ("09", "80000000", "7FFFFFFF"),
        ("0A", "8000000000000000", "7FFFFFFFFFFFFFFF"),
        ("0B", "808080808080808080", "00"),
        ("0C", "7F800000", "80000001"),
        ("0D", "FFF8000000000000", "0000000000000000"),
        ("0E", "05", "00"),
        ("20", "02", "00"),
        ("21", "03", "00"),
    ];
    let mut cases = Vec::new();
    for (kind, one, two) in elements {
        for (array, first, second) in [
            ("0F 02", format!("{one}{two}"), format!("{two}{one}")),
            ("0F 01", one.to_string(), two.to_string()),
            ("0F 00", String::new(), String::new()),
            ("11", format!("01{one}"), "00".to_string()),
            ("12", format!("02{one}{two}"), format!("01{two}")),
            ("13", "00".to_string(), format!("03{two}{one}{one}")),
        ] {
            let values = format!("{first}{second}");
            let end = values.len() / 2;
            let text = format!(
                "P 02 01 00 02 00 01 00 {array} {kind} 01 {end:02X} 02 00 03 00 00 {values}"
            );
            let label = format!("element kind {kind} after {array}, good");
            cases.push(Case::ruled(&label, 0, bytes(&text)));
        }
    }
    cases
}

/// Constants at the ends of their widths.
fn constants() -> Vec<Case> {
    let values = [
        "00 80",
        "00 7F",
        "00 FF",
        "00 00",
        "01 8000",
        "01 7FFF",
        "02 80000000",
        "02 7FFFFFFF",
        "03 8000000000000000",
        "03 7FFFFFFFFFFFFFFF",
        "04 00",
        "04 7F",
        "04 8001",
        "04 FF*8 7F",
        "04 80*8 40",
    ];
    let cases = values.iter().map(|value| {
        let text = format!("P 01 01 00 03 00 01 00 {value} 02 00");
        Case::ruled(&format!("constant {value}"), 0, bytes(&text))
    });
    cases.collect()
}
