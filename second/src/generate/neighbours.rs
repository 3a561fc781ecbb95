//! Files for sentences of the paper that a fault elsewhere would not show:
//! each refused one stands beside an accepted one that differs in little.

use super::notation::bytes;
use super::Case;
use crate::bounds;
use crate::draft::{self, EntryDraft, PairDraft};

/// A case by its label, answer (0 for accepted) and bytes.
type Row = (&'static str, u8, &'static str);

/// All of them.
pub fn cases() -> Vec<Case> {
    let rows = [
        NAMES,
        WIDE,
        SIBLINGS,
        RANGES,
        FIELDS,
        LATE,
        REFERENCES,
        ANNOTATIONS,
        MAPS,
    ]
    .concat();
    let rows = rows.into_iter();
    let mut cases: Vec<Case> = rows
        .map(|(label, answer, text)| Case::ruled(label, answer, bytes(text)))
        .collect();
    cases.extend(cut_arrays());
    cases.extend(objects_of_base_types());
    cases.push(type_33_alone());
    cases.push(over_long());
    cases
}

/// Names that are nearly equal.
const NAMES: &[Row] = &[
    (
        "two types, names equal in their first eight bytes",
        0,
        "02 00000009 00000012 'abcdefghi 'abcdefghj 02 01 00 00 00 00 02 00 00 00 00",
    ),
    (
        "two types, names of nine equal bytes",
        6,
        "02 00000009 00000012 'abcdefghi 'abcdefghi 02 01 00 00 00 00 02 00 00 00 00",
    ),
    (
        "two types, names equal up to a 00",
        0,
        "02 00000003 00000006 610062 610063 02 01 00 00 00 00 02 00 00 00 00",
    ),
    (
        "two types, names equal with a 00",
        6,
        "02 00000003 00000006 610062 610062 02 01 00 00 00 00 02 00 00 00 00",
    ),
    (
        "two types, names equal but for a 00 behind",
        0,
        "02 00000001 00000003 61 6100 02 01 00 00 00 00 02 00 00 00 00",
    ),
    (
        "two types, names equal but for a top bit",
        0,
        "02 00000001 00000002 61 E1 02 01 00 00 00 00 02 00 00 00 00",
    ),
    (
        "two types, names equal but for a capital",
        0,
        "02 00000001 00000002 61 41 02 01 00 00 00 00 02 00 00 00 00",
    ),
    (
        "two fields, names equal in their first eight bytes",
        0,
        "02 00000009 00000012 'abcdefghi 'abcdefghj 01 01 00 00 00 02 00 07 01 00 00 07 02 00",
    ),
    (
        "two fields, names of nine equal bytes",
        6,
        "02 00000009 00000012 'abcdefghi 'abcdefghi 01 01 00 00 00 02 00 07 01 00 00 07 02 00",
    ),
    (
        "two fields, names equal up to a 00",
        0,
        "02 00000003 00000006 610062 610063 01 01 00 00 00 02 00 07 01 00 00 07 02 00",
    ),
    (
        "super name equal to a type in its first eight bytes",
        7,
        "03 00000009 00000012 00000013 'abcdefghi 'abcdefghj 'x \
            02 01 00 00 00 00 03 02 00 00 00 00",
    ),
    (
        "super name of nine bytes by an equal string",
        0,
        "03 00000009 00000012 00000013 'abcdefghi 'abcdefghi 'x \
            02 01 00 00 00 00 03 02 00 00 00 00",
    ),
];

/// Numbers that are good in their low 32 bits alone.
const WIDE: &[Row] = &[
    ("2^32+1 strings", 3, "81 80 80 80 10 00000001 61 00"),
    ("2^32+1 entries", 3, "P 81 80 80 80 10 01 00 00 00 00"),
    ("name of 2^32+1", 5, "P 01 81 80 80 80 10 00 00 00 00"),
    (
        "super name of 2^32+1",
        5,
        "P 02 01 00 00 00 00 02 81 80 80 80 10 00 00 00 00",
    ),
    ("super name of 2^32", 5, "P 01 01 80 80 80 80 10 00 00 00"),
    (
        "local start of 2^32",
        3,
        "P 02 01 00 01 00 00 02 01 80 80 80 80 10 01 00 00",
    ),
    (
        "count of 2^32+1 of a base type",
        3,
        "P 01 01 00 81 80 80 80 10 00 00",
    ),
    (
        "count of 2^32+1 of a subtype",
        3,
        "P 02 01 00 01 00 00 02 01 00 81 80 80 80 10 00 00",
    ),
    (
        "restrictions of a type 2^32",
        9,
        "P 01 01 00 01 80 80 80 80 10 00",
    ),
    ("restrictions of a type 256", 9, "P 01 01 00 01 80 02 00"),
    (
        "restrictions of a field 2^32",
        9,
        "P 01 01 00 00 00 01 80 80 80 80 10 0B 01 00",
    ),
    ("2^32 fields", 3, "P 01 01 00 01 00 80 80 80 80 10"),
    (
        "2^32+1 fields, one known",
        3,
        "D 00 01 01 01 81 80 80 80 10 01 05",
    ),
    (
        "kind of 2^32+11",
        10,
        "P 01 01 00 01 00 01 00 8B 80 80 80 10 01 01 05",
    ),
    (
        "kind of 2^32+32",
        10,
        "P 01 01 00 01 00 01 00 A0 80 80 80 10 01 01 01",
    ),
    (
        "length of 2^32+1 in a kind",
        3,
        "P 01 01 00 01 00 01 00 0F 81 80 80 80 10 07 01 01 05",
    ),
    (
        "element kind of 2^32+11",
        10,
        "P 01 01 00 01 00 01 00 11 8B 80 80 80 10 01 02 01 05",
    ),
    (
        "2^32+2 types of a map",
        10,
        "P 01 01 00 01 00 01 00 14 82 80 80 80 10 07 07 01 01 00",
    ),
    (
        "key kind of 2^32+7",
        10,
        "P 01 01 00 01 00 01 00 14 02 87 80 80 80 10 07 01 01 00",
    ),
    (
        "value kind of 2^32+32",
        10,
        "P 01 01 00 01 00 01 00 14 02 07 A0 80 80 80 10 01 01 00",
    ),
    (
        "field name of 2^32+1",
        5,
        "P 01 01 00 01 00 01 00 0B 81 80 80 80 10 01 05",
    ),
    (
        "end of 2^32+1",
        1,
        "P 01 01 00 01 00 01 00 0B 01 81 80 80 80 10 05",
    ),
    (
        "array length of 2^32+1",
        3,
        "P 01 01 00 01 00 01 00 11 07 01 06 81 80 80 80 10 05",
    ),
    (
        "map size of 2^32+1",
        3,
        "P 01 01 00 01 00 01 00 14 02 07 07 01 07 81 80 80 80 10 05 06",
    ),
    (
        "inner map size of 2^32",
        3,
        "P 01 01 00 01 00 01 00 14 03 07 07 07 01 07 01 05 80 80 80 80 10",
    ),
    (
        "annotation's string number of 2^32+1",
        14,
        "P 01 01 00 01 00 01 00 05 01 06 81 80 80 80 10 01",
    ),
    (
        "annotation's object number of 2^32+1",
        14,
        "P 01 01 00 01 00 01 00 05 01 06 01 81 80 80 80 10",
    ),
    (
        "string number of 2^32+1",
        14,
        "P 01 01 00 01 00 01 00 0E 01 05 81 80 80 80 10",
    ),
    (
        "string number of 2^32",
        14,
        "P 01 01 00 01 00 01 00 0E 01 05 80 80 80 80 10",
    ),
    (
        "object number of 2^32+1",
        14,
        "P 01 01 00 01 00 01 00 20 01 05 81 80 80 80 10",
    ),
    (
        "object number of 2^32",
        14,
        "P 01 01 00 01 00 01 00 20 01 05 80 80 80 80 10",
    ),
];

/// Every earlier sibling of the same block is asked, and no other range.
const SIBLINGS: &[Row] = &[
    (
        "third sibling overlaps the second, not the first",
        21,
        "P 04 01 00 04 00 00 02 01 00 01 00 00 03 01 01 02 00 00 04 01 02 01 00 00",
    ),
    (
        "third sibling follows the second",
        0,
        "P 04 01 00 04 00 00 02 01 00 01 00 00 03 01 01 02 00 00 04 01 03 01 00 00",
    ),
    (
        "fourth sibling overlaps the third, not the first two",
        21,
        "P 05 01 00 05 00 00 02 01 00 01 00 00 03 01 01 01 00 00 04 01 02 02 00 00 05 01 03 01 00 00",
    ),
    (
        "fourth sibling overlaps the second, not the first",
        21,
        "P 05 01 00 05 00 00 02 01 00 01 00 00 03 01 01 02 00 00 04 01 03 01 00 00 05 01 02 01 00 00",
    ),
    (
        "fourth sibling follows the third",
        0,
        "P 05 01 00 05 00 00 02 01 00 01 00 00 03 01 01 01 00 00 04 01 02 02 00 00 05 01 04 01 00 00",
    ),
    (
        "third sibling overlaps the second, the first has count 0",
        21,
        "P 04 01 00 04 00 00 02 01 00 00 00 00 03 01 01 02 00 00 04 01 02 01 00 00",
    ),
    (
        "third sibling overlaps the first, the second has count 0",
        21,
        "P 04 01 00 04 00 00 02 01 01 02 00 00 03 01 00 00 00 00 04 01 02 01 00 00",
    ),
    (
        "a sibling with count 0 and start 0 behind another",
        0,
        "P 03 01 00 04 00 00 02 01 01 02 00 00 03 01 00 00 00 00",
    ),
    (
        "third entry overlaps the second, against the order of declaration",
        21,
        "P 04 01 00 00 00 00 02 01 00 00 00 00 03 01 00 00 00 00 04 01 00 00 00 00 \
            00 04 01 04 00 04 00 01 00 03 01 02 00 02 02 01 00",
    ),
    (
        "third entry follows the second, against the order of declaration",
        0,
        "P 04 01 00 00 00 00 02 01 00 00 00 00 03 01 00 00 00 00 04 01 00 00 00 00 \
            00 04 01 04 00 04 00 01 00 03 01 02 00 02 03 01 00",
    ),
    (
        "siblings of an earlier block are not asked",
        0,
        "P 03 01 00 04 00 00 02 01 01 01 00 00 03 01 02 02 00 00 \
            00 03 01 04 00 03 00 01 00 02 01 01 00",
    ),
    (
        "siblings of an earlier block are not asked, those of this one are",
        21,
        "P 03 01 00 04 00 00 02 01 01 01 00 00 03 01 02 02 00 00 \
            00 03 01 04 00 03 00 02 00 02 01 01 00",
    ),
    (
        "a cousin behind a later one",
        0,
        "P 05 01 00 04 00 00 02 01 00 02 00 00 03 01 02 02 00 00 05 03 02 02 00 00 04 02 00 02 00 00",
    ),
    (
        "a cousin behind a later one, past its super type",
        21,
        "P 05 01 00 04 00 00 02 01 00 02 00 00 03 01 02 02 00 00 05 03 02 02 00 00 04 02 00 03 00 00",
    ),
    (
        "a sibling behind a type under the earlier one",
        0,
        "P 04 01 00 04 00 00 02 01 00 02 00 00 03 02 01 01 00 00 04 01 02 01 00 00",
    ),
    (
        "types under two siblings of the same start",
        0,
        "P 05 01 00 04 00 00 02 01 00 02 00 00 03 02 00 01 00 00 04 01 02 02 00 00 05 04 02 01 00 00",
    ),
];

const RANGES: &[Row] = &[
    (
        "count 0 with start 0 under count 0",
        0,
        "P 02 01 00 00 00 00 02 01 00 00 00 00",
    ),
    (
        "count 0 with start 1 under count 0",
        21,
        "P 02 01 00 00 00 00 02 01 01 00 00 00",
    ),
    (
        "a type under a subtype, second block's object by its base pool number",
        0,
        "P 03 01 00 02 00 00 02 01 00 02 00 00 03 02 00 01 00 00 \
            00 03 01 02 01 00 22 04 04 02 00 02 00 03 01 01 00 01040000",
    ),
    (
        "a type under a subtype, second block's object by its number in the block",
        14,
        "P 03 01 00 02 00 00 02 01 00 02 00 00 03 02 00 01 00 00 \
            00 03 01 02 01 00 22 04 04 02 00 02 00 03 01 01 00 01020000",
    ),
    (
        "a type under a subtype, second block's object by its super type's number",
        14,
        "P 03 01 00 02 00 00 02 01 00 02 00 00 03 02 00 01 00 00 \
            00 03 01 02 01 00 22 04 04 02 00 02 00 03 01 01 00 01030000",
    ),
];

const FIELDS: &[Row] = &[
    (
        "two known fields of different widths, in order",
        0,
        "P 01 01 00 01 00 02 00 07 01 01 00 08 02 03 05 0006 00 01 01 01 02 01 03 07 0008",
    ),
    (
        "two known fields of different widths, ends the other way",
        12,
        "P 01 01 00 01 00 02 00 07 01 01 00 08 02 03 05 0006 00 01 01 01 02 02 03 0007 08",
    ),
    (
        "two known fields of one kind, in order",
        0,
        "P 01 01 00 01 00 02 00 07 01 01 00 07 02 02 05 06 00 01 01 01 02 01 02 07 08",
    ),
    (
        "a field has the name of the field before the last",
        6,
        "P 01 01 00 01 00 03 00 07 01 01 00 07 02 02 00 07 01 03 050607",
    ),
    (
        "a field has the name of the second field",
        6,
        "P 01 01 00 01 00 03 00 07 01 01 00 07 02 02 00 07 02 03 050607",
    ),
    (
        "three fields of three names",
        0,
        "P 01 01 00 01 00 03 00 07 01 01 00 07 02 02 00 07 03 03 050607",
    ),
];

/// Every reference kind of the block is tested, and every end.
const LATE: &[Row] = &[
    (
        "no such type in the first field, one in the second",
        10,
        "P 01 01 00 01 00 02 00 21 01 01 00 20 02 02 00 00",
    ),
    (
        "no such type in the middle one of three fields",
        10,
        "P 01 01 00 00 00 03 00 20 01 00 00 12 21 02 00 00 20 03 00",
    ),
    (
        "a type in each of three fields",
        0,
        "P 01 01 00 00 00 03 00 20 01 00 00 12 20 02 00 00 20 03 00",
    ),
    (
        "a new field's end falls behind a known field's",
        4,
        "D 01 00000001 78 01 01 01 02 02 00 07 02 01 09 050607",
    ),
    (
        "a new type's end falls behind a known field's",
        4,
        "D 01 00000001 78 02 01 01 01 02 02 00 01 00 01 00 07 02 01 09 05 06",
    ),
    (
        "a new type's end follows a known field's",
        0,
        "D 01 00000001 78 02 01 01 01 02 02 00 01 00 01 00 07 02 03 89 05 06",
    ),
];

/// Three blocks of two objects, the second of each a `b`; in the third block
/// `a` gets references to `b`.
const REFERENCES: &[Row] = &[
    (
        "three ranges, each reached, and null",
        0,
        "P 02 01 00 02 00 00 02 01 01 01 00 00 \
        00 02 01 02 00 02 01 01 00 00 02 01 02 01 00 21 03 06 02 01 01 00 020406000204",
    ),
    (
        "three ranges, the last and null",
        0,
        "P 02 01 00 02 00 00 02 01 01 01 00 00 \
        00 02 01 02 00 02 01 01 00 00 02 01 02 01 00 21 03 06 02 01 01 00 060000000000",
    ),
    (
        "three ranges, the middle one",
        0,
        "P 02 01 00 02 00 00 02 01 01 01 00 00 \
        00 02 01 02 00 02 01 01 00 00 02 01 02 01 00 21 03 06 02 01 01 00 040404040404",
    ),
    (
        "three ranges, before the first",
        14,
        "P 02 01 00 02 00 00 02 01 01 01 00 00 \
        00 02 01 02 00 02 01 01 00 00 02 01 02 01 00 21 03 06 02 01 01 00 010000000000",
    ),
    (
        "three ranges, between the first two",
        14,
        "P 02 01 00 02 00 00 02 01 01 01 00 00 \
        00 02 01 02 00 02 01 01 00 00 02 01 02 01 00 21 03 06 02 01 01 00 030000000000",
    ),
    (
        "three ranges, between the last two",
        14,
        "P 02 01 00 02 00 00 02 01 01 01 00 00 \
        00 02 01 02 00 02 01 01 00 00 02 01 02 01 00 21 03 06 02 01 01 00 050000000000",
    ),
    (
        "three ranges, behind the last",
        14,
        "P 02 01 00 02 00 00 02 01 01 01 00 00 \
        00 02 01 02 00 02 01 01 00 00 02 01 02 01 00 21 03 06 02 01 01 00 070000000000",
    ),
];

/// Names that nearly are a base type's, and objects that nearly are there.
const ANNOTATIONS: &[Row] = &[
    (
        "annotation by a name of nine bytes",
        0,
        "02 00000009 00000012 'abcdefghi 'abcdefghi 01 01 00 01 00 01 00 05 01 02 0201",
    ),
    (
        "annotation by a name that differs in the ninth byte",
        14,
        "02 00000009 00000012 'abcdefghi 'abcdefghj 01 01 00 01 00 01 00 05 01 02 0201",
    ),
    (
        "annotation by a name that goes on behind a 00",
        14,
        "02 00000003 00000006 610062 610063 01 01 00 01 00 01 00 05 01 02 0201",
    ),
    (
        "annotation by a name with a capital",
        14,
        "02 00000001 00000002 61 41 01 01 00 01 00 01 00 05 01 02 0201",
    ),
    (
        "annotation by the second of two base types",
        0,
        "P 02 01 00 01 00 01 00 05 01 02 02 00 03 00 00 0203",
    ),
    (
        "annotation by the first of two base types, an object of the second",
        14,
        "P 02 01 00 01 00 01 00 05 01 02 02 00 03 00 00 0103",
    ),
    (
        "annotation by a base type behind a subtype of another",
        0,
        "P 03 01 00 02 00 01 00 05 01 04 02 01 00 01 00 00 03 00 03 00 00 0303 0102",
    ),
    (
        "annotation by a subtype before a base type of more objects",
        14,
        "P 03 01 00 02 00 01 00 05 01 04 02 01 00 01 00 00 03 00 03 00 00 0201 0102",
    ),
    (
        "annotation to an object of a subtype's gap",
        0,
        "P 02 01 00 03 00 01 00 05 01 06 02 01 01 01 00 00 0101 0102 0103",
    ),
    (
        "annotation to the objects of three pairs",
        0,
        "P 01 01 00 02 00 00 00 01 01 02 00 00 01 01 02 01 00 05 02 0C 0101 0102 0103 0104 0105 0106",
    ),
    (
        "annotation past the objects of three pairs",
        14,
        "P 01 01 00 02 00 00 00 01 01 02 00 00 01 01 02 01 00 05 02 0C 0101 0102 0103 0104 0105 0107",
    ),
    (
        "annotation to a type that has its objects in an earlier pair",
        0,
        "P 02 01 00 02 00 00 02 00 01 00 00 00 02 01 00 00 02 01 01 00 05 01 04 0102 0201",
    ),
    (
        "annotation and reference to the same objects",
        0,
        "P 02 01 00 02 00 02 00 05 03 04 00 21 04 06 02 01 01 01 00 00 0102 0101 02 00",
    ),
];

/// One byte of a map more, less or another.
const MAPS: &[Row] = &[
    (
        "two maps of one key and one of none",
        0,
        "P 01 01 00 03 00 01 00 14 02 07 07 01 07 01 02 03 00 01 04 05",
    ),
    (
        "two maps of one key and one of none, a size more",
        12,
        "P 01 01 00 03 00 01 00 14 02 07 07 01 07 01 02 03 01 01 04 05",
    ),
    (
        "map of three types, a size more",
        12,
        "P 01 01 00 01 00 01 00 14 03 07 07 07 01 07 02 01 01 02 03 04 01",
    ),
    (
        "map of three types, a size less",
        12,
        "P 01 01 00 01 00 01 00 14 03 07 07 07 01 07 01 01 01 02 03 04 00",
    ),
    (
        "map of three types, both sizes right",
        0,
        "P 01 01 00 01 00 01 00 14 03 07 07 07 01 07 02 01 01 02 03 04 00",
    ),
    (
        "map of references, each of its own type",
        0,
        "P 02 01 00 01 00 01 00 14 02 20 21 01 03 02 00 02 00 00 01 01 02",
    ),
    (
        "map of references, each of the other's type",
        14,
        "P 02 01 00 01 00 01 00 14 02 20 21 01 03 02 00 02 00 00 01 02 01",
    ),
    (
        "map of annotations and strings",
        0,
        "P 01 01 00 01 00 01 00 14 02 05 0E 01 04 01 01 01 05",
    ),
    (
        "map of strings and annotations",
        14,
        "P 01 01 00 01 00 01 00 14 02 0E 05 01 04 01 01 01 05",
    ),
    (
        "map between two plain fields",
        0,
        "P 01 01 00 01 00 03 00 07 01 01 00 14 02 07 08 02 05 00 07 03 06 09 01 05 0006 08",
    ),
    (
        "map between two plain fields, one byte to the next",
        12,
        "P 01 01 00 01 00 03 00 07 01 01 00 14 02 07 08 02 04 00 07 03 06 09 01 05 0006 08",
    ),
];

/// What stands before a missing or cut element is tested first, in an array
/// of each kind and in single values.
fn cut_arrays() -> Vec<Case> {
    // Element kind, a good element, another one, its refusal, a cut one. A
    // padded one that is right has none: what is missing or left over decides.
    let elements = [
        ("06", "FF", "02", 13, ""),
        ("0B", "05", "8000", 0, "80"),
        ("0E", "05", "06", 14, "85"),
        ("0E", "05", "8500", 0, "85"),
        ("0E", "05", "8600", 14, "8580"),
        ("20", "01", "03", 14, "81"),
        ("20", "01", "8100", 0, "81"),
        ("20", "01", "8300", 14, "8180"),
        ("05", "0102", "0103", 14, "01"),
        ("05", "0101", "0301", 14, "0381"),
        ("05", "0000", "0001", 14, "00"),
        ("05", "0000", "018100", 0, "0181"),
        ("05", "0000", "018000", 14, "0180"),
    ];
    let mut cases = Vec::new();
    for (kind, good, other, refusal, cut) in elements {
        let (which, answer) = match refusal {
            0 => ("padded", 12),
            _ => ("wrong", refusal),
        };
        // Values of two objects: three elements each, or one.
        for (form, length, count) in [
            ("0F 03", "", 3),
            ("11", "03", 3),
            ("12", "03", 3),
            ("13", "03", 3),
            ("", "", 1),
        ] {
            let value = |elements: &[&str]| format!("{length}{}", elements.concat());
            let whole = value(&vec![good; count]);
            let mut row = |what: &str, answer: u8, chunk: String| {
                let end = chunk.len() / 2;
                let text = format!("P 01 01 00 02 00 01 00 {form} {kind} 01 {end:02X} {chunk}");
                let label = format!("kind {form} {kind}, {what}");
                cases.push(Case::ruled(&label, answer, bytes(&text)));
            };
            row("both values whole", 0, [&whole[..], &whole].concat());
            row("second value missing", 12, whole.clone());
            row(
                &format!("{which} element in the first value, the second missing"),
                answer,
                {
                    let mut elements = vec![good; count];
                    elements[count - 1] = other;
                    value(&elements)
                },
            );
            row(
                &format!("{which} element in the first value, bytes left over"),
                answer,
                {
                    let mut elements = vec![good; count];
                    elements[0] = other;
                    [value(&elements), good.repeat(50)].concat()
                },
            );
            if !cut.is_empty() {
                let behind = [value(&vec![good; count]), value(&[])].concat();
                row("second value cut", 12, [&behind, cut].concat());
            }
            if count > 1 {
                let two = |first, second| [whole.clone(), value(&[first, second])].concat();
                row(
                    "third element of the second value missing",
                    12,
                    two(good, good),
                );
                row(
                    &format!("{which} element before a missing one"),
                    answer,
                    two(good, other),
                );
                row(
                    &format!("{which} element two before a missing one"),
                    answer,
                    two(other, good),
                );
                if !cut.is_empty() {
                    row(
                        "third element of the second value cut",
                        12,
                        two(good, good) + cut,
                    );
                    row(
                        &format!("{which} element before a cut one"),
                        answer,
                        two(good, other) + cut,
                    );
                }
            }
        }
    }
    cases
}

/// Only base types' counts are added up for the bound of objects.
fn objects_of_base_types() -> Vec<Case> {
    // Entries of a block: name, super name if new, count.
    type Counts = [(u64, Option<u64>, u64)];
    let block = |counts: &Counts| -> Vec<EntryDraft> {
        let entry = |&(name, super_name, count)| EntryDraft {
            name,
            super_name,
            start: (name == 2 || name == 3).then_some(0),
            count,
            fields: Vec::new(),
        };
        counts.iter().map(entry).collect()
    };
    let case = |label: &str, answer: u8, blocks: &[&Counts]| {
        let strings = ["a", "b", "c", "d"].map(|name| name.as_bytes().to_vec());
        let pairs = blocks.iter().enumerate().map(|(index, counts)| PairDraft {
            strings: if index == 0 {
                strings.to_vec()
            } else {
                Vec::new()
            },
            entries: block(counts),
        });
        let pairs: Vec<PairDraft> = pairs.collect();
        Case::ruled(label, answer, draft::write(&pairs))
    };
    let (a, b, c, d) = ((1, Some(0)), (2, Some(1)), (3, Some(2)), (4, Some(0)));
    let new = |(name, above): (u64, Option<u64>), count: u64| (name, above, count);
    let known = |name: u64, count: u64| (name, None, count);
    vec![
        case(
            "40000 objects, all of them a subtype's",
            0,
            &[&[new(a, 40_000), new(b, 40_000)]],
        ),
        case(
            "65535 objects, all of them of two subtypes in a chain",
            0,
            &[&[new(a, 65_535), new(b, 65_535), new(c, 65_535)]],
        ),
        case(
            "40000 objects, all a subtype's, then 25535 of another base type",
            0,
            &[&[new(a, 40_000), new(b, 40_000), new(d, 25_535)]],
        ),
        case(
            "40000 objects, all a subtype's, then 25536 of another base type",
            3,
            &[&[new(a, 40_000), new(b, 40_000), new(d, 25_536)]],
        ),
        case(
            "20000 objects of a subtype in each of three blocks, and 5535 others",
            0,
            &[
                &[new(a, 20_000), new(b, 20_000)],
                &[known(1, 20_000), known(2, 20_000)],
                &[known(1, 20_000), known(2, 20_000), new(d, 5_535)],
            ],
        ),
        case(
            "20000 objects of a subtype in each of three blocks, and 5536 others",
            3,
            &[
                &[new(a, 20_000), new(b, 20_000)],
                &[known(1, 20_000), known(2, 20_000)],
                &[known(1, 20_000), known(2, 20_000), new(d, 5_536)],
            ],
        ),
        case(
            "a subtype's objects in a later block only",
            0,
            &[&[new(a, 40_000)], &[known(1, 25_535), new(b, 25_535)]],
        ),
    ]
}

/// Types are bounded at a new type's name: nothing has to stand behind it.
fn type_33_alone() -> Case {
    let names = (0..40).map(|index| vec![b'a', b'0' + index]);
    let entry = |name| EntryDraft {
        name,
        super_name: Some(0),
        start: None,
        count: 0,
        fields: Vec::new(),
    };
    let pair = PairDraft {
        strings: names.collect(),
        entries: (1..=33).map(entry).collect(),
    };
    let mut file = draft::write(&[pair]);
    // Super name, count, restrictions and number of fields.
    file.truncate(file.len() - 4);
    Case::ruled("name of a 33rd type, nothing behind", 3, file)
}

/// The file's length comes before whatever else is wrong with it.
fn over_long() -> Case {
    let mut file = bytes("80 00");
    file.resize(bounds::FILE + 1, 0);
    Case::ruled("1048577 bytes, the first number padded", 3, file)
}
