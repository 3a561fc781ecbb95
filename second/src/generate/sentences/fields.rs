//! "Type block": the number of fields and its bound, known and new fields,
//! their names, end offsets and the data region.

use super::{ruled, Row};
use crate::generate::notation::bytes;
use crate::generate::Case;

pub fn cases() -> Vec<Case> {
    let mut cases = ruled(&[NUMBER, KNOWN, NAMES, ENDS, REGION]);
    cases.extend(bound_of_fields());
    cases
}

const NUMBER: &[Row] = &[
    ("128 fields: the first is due", 1, "P 01 01 00 01 00 80 01"),
    ("129 fields, at their number", 3, "P 01 01 00 00 00 81 01"),
    ("2^64 - 1 fields", 3, "P 01 01 00 00 00 FF*9"),
    ("fields of all types together: 2 and 126", 1, "P 02 01 00 00 00 02 00 0B 01 00 00 0B 02 00 02 00 00 00 7E"),
    ("fields of all types together: 2 and 127", 3, "P 02 01 00 00 00 02 00 0B 01 00 00 0B 02 00 02 00 00 00 7F"),
    ("fields of all types together: 1, 1 and 126", 1, "P 03 01 00 00 00 01 00 0B 01 00 02 00 00 00 01 00 0B 01 00 03 01 00 00 00 7E"),
    ("fields of all types together: 1, 1 and 127", 3, "P 03 01 00 00 00 01 00 0B 01 00 02 00 00 00 01 00 0B 01 00 03 01 00 00 00 7F"),
    ("fields of all blocks together, count 0: 1 and 127", 1, "D 00 01 01 00 7F"),
    ("fields of all blocks together, count 0: 1 and 128", 3, "D 00 01 01 00 80 01"),
    ("a known field is not counted again: 1 known and 127", 1, "D 00 01 01 01 80 01"),
    ("a known field is not counted again: 1 known and 128", 3, "D 00 01 01 01 81 01"),
    ("fields of another type and block: 1 and 127", 1, "D 01 00000001 78 01 02 00 01 00 7F"),
    ("fields of another type and block: 1 and 128", 3, "D 01 00000001 78 01 02 00 01 00 80 01"),
    ("fewer fields than known: one of two", 11, "P 01 01 00 01 00 02 00 07 01 01 00 07 02 02 0102 00 01 01 01 01 01"),
    ("fewer fields than known: none of two", 11, "P 01 01 00 01 00 02 00 07 01 01 00 07 02 02 0102 00 01 01 01 00"),
    ("fewer fields than known: declared without objects", 11, "P 01 01 00 00 00 01 00 07 01 00 00 01 01 01 00"),
    ("fewer fields than known: declared in two blocks", 11, "P 01 01 00 00 00 01 00 07 01 00 00 01 01 00 01 00 07 02 00 00 01 01 01 01"),
    ("fewer fields than known: constants count", 11, "P 01 01 00 01 00 01 00 00 05 01 00 00 01 01 01 00"),
    ("count 0: no known field is given", 0, "D 00 01 01 00 00"),
    ("count 0: all fields are new", 10, "D 00 01 01 00 01 00 10"),
    ("known are the type's own fields, not its super type's", 0, "P 02 01 00 01 00 01 00 07 01 01 02 01 00 01 00 00 01 00 02 01 01 01 01 02 00 01 00 02"),
    ("known are the type's own fields, not those below it", 0, "P 02 01 00 01 00 00 02 01 00 01 00 01 00 07 01 01 01 00 02 01 01 00 02 00 01 01 01 02"),
    ("known are the type's own fields, not another type's", 0, "P 02 01 00 01 00 02 00 07 01 01 00 07 02 02 02 00 01 00 01 00 07 01 03 010203 00 01 02 01 01 01 04"),
];

const KNOWN: &[Row] = &[
    ("known fields come first, in order", 0, "P 01 01 00 01 00 03 00 07 01 01 00 08 02 03 00 06 03 04 01 0002 FF 00 01 01 01 04 01 03 04 00 0B 04 06 05 0006 00 07 08"),
    ("known fields come first, in order: two types in turn over three blocks", 0, "P 02 01 00 01 00 01 00 07 01 01 02 00 01 00 01 00 08 01 03 01 0002 00 02 01 00 01 00 09 02 04 02 00 01 00 06 02 05 00000003 FF 00 02 02 01 02 02 03 01 01 02 04 08 0004 00 05 00000006"),
    ("a known field is an end alone", 0, "P 01 01 00 01 00 01 00 07 01 01 01 00 01 01 02 02 02 00 0B 02 05 0203 040506"),
    ("a known constant is an end alone, and its chunk is empty", 0, "P 01 01 00 01 00 02 00 00 05 01 00 00 07 02 01 01 00 01 01 02 02 00 02 0203"),
    ("known constants: ends of 0", 0, "P 01 01 00 01 00 03 00 00 05 01 00 00 01 0006 02 00 00 04 07 03 00 00 01 01 02 03 00 00 00"),
    ("a constant's chunk is empty", 12, "P 01 01 00 01 00 02 00 07 01 01 00 00 05 02 02 01 05"),
    ("a known constant's chunk is empty", 12, "P 01 01 00 01 00 01 00 01 0005 01 00 00 01 01 01 01 02 0005"),
    ("a constant's chunk has its turn behind an earlier chunk", 13, "P 01 01 00 01 00 02 00 06 02 01 00 00 05 01 02 01 00"),
    ("a constant's chunk has its turn before a later chunk", 12, "P 01 01 00 01 00 02 00 00 05 01 01 00 06 02 02 00 01"),
    ("a constant's chunk is not tested at its end", 5, "P 01 01 00 01 00 02 00 00 05 01 01 00 06 00"),
    ("a type without objects has empty chunks", 12, "P 01 01 00 00 00 01 00 0B 01 01 00"),
    ("a type without objects has empty chunks: tested at the chunk's turn", 13, "P 02 01 00 01 00 01 00 06 01 01 02 00 00 00 01 00 0B 01 02 01 00"),
];

const NAMES: &[Row] = &[
    ("a field name is at most the last string's number", 0, "Q 01 01 00 00 00 01 00 0B 02 00"),
    ("a field name is not 0", 5, "Q 01 01 00 00 00 01 00 0B 00"),
    ("a field name is not past the last string's number", 5, "Q 01 01 00 00 00 01 00 0B 03"),
    ("a field name is not 2^63", 5, "Q 01 01 00 00 00 01 00 0B 80*9"),
    ("a second field name is not 0", 5, "Q 01 01 00 00 00 02 00 0B 02 00 00 0B 00"),
    ("a field name of this pair's string", 0, "Q 00 01 00000001 63 01 01 00 00 00 01 00 0B 03 00"),
    ("a field name of the next pair's string", 5, "Q 01 01 00 00 00 01 00 0B 03 00 01 00000001 63 00"),
    ("5 before 6: name 0, string 1 is used", 5, "Q 01 01 00 00 00 02 00 0B 01 00 00 0B 00"),
    ("5 before 6: name too large, the empty name is used", 5, "02 00000001 00000001 61 01 01 00 00 00 02 00 0B 02 00 00 0B 03"),
    ("a field name differs from the other ones of the entry: the first of three", 6, "P 01 01 00 00 00 03 00 0B 01 00 00 0B 02 00 00 0B 01"),
    ("a field name differs from the other ones of the entry: the second of three", 6, "P 01 01 00 00 00 03 00 0B 01 00 00 0B 02 00 00 0B 02"),
    ("a field name differs from the other ones of the entry: of a second type", 6, "P 02 01 00 00 00 01 00 0B 01 00 02 00 00 00 02 00 0B 02 00 00 0B 02"),
    ("a field name differs from the other ones of the entry: of a second type, known fields before", 6, "P 02 01 00 00 00 00 02 00 01 00 01 00 07 02 01 05 00 01 02 01 03 01 00 07 03 03 00 07 03"),
    ("a field name differs from the other ones, by bytes", 6, "02 00000001 00000002 6161 01 01 00 00 00 02 00 0B 01 00 00 0B 02"),
    ("a field name differs from the other ones, by bytes: a longer and a shorter one do", 0, "04 00000002 00000003 00000006 00000006 616261616263 01 01 00 00 00 04 00 0B 01 00 00 0B 02 00 00 0B 03 00 00 0B 04 00"),
    ("a field name differs from the known ones, count above 0", 6, "D 00 01 01 01 02 02 00 0B 01"),
    ("a field name differs from the known ones, count 0", 6, "D 00 01 01 00 01 00 0B 01"),
    ("a field name differs from the known ones, by an equal string of a later pair", 6, "D 01 00000004 64617465 01 01 00 01 00 0B 02"),
    ("a field name differs from the known ones: two blocks before", 6, "Q 01 01 00 00 00 01 00 0B 01 00 00 01 01 00 01 00 0B 02 00 00 01 01 00 01 00 0B 01"),
    ("a field name differs from the known ones: another type's field between", 6, "Q 02 01 00 00 00 01 00 0B 01 00 02 00 00 00 01 00 0B 02 00 00 01 01 00 01 00 0B 01"),
    ("a field name may be used by another type", 0, "Q 02 01 00 00 00 01 00 0B 01 00 02 00 00 00 01 00 0B 01 00"),
    ("a field name may be used by a super type", 0, "Q 02 01 00 00 00 01 00 0B 01 00 02 01 00 00 00 01 00 0B 01 00"),
    ("a field name may be used by a type below", 0, "Q 02 01 00 00 00 00 02 01 00 00 00 01 00 0B 01 00 00 01 01 00 01 00 0B 01 00"),
    ("a field name may be a type's name, its own or another's", 0, "Q 02 02 00 00 00 00 01 00 00 00 02 00 0B 01 00 00 0B 02 00"),
    ("a field name may be empty", 0, "01 00000000 01 01 00 01 00 01 00 07 01 01 05"),
    ("a field's kind comes before its name", 10, "P 01 01 00 00 00 01 00 10 00"),
    ("a field's name comes before its end", 5, "P 01 01 00 00 00 02 00 0B 01 05 00 0B 00 04"),
];

const ENDS: &[Row] = &[
    ("ends do not fall: within an entry", 4, "P 01 01 00 01 00 02 00 07 01 02 00 07 02 01 0000"),
    ("ends do not fall: over two entries", 4, "P 02 01 00 01 00 01 00 07 01 01 02 00 01 00 01 00 07 01 00 00"),
    ("ends do not fall: over an entry without fields", 4, "P 03 01 00 01 00 01 00 07 01 01 02 00 00 00 00 03 00 01 00 01 00 07 01 00 00"),
    ("ends do not fall: over an entry with a known type and count 0", 4, "P 03 01 00 00 00 01 00 07 01 00 02 00 00 00 01 00 07 01 00 03 00 00 00 01 00 07 01 00 00 03 01 01 01 01 02 00 00 03 01 01 00"),
    ("ends do not fall: among known fields", 4, "P 01 01 00 01 00 02 00 07 01 01 00 07 02 02 0000 00 01 01 01 02 01 00 00"),
    ("ends do not fall: among known fields, both above their number", 4, "P 01 01 00 01 00 02 00 0B 01 01 00 0B 02 02 0000 00 01 01 01 02 05 04"),
    ("ends do not fall: among three known fields, against the one before", 4, "P 01 01 00 00 00 03 00 07 01 00 00 07 02 00 00 07 03 00 00 01 01 01 03 01 03 02"),
    ("ends do not fall: from the last known field to a new one", 4, "P 01 01 00 01 00 02 00 07 01 01 00 07 02 02 0000 00 01 01 01 03 01 02 00 07 03 01 0000"),
    ("ends do not fall: from a new field to the next entry's known one", 4, "P 02 01 00 01 00 00 02 00 01 00 01 00 07 01 01 01 00 02 01 01 01 00 07 01 02 02 01 01 01 0000"),
    ("ends do not fall: against the one before, not the first", 4, "P 01 01 00 01 00 03 00 07 01 01 00 08 02 03 00 07 03 02"),
    ("ends do not fall: against the one before in another entry, not the first", 4, "P 02 01 00 01 00 02 00 07 01 01 00 08 02 03 02 00 01 00 01 00 07 03 02"),
    ("ends do not fall, at the end: before the file's end", 4, "P 01 01 00 01 00 03 00 07 01 02 00 07 02 01"),
    ("ends that do not rise are empty chunks, at the first, within and last", 0, "P 01 01 00 01 00 04 00 00 05 01 00 00 07 02 01 00 00 06 03 01 00 00 07 04 01 05"),
    ("ends begin anew in each block", 0, "D 00 01 01 01 01 01 05"),
    ("ends are unsigned: 2^63 is large and past the file", 1, "P 01 01 00 01 00 02 00 07 01 01 00 07 02 80*9 0000"),
    ("ends are unsigned: 1 falls from 2^63", 4, "P 01 01 00 01 00 02 00 07 01 80*9 00 07 02 01 00"),
    ("ends are unsigned: 2^64 - 1 alone is past the file", 1, "P 01 01 00 01 00 01 00 07 01 FF*9 00"),
    ("ends are not held against the file's end at once", 9, "P 01 01 00 01 00 02 00 07 01 7F 01"),
    ("ends are not held against the file's end before the last entry", 5, "P 02 01 00 01 00 01 00 07 01 7F 00"),
];

const REGION: &[Row] = &[
    ("the region is one byte past the file", 1, "P 01 01 00 01 00 01 00 07 01 02 00"),
    ("the region is not there at all", 1, "P 01 01 00 01 00 01 00 07 01 01"),
    ("the region of a second block is one byte past the file", 1, "D 00 01 01 01 01 02 05"),
    ("the region is within the file before its values are tested", 1, "P 01 01 00 01 00 01 00 06 01 02 01"),
    ("the region is within the file before a constant's chunk is tested", 1, "P 01 01 00 01 00 01 00 00 05 01 02 00"),
    ("the last end closes the region, and the next pair starts there", 0, "P 01 01 00 01 00 02 00 07 01 01 00 07 02 02 0506 00 01 01 01 02 01 02 0708"),
    ("the last end closes the region: the next pair is not read from it", 1, "P 01 01 00 01 00 01 00 07 01 01 00 80 00"),
    ("the region is empty if the block gives no end", 0, "P 01 01 00 05 00 00 00 00"),
    ("the region is empty if the block gives no end, after one that did", 0, "D 00 01 01 00 00 00 00"),
    ("the region is empty where all ends are 0", 0, "P 01 01 00 00 00 02 00 0B 01 00 00 0B 02 00 00 00"),
    ("a chunk runs from the end before it to its own: three widths", 0, "P 02 01 00 02 00 02 00 08 01 04 00 07 02 06 02 00 01 00 01 00 09 01 0A 00010002 0304 00000005"),
    ("a chunk runs from the end before it: the first one short, the second one long", 12, "P 01 01 00 02 00 02 00 07 01 01 00 07 02 04 01020304"),
    ("a chunk runs from the end before it: the first one long, the second one short", 12, "P 01 01 00 02 00 02 00 07 01 03 00 07 02 04 01020304"),
    ("chunks stand in the order of the ends: entries, and fields in them", 13, "P 02 01 00 01 00 02 00 07 01 01 00 06 02 02 02 00 01 00 01 00 06 01 03 020202"),
    ("all chunks are tested: the last one's value", 13, "P 02 01 00 01 00 02 00 07 01 01 00 06 02 02 02 00 01 00 01 00 06 01 03 0200 02"),
];

/// 128 fields, in eight types with the same 16 names each; behind them one
/// more.
fn bound_of_fields() -> Vec<Case> {
    let fields: String = (1..=16)
        .map(|name| format!("00 06 {name:02X} 00 "))
        .collect();
    let types: String = (1..=8)
        .map(|name| format!("{name:02X} 00 00 00 10 {fields}"))
        .collect();
    let label = "128 fields are accepted, and a 129th is refused at the number of fields";
    let text = format!("S16 08 {types} 00 01 01 00 01 00 06");
    vec![Case::ruled(label, 3, bytes(&text))]
}
