//! Listings: every form a line can have, printed from a file and built back.

use super::sheet::Sheet;

/// Name, label and listing in short.
type Row = (&'static str, &'static str, &'static str);

const ROWS: &[Row] = &[
    (
        "hexes",
        "every hex digit on both sides, an empty string, strings again",
        "pair 4 0/str 0123456789abcdef/str /str fedcba9876543210/str /pair 1 0/str 09af90fa",
    ),
    (
        "floats",
        "8 and 16 digits with leading noughts",
        "pair 2 1/str 61/str 62/type 1 0 - 2 2/new 12 1/new 13 2\
         /val 00000000/val 0123abcd/val 000000000000000f/val f9a0123456789bce",
    ),
    (
        "decimals",
        "decimals of one digit up to nineteen",
        "pair 1 1/str 61/type 1 0 - 10 1/new 11 1/val 0/val 9/val 10/val 99/val 100/val -1/val -9/val -10\
         /val 1234567890123456789/val -9223372036854775808",
    ),
    (
        "entries",
        "an entry of each form: with no super type, with one, known, with and without start and objects",
        "pair 4 4/str 61/str 62/str 63/str 64/type 1 0 - 3 1/new 7 4/type 2 1 1 2 1/new 7 4\
         /type 3 2 0 0 1/new 7 3/type 4 0 - 0 0/val 1/val 2/val 3/val 4/val 5\
         /pair 1 4/str 65/type 4 - - 12 2/new 6 4/new 6 1/type 1 - - 1 1/old/type 3 - 0 0 1/new 8 4/type 2 - 0 1 2/old/new 10 5\
         /val 1/val 0/val 1/val 0/val 1/val 0/val 1/val 0/val 1/val 0/val 1/val 0\
         /val 0/val 0/val 0/val 0/val 0/val 0/val 0/val 0/val 0/val 0/val 0/val 1\
         /val 6/val 7/val 11/val 12/val 13",
    ),
    (
        "count0",
        "count 0 of a known type has no old lines",
        "pair 2 1/str 61/str 62/type 1 0 - 1 2/new 7 1/new 4,300 2/val 5/pair 1 1/str 63/type 1 - - 0 1/new 8 3/val -300\
         /pair 0 1/type 1 - - 0 0/pair 0 1/type 1 - - 2 3/old/old/old/val 6/val 7/val 8/val 9",
    ),
    (
        "kinds",
        "kinds of one number and of several",
        "pair 12 1/str 61/str 62/str 63/str 64/str 65/str 66/str 67/str 68/str 69/str 6a/str 6b/str 6c\
         /type 12 0 - 1 12/new 0,0 1/new 1,-300 2/new 2,65536 3/new 3,-4294967296 4/new 4,9223372036854775807 5\
         /new 15,0,14 6/new 15,2,32 7/new 17,13 8/new 18,6 9/new 19,11 10/new 14 11/new 32 12\
         /val/val 1 0/val fff0000000000000 0000000000000000/val 1 0 1/val/val 12/val 1",
    ),
    (
        "lists",
        "values of several elements, of one and of none",
        "pair 3 1/str 61/str 62/str 63/type 1 0 - 3 3/new 17,8 1/new 18,12 2/new 19,14 3\
         /val -1 256 0/val/val 7/val/val 0000000a a0000000/val ffffffff/val 3 3/val 0/val",
    ),
    (
        "annotated",
        "annotations are two fields each, null is two noughts; alone, in arrays of every form, by equal strings",
        "pair 7 2/str 61/str 62/str 63/str 64/str 65/str 66/str 61/type 1 0 - 2 5/new 5 1/new 15,2,5 2/new 17,5 3/new 18,5 4/new 19,5 5\
         /type 2 0 - 3 1/new 15,0,5 6/val 2 3/val 0 0/val 7 1 0 0/val 0 0 1 2/val/val 2 1 2 2 2 3/val 0 0/val/val 1 1 1 1/val 7 2\
         /val/val/val",
    ),
    (
        "annotated-late",
        "annotations of known and late fields, to objects and types of this pair and before",
        "pair 4 2/str 61/str 62/str 63/str 64/type 1 0 - 2 1/new 5 4/type 2 1 1 1 0/val 1 2/val 0 0\
         /pair 1 2/str 61/type 5 - - 1 2/old/new 5 3/type 3 0 - 1 1/new 5 4/val 3 1/val 5 3/val 3 1/val 0 0/val 1 1",
    ),
    (
        "mapped",
        "maps print their sizes before their keys: every element kind as key and as value, repeated and null keys, empty maps",
        "pair 6 1/str 61/str 62/str 63/str 64/str 65/str 66/type 1 0 - 2 6/new 20,2,6,7 1/new 20,2,8,9 2/new 20,2,10,11 3\
         /new 20,2,12,13 4/new 20,2,14,5 5/new 20,2,32,14 6\
         /val 2 1 -128 1 127/val 0/val 1 -300 70000/val 2 5 6 5 6/val 0/val 1 -4294967296 128/val 1 0123abcd fedcba9876543210/val 0\
         /val 3 6 1 2 0 0 0 0 0 0/val 1 1 1 1/val 2 2 0 0 6/val 1 1 5",
    ),
    (
        "mapped-deep",
        "an inner map prints its size first: three, four and eight types, empty ones at every depth",
        "pair 3 1/str 61/str 62/str 63/type 1 0 - 3 3/new 20,3,14,11,7 1/new 20,4,6,5,32,8 2/new 20,8,7,7,7,7,7,7,7,7 3\
         /val 2 3 2 -1 5 300 6 0 0/val 0/val 1 1 0/val 1 1 2 0 0 0 1 3 1 2 -300/val 1 0 0/val 0\
         /val 1 1 1 2 1 3 1 4 1 5 1 6 1 7 8/val 2 1 0 2 2 3 0 4 1 5 0/val 1 1 1 2 1 3 1 4 1 5 1 6 2 7 8 9 10",
    ),
    (
        "mapped-late",
        "maps of known and late fields; types of later entries as keys and values",
        "pair 3 2/str 61/str 62/str 63/type 1 0 - 1 1/new 20,2,33,32 3/type 2 0 - 2 0/val 2 2 1 0 0\
         /pair 0 1/type 1 - - 2 2/old/new 20,3,6,33,5 2/val 0/val 1 1 3/val 1 0 1 2 2 2/val 0/val 1 1 0",
    ),
    (
        "longest",
        "the largest length of a fixed array, of a type that has no objects",
        "pair 1 1/str 61/type 1 0 - 0 1/new 15,65535,7 1",
    ),
];

pub fn ask(sheet: &mut Sheet) {
    for &(name, label, text) in ROWS {
        let file = sheet.listed(name, label, text);
        sheet.shown(&file);
    }
}
