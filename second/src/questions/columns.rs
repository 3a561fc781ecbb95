//! Columns and numbers of objects: kinds and names that are asked for rightly
//! and wrongly, values at full width, several blocks, subtypes. How many values
//! there are is asked once of a field and a kind, and no room has a part in it.

use super::sheet::{Asked, File, Sheet};
use crate::bounds::TABLE;

/// Signed numbers of each width at their ends.
const WHOLES: &str = "pair 6 1/str 61/str 62/str 63/str 64/str 65/str 66/type 1 0 - 3 5\
    /new 7 2/new 8 3/new 9 4/new 10 5/new 11 6\
    /val -128/val 127/val -1/val -32768/val 32767/val 255/val -2147483648/val 2147483647/val 65536\
    /val -9223372036854775808/val 9223372036854775807/val 4294967296\
    /val -9223372036854775808/val 9223372036854775807/val -2";

/// Flags, floats, strings and references.
const OTHERS: &str = "pair 6 1/str 61/str 62/str 63/str 64/str 65/str 66/type 1 0 - 3 5\
    /new 6 2/new 12 3/new 13 4/new 14 5/new 32 6\
    /val 1/val 0/val 1/val ff800001/val 7f800000/val 00000001\
    /val 8000000000000001/val 7fffffffffffffff/val ffffffffffffffff\
    /val 6/val 0/val 1/val 3/val 0/val 1";

/// Constants of each kind, on both sides of a plain field, over three blocks.
const CONSTANTS: &str = "pair 7 1/str 61/str 62/str 63/str 64/str 65/str 66/str 67/type 1 0 - 1 4\
    /new 0,-128 2/new 1,32767 3/new 7 4/new 2,-2147483648 5/val 9\
    /pair 0 1/type 1 - - 2 5/old/old/old/old/new 3,9223372036854775807 6/val 8/val 7\
    /pair 0 1/type 1 - - 0 1/new 4,-1 7";

/// Arrays of every kind, and no value of an empty one.
const ARRAYS: &str = "pair 6 1/str 61/str 62/str 63/str 64/str 65/str 66/type 1 0 - 1 5\
    /new 15,1,7 2/new 17,8 3/new 18,9 4/new 19,32 5/new 15,0,6 6\
    /val 5/val 6/val 7/val 1/val";

/// Annotations and maps on both sides of a plain field, over two blocks.
const LINKS: &str = "pair 7 1/str 61/str 62/str 63/str 64/str 65/str 66/str 67/type 1 0 - 2 5\
    /new 5 2/new 20,2,7,8 3/new 7 4/new 20,3,5,32,11 5/new 17,5 6\
    /val 1 2/val 0 0/val 2 5 600 5 -1/val 0/val 9/val -8/val 1 1 1 1 2 -3/val 0/val 1 1/val\
    /pair 0 1/type 1 - - 1 6/old/old/old/old/old/new 5 7\
    /val 1 3/val 1 -5 7/val 7/val 1 0 0 0/val 0 0/val 0 0/val 0 0/val 1 1";

/// References to the first, the second and the third type.
const REFERENCES: &str = "pair 6 3/str 61/str 62/str 63/str 64/str 65/str 66\
    /type 1 0 - 2 3/new 32 4/new 33 5/new 34 6/type 2 0 - 1 0/type 3 0 - 3 0\
    /val 2/val 1/val 1/val 0/val 3/val 2";

/// A base type with three types below it over three blocks; late fields, a
/// field name of a super type used again, a name by a later equal string.
const TREE: &str = "pair 7 2/str 6162/str 6364/str 6566/str 7879/str 7a/str 76/str 77\
    /type 1 0 - 3 1/new 7 4/type 2 1 1 2 2/new 7 4/new 8 5/val 1/val 2/val 3/val 4/val 5/val 600/val 700\
    /pair 2 4/str 6162/str 75/type 8 - - 4 2/old/new 7 6/type 3 1 0 1 1/new 7 7/type 2 - 2 2 3/old/old/new 0,-3 9\
    /type 9 2 3 1 1/new 7 7\
    /val 8/val 9/val 10/val 11/val 21/val 22/val 23/val 24/val 25/val 26/val 27/val 31/val 12/val 13/val 800/val 900/val 41\
    /pair 0 3/type 1 - - 1 2/old/old/type 2 - 0 0 1/new 11 1/type 3 - 0 1 1/old\
    /val 14/val 28/val -1/val -2/val -3/val -4/val 32";

/// A type and a field with empty names, a type without objects, and a string
/// that is neither.
const UNNAMED: &str = "pair 4 2/str /str 6162/str 61/str 626364\
    /type 1 0 - 1 2/new 7 1/new 7 4/type 2 0 - 0 2/new 7 3/new 0,1 2/val 5/val 6";

/// As many objects as there can be, with a constant for all of them.
const MANY: &str = "pair 1 1/str 61/type 1 0 - 65535 1/new 0,-3 1";

pub fn ask(sheet: &mut Sheet) {
    wholes(sheet);
    others(sheet);
    constants(sheet);
    arrays(sheet);
    links(sheet);
    references(sheet);
    tree(sheet);
    unnamed(sheet);
    many(sheet);
}

/// How many values there are, asked rightly and wrongly.
fn counts(sheet: &mut Sheet, label: &str, asked: &[Asked<'_>], file: &File) {
    for &of in asked {
        sheet.count(of, file);
    }
    sheet.state(&format!("count-{}", file.name), label);
}

fn wholes(sheet: &mut Sheet) {
    let label = "signed numbers of each width at their ends";
    let file = sheet.listed("wholes", label, WHOLES);
    for (field, kind) in [("b", 7), ("c", 8), ("d", 9), ("e", 10), ("f", 11)] {
        sheet.fill(("a", field, kind), 3, &file);
    }
    sheet.state("fill-wholes", label);
    for (field, kind) in [
        ("b", 6),
        ("b", 8),
        ("b", 0),
        ("c", 7),
        ("c", 1),
        ("d", 10),
        ("d", 12),
        ("e", 11),
        ("e", 13),
        ("f", 4),
        ("f", 10),
        ("f", 12),
        ("f", u64::MAX),
        ("f", (1 << 32) + 11),
    ] {
        sheet.fill(("a", field, kind), 3, &file);
    }
    sheet.state("fill-wholes-other", "and asked for as other kinds");
    counts(
        sheet,
        "how many of them there are",
        &[
            ("a", "b", 7),
            ("a", "c", 8),
            ("a", "d", 9),
            ("a", "e", 10),
            ("a", "f", 11),
            ("a", "b", 0),
            ("a", "f", (1 << 32) + 11),
        ],
        &file,
    );
}

fn others(sheet: &mut Sheet) {
    let label = "flags, floats with the top bit, strings and references";
    let file = sheet.listed("others", label, OTHERS);
    for (field, kind) in [("b", 6), ("c", 12), ("d", 13), ("e", 14), ("f", 32)] {
        sheet.fill(("a", field, kind), 3, &file);
    }
    sheet.state("fill-others", label);
    for (field, kind) in [
        ("b", 5),
        ("b", 7),
        ("c", 9),
        ("c", 13),
        ("d", 10),
        ("d", 12),
        ("d", 14),
        ("e", 13),
        ("e", 15),
        ("e", 32),
        ("f", 14),
        ("f", 31),
        ("f", 33),
        ("f", 64),
        ("f", 11),
        ("f", u64::MAX),
    ] {
        sheet.fill(("a", field, kind), 3, &file);
    }
    sheet.state("fill-others-other", "and asked for as other kinds");
    counts(
        sheet,
        "how many of them there are",
        &[
            ("a", "b", 6),
            ("a", "c", 12),
            ("a", "d", 13),
            ("a", "e", 14),
            ("a", "f", 32),
            ("a", "b", 5),
            ("a", "f", 33),
        ],
        &file,
    );
}

fn constants(sheet: &mut Sheet) {
    let label = "a constant stands once for each object, over all blocks";
    let file = sheet.listed("constants", "constants over three blocks", CONSTANTS);
    sheet.shown(&file);
    for (field, kind) in [("b", 0), ("c", 1), ("d", 7), ("e", 2), ("f", 3), ("g", 4)] {
        sheet.fill(("a", field, kind), 3, &file);
    }
    sheet.fill(("a", "b", 0), 2, &file);
    sheet.fill(("a", "g", 4), 4, &file);
    sheet.state("fill-constants", label);
    for (field, kind) in [
        ("b", 7),
        ("b", 1),
        ("c", 8),
        ("c", 0),
        ("e", 9),
        ("f", 10),
        ("f", 4),
        ("g", 11),
        ("g", 3),
        ("g", 5),
    ] {
        sheet.fill(("a", field, kind), 3, &file);
    }
    sheet.state("fill-constants-other", "and asked for as other kinds");
    counts(
        sheet,
        "a constant has as many values as there are objects",
        &[
            ("a", "b", 0),
            ("a", "c", 1),
            ("a", "d", 7),
            ("a", "e", 2),
            ("a", "f", 3),
            ("a", "g", 4),
            ("a", "b", 7),
            ("a", "g", 11),
        ],
        &file,
    );
}

fn arrays(sheet: &mut Sheet) {
    let file = sheet.listed("arrays", "arrays of every kind", ARRAYS);
    for (field, number, element) in [
        ("b", 15, 7),
        ("c", 17, 8),
        ("d", 18, 9),
        ("e", 19, 32),
        ("f", 15, 6),
    ] {
        for kind in [number, element, 33] {
            sheet.fill(("a", field, kind), 1, &file);
        }
    }
    for kind in [0, 15, 16, 32, 34, u64::MAX] {
        sheet.fill(("a", "c", kind), 1, &file);
    }
    sheet.state("fill-arrays", "an array has no column, whatever is asked");
    counts(
        sheet,
        "nor are its values counted",
        &[
            ("a", "b", 15),
            ("a", "b", 7),
            ("a", "c", 17),
            ("a", "d", 18),
            ("a", "e", 19),
            ("a", "e", 32),
        ],
        &file,
    );
}

fn links(sheet: &mut Sheet) {
    let file = sheet.listed("links", "annotations and maps over two blocks", LINKS);
    sheet.shown(&file);
    for (field, kinds) in [
        (
            "b",
            &[5, 0, 4, 6, 11, 14, 20, 32, 33, 37, u64::MAX] as &[u64],
        ),
        ("c", &[20, 5, 2, 7, 8, 11, 17, 32, 33, 52, u64::MAX]),
        ("d", &[5, 20, 6, 8]),
        ("e", &[20, 3, 5, 11, 32]),
        ("f", &[17, 5, 20, 32]),
        ("g", &[5, 20, 7]),
    ] {
        for &kind in kinds {
            sheet.fill(("a", field, kind), 3, &file);
        }
    }
    sheet.fill(("a", "d", 7), 3, &file);
    sheet.state(
        "fill-links",
        "annotations and maps have no column, whatever is asked; a field between them has its own",
    );
    for kind in [5, 20] {
        for room in [0, 2, 4] {
            sheet.fill(("a", "b", kind), room, &file);
            sheet.fill(("a", "c", kind), room, &file);
            sheet.fill(("a", "d", kind), room, &file);
            sheet.fill(("a", "z", kind), room, &file);
            sheet.fill(("z", "b", kind), room, &file);
        }
    }
    sheet.state(
        "fill-links-order",
        "18 has its place behind 16 and 17 and before 19",
    );
    counts(
        sheet,
        "annotations and maps are not counted either; 18 has its place behind 16 and 17",
        &[
            ("a", "b", 5),
            ("a", "c", 20),
            ("a", "d", 7),
            ("a", "e", 20),
            ("a", "d", 5),
            ("a", "z", 20),
            ("z", "b", 5),
        ],
        &file,
    );
    sheet.objects("a", TABLE, &file);
    sheet.objects("b", TABLE, &file);
    sheet.state("links-objects", "the objects of a type that has them");
}

fn references(sheet: &mut Sheet) {
    let file = sheet.listed("references", "references to three types", REFERENCES);
    sheet.shown(&file);
    for (field, number) in [("d", 32), ("e", 33), ("f", 34)] {
        for kind in [32, 33, 34] {
            sheet.fill(("a", field, kind), 2, &file);
        }
        sheet.fill(("a", field, number + 1), 2, &file);
    }
    sheet.state("fill-references", "32 asks for a reference to any type");
    counts(
        sheet,
        "how many of them there are, to any type",
        &[
            ("a", "d", 32),
            ("a", "e", 32),
            ("a", "f", 32),
            ("a", "e", 33),
        ],
        &file,
    );
    for name in ["a", "b", "c", "d"] {
        sheet.objects(name, TABLE, &file);
    }
    sheet.state(
        "objects-of-types",
        "each type's own number; a field's name is no type's",
    );
}

fn tree(sheet: &mut Sheet) {
    let file = sheet.listed("tree", "types below types over three blocks", TREE);
    sheet.shown(&file);
    for name in ["ab", "cd", "ef", "u", "xy", "z", "", "a", "b", "abc", "ba"] {
        sheet.objects(name, TABLE, &file);
    }
    sheet.state(
        "tree-objects",
        "a type's objects are those below it as well, in all blocks",
    );
    tree_columns(sheet, &file);
    tree_names(sheet, &file);
    tree_counts(sheet, &file);
}

fn tree_columns(sheet: &mut Sheet, file: &File) {
    for (name, field, kind, room) in [
        ("ab", "xy", 7, 8),
        ("ab", "v", 7, 8),
        ("cd", "xy", 7, 4),
        ("cd", "z", 8, 4),
        ("cd", "u", 0, 4),
        ("cd", "ab", 11, 4),
        ("ef", "w", 7, 2),
        ("u", "w", 7, 1),
    ] {
        sheet.fill((name, field, kind), room, file);
    }
    sheet.state(
        "tree-filled",
        "chunk after chunk, a late field's first one for all objects so far",
    );
    for (name, field, kind, room) in [
        ("ab", "xy", 7, 7),
        ("ab", "v", 7, 9),
        ("cd", "z", 8, 3),
        ("cd", "u", 0, 3),
        ("u", "w", 7, 0),
        ("u", "w", 7, 2),
    ] {
        sheet.fill((name, field, kind), room, file);
    }
    sheet.state("tree-rooms", "one short, and one more than needed");
}

fn tree_names(sheet: &mut Sheet, file: &File) {
    for (name, field) in [
        ("ef", "xy"),
        ("ab", "z"),
        ("ab", "w"),
        ("u", "xy"),
        ("u", "z"),
        ("cd", "v"),
        ("ef", "v"),
        ("cd", "cd"),
        ("ab", "x"),
        ("ab", "xyz"),
        ("ab", "y"),
        ("ab", ""),
        ("a", "xy"),
        ("abc", "xy"),
        ("", "xy"),
        ("xy", "xy"),
        ("v", "v"),
    ] {
        sheet.fill((name, field, 7), 8, file);
    }
    sheet.state(
        "tree-names",
        "fields of super types, of types below, of others; parts of names and longer ones",
    );
}

fn tree_counts(sheet: &mut Sheet, file: &File) {
    counts(
        sheet,
        "a field has as many values as its own type has objects, whoever is above it; it is looked for in that type alone",
        &[
            ("ab", "xy", 7),
            ("ab", "v", 7),
            ("cd", "xy", 7),
            ("cd", "z", 8),
            ("cd", "u", 0),
            ("cd", "ab", 11),
            ("ef", "w", 7),
            ("u", "w", 7),
            ("ef", "xy", 7),
            ("ab", "z", 7),
            ("abc", "xy", 7),
            ("xy", "xy", 7),
        ],
        file,
    );
}

fn unnamed(sheet: &mut Sheet) {
    let file = sheet.listed(
        "unnamed",
        "empty names, and a type without objects",
        UNNAMED,
    );
    for name in ["", "ab", "a", "b", "bcd"] {
        sheet.objects(name, TABLE, &file);
    }
    for (name, field, kind, room) in [
        ("", "", 7, 1),
        ("", "bcd", 7, 1),
        ("", "bcd", 7, 0),
        ("ab", "a", 7, 0),
        ("ab", "a", 7, 1),
        ("ab", "a", 8, 0),
        ("ab", "ab", 0, 0),
        ("ab", "ab", 0, 5),
        ("ab", "", 7, 1),
        ("", "a", 7, 1),
        ("a", "a", 7, 1),
    ] {
        sheet.fill((name, field, kind), room, &file);
    }
    sheet.state(
        "unnamed-asked",
        "empty names are names; no objects need no room",
    );
    counts(
        sheet,
        "no objects have no values, a constant neither",
        &[
            ("", "", 7),
            ("ab", "a", 7),
            ("ab", "ab", 0),
            ("ab", "a", 8),
            ("a", "a", 7),
        ],
        &file,
    );
}

fn many(sheet: &mut Sheet) {
    let file = sheet.listed("many", "as many objects as there can be", MANY);
    sheet.count(("a", "a", 0), &file);
    sheet.fill(("a", "a", 0), 65_534, &file);
    sheet.state(
        "count-many",
        "all of them are counted; they are not filled in where one has no room",
    );
}
