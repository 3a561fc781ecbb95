//! Which refusal comes first: 15, the file's own, 16, 17, 18, 19; for build
//! 15, 20, 19.

use super::sheet::{built, lines, Asked, File, Sheet, Text};
use super::TWO;
use crate::bounds::TABLE;

const SHORT: usize = TABLE - 1;

pub fn ask(sheet: &mut Sheet, two: &File) {
    let mut bytes = two.bytes.clone();
    bytes.extend([0x80, 0x80]);
    let cut = sheet.file(
        "cut",
        "the same and a number behind it that is cut in its padding",
        bytes,
    );
    let none = sheet.file("empty", "the empty file", Vec::new());
    let three = "pair 1 1/str 61/type 1 0 - 0 0/pair 0 0/pair 0 1/type 1 - - 1 0";
    let three = sheet.listed("three", "three pairs", three);
    tables(sheet, two, &cut, &none, &three);
    counts(sheet, two, &cut);
    fills(sheet, two, &cut);
    rooms(sheet, two);
    listings(sheet, two, &cut, &none);
    builds(sheet);
}

/// 15 before the file's own refusals, and 0 for an accepted file.
fn tables(sheet: &mut Sheet, two: &File, cut: &File, none: &File, three: &File) {
    for table in [0, SHORT] {
        for file in [two, cut, none] {
            sheet.check(table, file);
            sheet.objects("a", table, file);
            sheet.objects("z", table, file);
        }
    }
    sheet.state("table-short", "15 comes first");
    for table in [TABLE, TABLE + 1, 3 * TABLE] {
        for file in [two, cut, none, three] {
            sheet.check(table, file);
            sheet.objects("a", table, file);
            sheet.objects("z", table, file);
        }
    }
    sheet.state(
        "table-enough",
        "then the file's own refusal, then 16; an accepted check answers 0",
    );
}

/// A type, a field and a kind that are wrong, and the right ones.
const WRONG: Asked<'static> = ("z", "z", 33);
const RIGHT: Asked<'static> = ("a", "b", 7);

/// Every choice of what is wrong.
fn choices() -> Vec<Asked<'static>> {
    let mut all = Vec::new();
    for name in [WRONG.0, RIGHT.0] {
        for field in [WRONG.1, RIGHT.1] {
            all.extend([WRONG.2, RIGHT.2].map(|kind| (name, field, kind)));
        }
    }
    all
}

/// 15, the file's own, 16, 17, 18: everything from some point on is wrong, and
/// each alone against each behind it.
fn counts(sheet: &mut Sheet, two: &File, cut: &File) {
    for of in choices() {
        sheet.count(of, cut);
        sheet.count(of, two);
    }
    for of in [WRONG, RIGHT] {
        sheet.count_values(of, SHORT, cut);
        sheet.count_values(of, SHORT, two);
    }
    sheet.state(
        "count-order",
        "15, the file's own refusal, 16, 17, 18: every choice of wrong names and kind",
    );
}

/// The same and 19.
fn fills(sheet: &mut Sheet, two: &File, cut: &File) {
    for of in choices() {
        for room in [1, 2] {
            sheet.fill_values(of, room, SHORT, cut);
            sheet.fill_values(of, room, SHORT, two);
            sheet.fill_values(of, room, TABLE, cut);
            sheet.fill_values(of, room, TABLE, two);
        }
    }
    sheet.state(
        "fill-order",
        "15, the file's own refusal, 16, 17, 18, 19: every choice of what is wrong",
    );
}

/// Rooms of any length, beside how many there are.
fn rooms(sheet: &mut Sheet, two: &File) {
    let asked = [RIGHT, ("a", "b", 8), ("a", "z", 7)];
    for of in asked {
        sheet.count_values(of, TABLE + 1, two);
    }
    for room in [0, 3, 100] {
        for of in asked {
            sheet.fill_values(of, room, TABLE + 1, two);
        }
    }
    sheet.state(
        "fill-rooms",
        "how many there are, then no room, one more than needed, much more",
    );
}

/// 15, the file's own, 19.
fn listings(sheet: &mut Sheet, two: &File, cut: &File, none: &File) {
    let length = lines(TWO).len();
    for table in [SHORT, TABLE, TABLE + 1] {
        for room in [0, length - 1, length, length + 1] {
            sheet.listing(room, table, two);
        }
        sheet.listing(0, table, cut);
        sheet.listing(1_000, table, cut);
        sheet.listing(0, table, none);
        sheet.listing(1, table, none);
    }
    sheet.state("listing-order", "15, the file's own refusal, 19");
}

/// 15, 20, 19.
fn builds(sheet: &mut Sheet) {
    let good = Text::plain(&lines(TWO));
    let length = built(&lines(TWO)).len();
    let bad = Text::plain("pair\t0\t0");
    let empty = Text::plain("");
    for table in [SHORT, TABLE, TABLE + 1] {
        for room in [0, length - 1, length, length + 1, 1_000] {
            sheet.build(room, table, &good);
        }
        for room in [0, 7, 8, 1_000] {
            sheet.build(room, table, &bad);
            sheet.build(room, table, &empty);
        }
    }
    sheet.state(
        "build-order",
        "15, 20, 19; the empty text gives the empty file",
    );
}
