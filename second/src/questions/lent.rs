//! What lent memory holds afterwards.

use super::sheet::{built, lines, File, Lent, Sheet, Text};
use super::TWO;
use crate::bounds::TABLE;

/// Longer than asked for, as long, and shorter; nowhere 0.
const LONG: Lent<'static, u32> = &[(TABLE, 7), (1, 8), (1, 9)];
const EXACT: Lent<'static, u32> = &[(1, 5), (TABLE - 2, 7), (1, 6)];
const SHORT: Lent<'static, u32> = &[(1, 5), (TABLE - 2, 7)];

/// Lent outputs, with what they hold: two more than needed, just enough, one
/// short.
fn rooms<T>(length: usize, held: T) -> [[(usize, T); 1]; 3]
where
    T: Copy,
{
    [length + 2, length, length - 1].map(|length| [(length, held)])
}

pub fn ask(sheet: &mut Sheet, two: &File) {
    let cut = sheet.file("lent_cut", "a number cut in its padding", vec![0x80; 8]);
    sheet.after_check(two, LONG);
    sheet.after_check(two, SHORT);
    sheet.after_check(two, &[]);
    sheet.after_check(&cut, EXACT);
    sheet.state(
        "after-check",
        "the table after a check, accepted and refused",
    );
    sheet.after_objects(two, "a", LONG);
    sheet.after_objects(two, "a", SHORT);
    sheet.after_objects(two, "z", EXACT);
    sheet.state("after-objects", "the table after a question for objects");
    values(sheet, two, &cut);
    listings(sheet, two, &cut);
    builds(sheet);
    maps(sheet);
}

fn values(sheet: &mut Sheet, two: &File, cut: &File) {
    let asked = ("a", "b", 7);
    sheet.after_count(two, asked, LONG);
    sheet.after_count(two, asked, EXACT);
    sheet.after_count(two, asked, SHORT);
    sheet.after_count(two, ("a", "b", 8), LONG);
    sheet.after_count(cut, asked, EXACT);
    sheet.state(
        "after-count",
        "the table after a question for how many: longer than needed, enough, one short",
    );
    let [more, enough, less] = rooms(2, -4);
    sheet.after_fill(two, asked, LONG, &more);
    sheet.after_fill(two, asked, LONG, &less);
    sheet.after_fill(two, asked, EXACT, &enough);
    sheet.after_fill(two, asked, SHORT, &more);
    sheet.after_fill(cut, asked, LONG, &more);
    sheet.state(
        "after-fill",
        "table and output after values were filled in: longer than needed, enough, one short",
    );
}

fn listings(sheet: &mut Sheet, two: &File, cut: &File) {
    let [more, enough, less] = rooms(lines(TWO).len(), 1);
    sheet.after_listing(two, LONG, &more);
    sheet.after_listing(two, LONG, &less);
    sheet.after_listing(two, SHORT, &enough);
    sheet.after_listing(cut, EXACT, &more);
    sheet.state("after-listing", "table and output after a listing");
}

fn builds(sheet: &mut Sheet) {
    let good = Text::plain(&lines(TWO));
    let bad = Text::plain("pair\t0\t0");
    let [more, enough, less] = rooms(built(&lines(TWO)).len(), 1);
    sheet.after_build(&good, LONG, &more);
    sheet.after_build(&good, LONG, &less);
    sheet.after_build(&good, SHORT, &enough);
    sheet.after_build(&bad, EXACT, &more);
    sheet.state("after-build", "table and output after a build");
}

/// A map with an annotation, asked for, printed and built.
fn maps(sheet: &mut Sheet) {
    let text = "pair 1 1/str 61/type 1 0 - 1 1/new 20,2,7,5 1/val 1 -1 1 1";
    let file = sheet.listed("lent_map", "a map with an annotation", text);
    let text = Text::plain(&lines(text));
    let [more, ..] = rooms(1, -4);
    sheet.after_fill(&file, ("a", "a", 20), LONG, &more);
    let [more, _, less] = rooms(text.bytes().len(), 1);
    sheet.after_listing(&file, LONG, &more);
    sheet.after_listing(&file, EXACT, &less);
    let [more, _, less] = rooms(file.bytes.len(), 1);
    sheet.after_build(&text, LONG, &more);
    sheet.after_build(&text, EXACT, &less);
    sheet.state("after-maps", "table and output after questions about a map");
}
