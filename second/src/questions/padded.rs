//! Files with padded numbers: they answer as their shortest spelling does, and
//! that is what is built from their listing.

use super::sheet::{lines, File, Lent, Sheet, Text};
use super::TWO;
use crate::bounds::TABLE;
use crate::generate::spelling::Parts;

/// The spelling of [`TWO`].
const TWO_SPELT: &str = "Q 1 1 0 2 0 1 0 7 2 ^ [ =05FF ]";
/// The same with v64 values, of which the second has no padding to take.
const VALUES: &str = "pair 2 1/str 61/str 62/type 1 0 - 2 1/new 11 2/val 256/val -1";
const VALUES_SPELT: &str = "Q 1 1 0 2 0 1 0 B 2 ^ [ 100 FFFFFFFFFFFFFFFF ]";

const LENT_TABLE: Lent<'static, u32> = &[(TABLE, 7), (1, 8)];

pub fn ask(sheet: &mut Sheet, two: &File) {
    let two_spelt = Parts::of(TWO_SPELT);
    let nine = sheet.file(
        "nine",
        "the file two with every number in nine bytes",
        two_spelt.nine(),
    );
    asked(sheet, two, &nine);
    listed(sheet, &nine, TWO, two.bytes.len());
    let values = Parts::of(VALUES_SPELT);
    let nines = sheet.file(
        "nine-values",
        "v64 values with every number in nine bytes",
        values.nine(),
    );
    sheet.count(("a", "b", 11), &nines);
    sheet.fill(("a", "b", 11), 2, &nines);
    sheet.fill(("a", "b", 11), 1, &nines);
    sheet.state("padded-values", "how many padded numbers, and their values");
    listed(sheet, &nines, VALUES, values.shortest().len());
    left(sheet, &nine, two.bytes.len());
}

fn asked(sheet: &mut Sheet, two: &File, nine: &File) {
    for file in [two, nine] {
        sheet.check(TABLE, file);
        sheet.check(TABLE - 1, file);
        sheet.objects("a", TABLE, file);
        sheet.objects("b", TABLE, file);
        sheet.count(("a", "b", 7), file);
        sheet.fill(("a", "b", 7), 2, file);
        sheet.fill(("a", "b", 7), 1, file);
        sheet.fill(("a", "b", 8), 2, file);
        sheet.fill(("a", "c", 7), 2, file);
    }
    sheet.state(
        "padded-asked",
        "a file and the same with padded numbers have the same answers",
    );
}

/// What is built has fewer bytes than the file had that was listed.
fn listed(sheet: &mut Sheet, file: &File, text: &str, shortest: usize) {
    let text = lines(text);
    sheet.listing(text.len(), TABLE, file);
    sheet.listing(text.len() - 1, TABLE, file);
    let text = Text::plain(&text);
    for room in [shortest - 1, shortest, file.bytes.len()] {
        sheet.build(room, TABLE, &text);
    }
    let name = format!("{}-listed", file.name);
    sheet.state(
        &name,
        "its listing does not show padding, and the file built from it has none",
    );
}

fn left(sheet: &mut Sheet, nine: &File, shortest: usize) {
    let text = lines(TWO);
    sheet.after_check(nine, LENT_TABLE);
    sheet.after_count(nine, ("a", "b", 7), LENT_TABLE);
    sheet.after_fill(nine, ("a", "b", 7), LENT_TABLE, &[(3, -4)]);
    sheet.after_listing(nine, LENT_TABLE, &[(text.len() + 1, 1)]);
    sheet.after_build(&Text::plain(&text), LENT_TABLE, &[(shortest + 2, 1)]);
    sheet.state(
        "after-padded",
        "table and output after questions about padded numbers",
    );
}
