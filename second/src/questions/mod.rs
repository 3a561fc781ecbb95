//! Questions to the six calls as statements for the project's checker.
//!
//! Each is asked there of the definitions and must have this program's answer,
//! refusals and lent memory included. The files come from listings, which this
//! program builds; what is asked of them comes from the paper's sentences.

mod builds;
mod columns;
mod lent;
mod listings;
mod order;
mod padded;
mod sheet;

use sheet::Sheet;

/// A type `a` of two objects with a field `b` of i8, in short.
const TWO: &str = "pair 2 1/str 61/str 62/type 1 0 - 2 1/new 7 2/val 5/val -1";

/// All statements.
pub fn text() -> String {
    let mut sheet = Sheet::new();
    let two = sheet.listed("two", "a type a of two objects with a field b of i8", TWO);
    order::ask(&mut sheet, &two);
    columns::ask(&mut sheet);
    listings::ask(&mut sheet);
    builds::ask(&mut sheet);
    lent::ask(&mut sheet, &two);
    padded::ask(&mut sheet, &two);
    sheet.text()
}
