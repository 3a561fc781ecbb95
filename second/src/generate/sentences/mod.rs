//! Small files for the sentences of the paper.
//!
//! Each file gets another answer, or another place, as soon as the sentence of
//! its label is dropped, made weaker or stronger, tested at another place or in
//! another order. The answers are written from the paper, the places are this
//! program's.

mod annotations;
mod entries;
mod fields;
mod kinds;
mod maps;
mod numbers;
mod objects;
mod padded;
mod ranges;
mod references;
mod strings;
mod values;

use super::notation::bytes;
use super::Case;

/// The files for one part of the paper.
pub struct Section {
    pub name: &'static str,
    pub cases: Vec<Case>,
}

/// The section of padded numbers.
pub const PADDED: &str = "Padded";

/// All of them, in the paper's order; padded numbers come from everywhere in it.
pub fn sections() -> Vec<Section> {
    let section = |name, cases| Section { name, cases };
    vec![
        section("Numbers", numbers::cases()),
        section("Strings", strings::cases()),
        section("Entries", entries::cases()),
        section("Ranges", ranges::cases()),
        section("Objects", objects::cases()),
        section("Fields", fields::cases()),
        section("Kinds", kinds::cases()),
        section("Values", values::cases()),
        section("References", references::cases()),
        section("Annotations", annotations::cases()),
        section("Maps", maps::cases()),
        section(PADDED, padded::cases()),
    ]
}

/// A case by its label, answer (0 for accepted) and bytes.
type Row = (&'static str, u8, &'static str);

fn ruled(tables: &[&[Row]]) -> Vec<Case> {
    let rows = tables.iter().copied().flatten();
    rows.map(|&(label, answer, text)| Case::ruled(label, answer, bytes(text)))
        .collect()
}
