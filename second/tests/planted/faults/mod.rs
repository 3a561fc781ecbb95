//! The faults: each breaks one sentence of the paper and no other.

mod annotations;
mod block;
mod build;
mod calls;
mod front;
mod listing;
mod maps;
mod padded;
mod places;
mod values;

use crate::Edit;

/// A fault.
#[derive(Clone, Copy)]
pub struct Fault {
    /// The sentence that it breaks, and how.
    pub says: &'static str,
    pub edits: &'static [Edit],
}

/// A fault by what it says and its changes: file, piece, new text.
macro_rules! fault {
    ($says:literal, $($file:literal: $at:literal => $new:literal),+ $(,)?) => {
        $crate::faults::Fault {
            says: $says,
            edits: &[$($crate::Edit { file: $file, at: $at, new: $new }),+],
        }
    };
}
pub(crate) use fault;

/// No fault: the copy answers as the program does.
pub const NONE: Fault = fault!("nothing is wrong",
    "reader.rs": "let first = «before + local.start + 1»;" => "local.start + 1 + before");

/// All of them, in the order of the paper.
pub fn all() -> Vec<Fault> {
    let groups = [
        front::NUMBERS,
        padded::CODINGS,
        padded::NEVER_2,
        front::STRINGS,
        front::NAMES,
        block::ENTRIES,
        block::RANGES,
        block::FIELDS,
        block::KINDS,
        maps::MAP_KINDS,
        block::ENDS,
        values::VALUES,
        values::ARRAYS,
        values::REFERENCES,
        annotations::ANNOTATIONS,
        maps::MAPS,
        calls::MEMORY,
        calls::ORDER,
        calls::COUNTS,
        calls::COLUMNS,
        listing::LISTING,
        padded::ELSEWHERE,
        build::READ,
        build::SCAN,
    ];
    groups.concat()
}

/// Those that change nothing but a place.
pub fn of_places() -> Vec<Fault> {
    places::PLACES.to_vec()
}
