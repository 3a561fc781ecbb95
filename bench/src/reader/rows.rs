//! What is timed: each call on each file, and on a field of each kind.

use compare::reader::Second;
use second::big::{self, Place};
use second::kind::REFERENCE;

use crate::calls::{Call, Memory};

pub use second::big::PARTS;

/// A call and a file, which comes at three sizes.
pub struct Row {
    pub call: Call,
    pub name: &'static str,
    /// Makes the file at a part of its full size.
    make: Box<dyn Fn(u64) -> Vec<u8>>,
    grows: Grows,
}

/// What a file has more of where it is larger.
#[derive(Clone, Copy, PartialEq, Eq)]
enum Grows {
    Bytes,
    /// 32 of them a pair.
    Entries,
}

/// A row at one of its sizes.
pub struct Task {
    pub call: Call,
    pub part: u64,
    /// How long the file is; to build it, its listing is what goes in.
    pub file: usize,
    pub input: Vec<u8>,
    /// The bytes whose copy is the limit.
    pub limit: Vec<u8>,
    /// What the time is divided by for a cost, and what the cost is one of.
    pub units: usize,
    pub unit: &'static str,
}

type Maker = fn(u64) -> Vec<u8>;

#[rustfmt::skip]
const FILES: [(&str, Maker, Grows); 18] = [
    ("v64 values", big::v64_values, Grows::Bytes),
    ("padded v64", big::padded, Grows::Bytes),
    ("mixed kinds", big::mixed_kinds, Grows::Bytes),
    ("references over 32 pairs", big::references, Grows::Bytes),
    ("short arrays", big::short_arrays, Grows::Bytes),
    ("bools", big::bools, Grows::Bytes),
    ("annotations", big::annotations, Grows::Bytes),
    // From strings to v64, as from controllers to ports.
    ("maps, 2 types", |part| big::maps(2, part), Grows::Bytes),
    // From strings to maps from v64 to maps from i8 to references.
    ("maps, 4 types", |part| big::maps(4, part), Grows::Bytes),
    ("types in many pairs", big::entered_types, Grows::Entries),
    ("type names, last byte", |part| big::long_types(Place::Last, part), Grows::Entries),
    ("type names, middle byte", |part| big::long_types(Place::Middle, part), Grows::Entries),
    ("field names, last byte", big::long_fields, Grows::Bytes),
    ("small chunks", big::small_chunks, Grows::Entries),
    ("names by copies", big::copied_names, Grows::Entries),
    ("subtypes in many pairs", big::subtypes, Grows::Entries),
    ("weeks that differ", big::other_weeks, Grows::Entries),
    ("annotations, many pairs", big::few_annotations, Grows::Entries),
];

/// The files with a field that is not of one pair and in shortest coding, and what its values are asked for with.
const OTHER_FIELDS: [(&str, Maker, u64); 2] = [
    ("padded v64", big::padded, 11),
    ("references over 32 pairs", big::references, REFERENCE),
];

/// All rows, in the order of the table.
pub fn all() -> Vec<Row> {
    let mut rows = Vec::new();
    for call in [Call::Check, Call::Listing, Call::Build] {
        rows.extend(FILES.map(|(name, make, grows)| Row {
            call,
            name,
            make: Box::new(make),
            grows,
        }));
    }
    let of_field: [fn(u64) -> Call; 3] = [Call::CountValues, Call::FillValues, Call::CountAndFill];
    for call in of_field {
        rows.extend(big::COLUMNS.map(|(name, kind)| Row {
            // A reference is asked for as one to any type.
            call: call(kind.number().min(REFERENCE)),
            name,
            make: Box::new(move |part| big::column_of(kind, part)),
            grows: Grows::Bytes,
        }));
        rows.extend(OTHER_FIELDS.map(|(name, make, kind)| Row {
            call: call(kind),
            name,
            make: Box::new(make),
            grows: Grows::Bytes,
        }));
    }
    rows
}

impl Row {
    /// The name by which it is chosen.
    pub fn full_name(&self) -> String {
        format!("{} {}", self.call.word(), self.name)
    }

    /// This row at a part of its full size.
    pub fn task(&self, part: u64) -> Task {
        let file = (self.make)(part);
        let length = file.len();
        let input = match self.call {
            Call::Build => answer(Call::Listing, &file).1,
            _ => file,
        };
        let (count, written) = answer(self.call, &input);
        let limit = match self.call {
            Call::Check | Call::CountValues(_) => input.clone(),
            _ => written,
        };
        let (units, unit) = match (self.grows, self.call) {
            (Grows::Entries, _) => (32 * 32 / part as usize, "an entry"),
            (_, Call::Check) => (length, "a byte"),
            (_, Call::Listing) => (count, "a byte of text"),
            (_, Call::Build) => (input.len(), "a byte of text"),
            (_, Call::CountValues(_) | Call::FillValues(_) | Call::CountAndFill(_)) => {
                (count, "a value")
            }
        };
        Task {
            call: self.call,
            part,
            file: length,
            input,
            limit,
            units,
            unit,
        }
    }
}

/// What the second program answers and writes.
fn answer(call: Call, input: &[u8]) -> (usize, Vec<u8>) {
    let mut memory = Memory::new();
    let answer = call.ask(&Second, input, &mut memory);
    let written = call.written(answer, &memory);
    (answer as usize, written)
}
