//! The calls that are timed, and what they are lent.

use compare::reader::{Asked, Reader};
use second::big;
use second::bounds::{FILE, OBJECTS, TABLE};

#[derive(Clone, Copy, PartialEq, Eq)]
pub enum Call {
    Check,
    Listing,
    Build,
    /// Of the field [`big::FIELD`], asked for with this kind. So are the two below.
    CountValues(u64),
    /// Room for any field is lent, and nothing is asked before.
    FillValues(u64),
    /// Both calls: how many, and then the values into exactly so much room.
    CountAndFill(u64),
}

/// What a call is lent.
pub struct Memory {
    pub table: Vec<u32>,
    pub out: Vec<i64>,
    pub bytes: Vec<u8>,
}

impl Memory {
    pub fn new() -> Self {
        Memory {
            table: vec![1; TABLE],
            out: vec![0; OBJECTS as usize],
            // The room that the header advises for the listing of the longest file.
            bytes: vec![0; 9 * FILE],
        }
    }
}

impl Call {
    /// What it is called in the table of ratios.
    pub fn name(self) -> &'static str {
        match self {
            Call::Check => "check",
            Call::Listing => "listing",
            Call::Build => "build",
            Call::CountValues(_) => "count_values",
            Call::FillValues(_) => "fill_values",
            Call::CountAndFill(_) => "count and fill",
        }
    }

    /// What the names of its rows begin with.
    pub fn word(self) -> &'static str {
        match self {
            Call::Listing => "list",
            other => other.name(),
        }
    }

    /// The one call that would do as well, where this is both.
    pub fn fill_alone(self) -> Option<Call> {
        match self {
            Call::CountAndFill(kind) => Some(Call::FillValues(kind)),
            _ => None,
        }
    }

    /// Whether it is asked of a file as a whole, and not of a field.
    pub fn is_of_file(self) -> bool {
        matches!(self, Call::Check | Call::Listing | Call::Build)
    }

    pub fn ask(self, reader: &dyn Reader, input: &[u8], memory: &mut Memory) -> i64 {
        let Memory { table, out, bytes } = memory;
        match self {
            Call::Check => reader.check(input, table),
            Call::Listing => reader.listing(input, table, bytes),
            Call::Build => reader.build(input, table, &mut bytes[..FILE]),
            Call::CountValues(kind) => reader.count_values(input, asked(kind), table),
            Call::FillValues(kind) => reader.fill_values(input, asked(kind), table, out),
            Call::CountAndFill(kind) => {
                let count = reader.count_values(input, asked(kind), table);
                let count = usize::try_from(count).expect("the count is not refused");
                reader.fill_values(input, asked(kind), table, &mut out[..count])
            }
        }
    }

    /// The bytes that it has written, by its answer.
    pub fn written(self, answer: i64, memory: &Memory) -> Vec<u8> {
        let count = usize::try_from(answer).expect("the call is not refused");
        match self {
            Call::Check | Call::CountValues(_) => Vec::new(),
            Call::Listing | Call::Build => memory.bytes[..count].to_vec(),
            Call::FillValues(_) | Call::CountAndFill(_) => {
                let values = memory.out[..count].iter();
                values.flat_map(|value| value.to_ne_bytes()).collect()
            }
        }
    }
}

/// The field that every file here has, with its kind.
fn asked(kind: u64) -> Asked<'static> {
    Asked {
        type_name: big::TYPE,
        field_name: big::FIELD,
        kind,
    }
}
