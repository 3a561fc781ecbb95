//! One call with all it is given.

use std::fmt::{self, Display, Formatter};

use crate::lent::Memory;
use crate::reader::{Asked, Reader};

/// A call and its arguments, the file or the text and the memory aside.
#[derive(Clone, Debug, PartialEq, Eq)]
pub enum Call {
    Check,
    Objects {
        type_name: Vec<u8>,
    },
    CountValues {
        type_name: Vec<u8>,
        field_name: Vec<u8>,
        kind: u64,
    },
    FillValues {
        type_name: Vec<u8>,
        field_name: Vec<u8>,
        kind: u64,
        /// How many numbers of output are lent.
        room: usize,
    },
    Listing {
        /// How many bytes of output are lent.
        room: usize,
    },
    Build {
        /// How many bytes of output are lent.
        room: usize,
    },
}

/// The names of the calls, in the order of [`Call::index`].
pub const NAMES: [&str; 6] = [
    "check",
    "objects",
    "count_values",
    "fill_values",
    "listing",
    "build",
];

impl Call {
    pub fn index(&self) -> usize {
        match self {
            Call::Check => 0,
            Call::Objects { .. } => 1,
            Call::CountValues { .. } => 2,
            Call::FillValues { .. } => 3,
            Call::Listing { .. } => 4,
            Call::Build { .. } => 5,
        }
    }

    /// The names of type and field, empty where the call has none.
    pub fn names(&self) -> (&[u8], &[u8]) {
        match self {
            Call::Check | Call::Listing { .. } | Call::Build { .. } => (&[], &[]),
            Call::Objects { type_name } => (type_name, &[]),
            Call::CountValues {
                type_name,
                field_name,
                ..
            }
            | Call::FillValues {
                type_name,
                field_name,
                ..
            } => (type_name, field_name),
        }
    }

    /// How many numbers and how many bytes of output are lent.
    pub fn rooms(&self) -> (usize, usize) {
        match *self {
            Call::Check | Call::Objects { .. } | Call::CountValues { .. } => (0, 0),
            Call::FillValues { room, .. } => (room, 0),
            Call::Listing { room } | Call::Build { room } => (0, room),
        }
    }

    /// The fill that a count is for: with exactly as much room as its answer says, and with none where it is refused.
    pub fn fill_for(&self, counted: i64) -> Option<Call> {
        let Call::CountValues {
            type_name,
            field_name,
            kind,
        } = self
        else {
            return None;
        };
        Some(Call::FillValues {
            type_name: type_name.clone(),
            field_name: field_name.clone(),
            kind: *kind,
            room: usize::try_from(counted).unwrap_or(0),
        })
    }
}

/// A call on a file or a text, with a work table of some length.
pub struct Question<'a> {
    /// Where the input comes from, so that it can be had again.
    pub origin: &'a str,
    /// The file, or the text to build one from.
    pub input: &'a [u8],
    pub call: &'a Call,
    pub table: usize,
}

impl Question<'_> {
    /// Asks a reader, who works in this memory.
    pub fn ask(&self, reader: &impl Reader, memory: &mut Memory) -> i64 {
        let Memory {
            input,
            type_name,
            field_name,
            table,
            out,
            bytes,
        } = memory;
        let (input, table) = (input.numbers(), table.numbers_mut());
        let (type_name, field_name) = (type_name.numbers(), field_name.numbers());
        let asked = |kind| Asked {
            type_name,
            field_name,
            kind,
        };
        match *self.call {
            Call::Check => reader.check(input, table),
            Call::Objects { .. } => reader.objects(input, type_name, table),
            Call::CountValues { kind, .. } => reader.count_values(input, asked(kind), table),
            Call::FillValues { kind, .. } => {
                reader.fill_values(input, asked(kind), table, out.numbers_mut())
            }
            Call::Listing { .. } => reader.listing(input, table, bytes.numbers_mut()),
            Call::Build { .. } => reader.build(input, table, bytes.numbers_mut()),
        }
    }
}

/// Longer inputs are not printed; their origin has to do.
const PRINTED: usize = 4_096;

impl Display for Question<'_> {
    fn fmt(&self, to: &mut Formatter<'_>) -> fmt::Result {
        write!(to, "call    {}", NAMES[self.call.index()])?;
        let (type_name, field_name) = self.call.names();
        let (type_name, field_name) = (hex(type_name), hex(field_name));
        match self.call {
            Call::Check => {}
            Call::Objects { .. } => write!(to, ", type {type_name}")?,
            Call::CountValues { kind, .. } => {
                write!(to, ", type {type_name}, field {field_name}, kind {kind}")?;
            }
            Call::FillValues { kind, room, .. } => {
                write!(to, ", type {type_name}, field {field_name}, kind {kind}")?;
                write!(to, ", room {room}")?;
            }
            Call::Listing { room } | Call::Build { room } => write!(to, ", room {room}")?,
        }
        writeln!(to, ", table {}", self.table)?;
        write!(to, "input   {}, {} bytes", self.origin, self.input.len())?;
        if self.input.len() <= PRINTED {
            write!(to, "\nbytes   {}", hex(self.input))?;
        }
        Ok(())
    }
}

/// Bytes in hex between brackets, so that none is seen as well.
fn hex(bytes: &[u8]) -> String {
    let digits: String = bytes.iter().map(|byte| format!("{byte:02X}")).collect();
    format!("[{digits}]")
}

#[cfg(test)]
mod tests {
    use super::*;

    fn count() -> Call {
        Call::CountValues {
            type_name: b"a".to_vec(),
            field_name: b"b".to_vec(),
            kind: 11,
        }
    }

    #[test]
    fn a_count_is_for_a_fill() {
        for (counted, room) in [(0, 0), (3, 3), (-17, 0)] {
            let fill = Call::FillValues {
                type_name: b"a".to_vec(),
                field_name: b"b".to_vec(),
                kind: 11,
                room,
            };
            assert_eq!(count().fill_for(counted), Some(fill.clone()));
            assert_eq!(fill.fill_for(counted), None);
        }
        assert_eq!(Call::Check.fill_for(3), None);
    }

    #[test]
    fn a_question_in_words() {
        let said = |call: &Call| {
            let question = Question {
                origin: "a test",
                input: &[0, 0x1F],
                call,
                table: 9,
            };
            question.to_string()
        };
        let input = "input   a test, 2 bytes\nbytes   [001F]";
        let asked = "count_values, type [61], field [62], kind 11";
        assert_eq!(said(&count()), format!("call    {asked}, table 9\n{input}"));
        let fill = count().fill_for(3).expect("a count is for a fill");
        let asked = "fill_values, type [61], field [62], kind 11, room 3";
        assert_eq!(said(&fill), format!("call    {asked}, table 9\n{input}"));
    }
}
