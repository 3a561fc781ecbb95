//! Lent memory: numbers by chance, between guards that no call may touch.

use std::fmt::Display;

use second::bounds::{OBJECTS, TABLE};
use second::generate::random::Random;

use crate::question::Question;

/// Guard numbers on either side. They are odd in number, so that what is lent begins at no rounder address than its type
/// asks for.
pub const GUARD: usize = 61;

/// Numbers lent to a call, with their guards.
pub struct Lent<T> {
    cells: Vec<T>,
}

impl<T: Copy + PartialEq + Display> Lent<T> {
    fn empty() -> Self {
        Lent { cells: Vec::new() }
    }

    /// Lends these numbers, between these guards.
    fn lend(&mut self, numbers: &[T], guard: &[T]) {
        self.cells.clear();
        for part in [guard, numbers, guard] {
            self.cells.extend_from_slice(part);
        }
    }

    /// Lends so many numbers, these ones over and over, between these guards.
    fn lend_again(&mut self, numbers: &[T], room: usize, guard: &[T]) {
        self.cells.clear();
        self.cells.extend_from_slice(guard);
        let mut left = room;
        while left > 0 {
            let some = left.min(numbers.len());
            self.cells.extend_from_slice(&numbers[..some]);
            left -= some;
        }
        self.cells.extend_from_slice(guard);
    }

    pub fn numbers(&self) -> &[T] {
        &self.cells[GUARD..self.cells.len() - GUARD]
    }

    pub fn numbers_mut(&mut self) -> &mut [T] {
        let end = self.cells.len() - GUARD;
        &mut self.cells[GUARD..end]
    }

    /// Where the two differ first, guards included: places count from the first lent number, so a guard before it has one
    /// below 0.
    fn difference(&self, second: &Self) -> Option<String> {
        // Equal ones are the rule, and to see that as a whole is quick.
        if self.cells == second.cells {
            return None;
        }
        let mut both = self.cells.iter().zip(&second.cells);
        let at = both.position(|(here, there)| here != there)?;
        let place = at as i64 - GUARD as i64;
        let length = self.cells.len() - 2 * GUARD;
        let (here, there) = (self.cells[at], second.cells[at]);
        Some(format!(
            "number {place} of {length}: {here}, second {there}"
        ))
    }
}

/// All memory of one call.
pub struct Memory {
    /// The file, or the text to build one from.
    pub input: Lent<u8>,
    pub type_name: Lent<u8>,
    pub field_name: Lent<u8>,
    pub table: Lent<u32>,
    /// The output of a field's values.
    pub out: Lent<i64>,
    /// The output of a listing or of a build.
    pub bytes: Lent<u8>,
}

impl Memory {
    pub fn empty() -> Self {
        Memory {
            input: Lent::empty(),
            type_name: Lent::empty(),
            field_name: Lent::empty(),
            table: Lent::empty(),
            out: Lent::empty(),
            bytes: Lent::empty(),
        }
    }

    /// Lends what a question needs. `start` chooses the contents: the same one gives the same.
    pub fn lend(&mut self, question: &Question<'_>, contents: &Contents, start: usize) {
        let (type_name, field_name) = question.call.names();
        let bytes = &contents.bytes[start..start + Contents::MORE];
        let guard = &bytes[..GUARD];
        self.input.lend(question.input, guard);
        self.type_name.lend(type_name, guard);
        self.field_name.lend(field_name, guard);
        let table = &contents.table[start..];
        self.table.lend(&table[..question.table], &table[..GUARD]);
        let (numbers, room) = question.call.rooms();
        let out = &contents.out[start..];
        self.out.lend(&out[..numbers], &out[..GUARD]);
        self.bytes.lend_again(bytes, room, guard);
    }

    /// What differs, and where first.
    pub fn difference(&self, second: &Memory) -> Option<(&'static str, String)> {
        let parts = [
            ("input", self.input.difference(&second.input)),
            ("type name", self.type_name.difference(&second.type_name)),
            ("field name", self.field_name.difference(&second.field_name)),
            ("table", self.table.difference(&second.table)),
            ("output", self.out.difference(&second.out)),
            ("bytes", self.bytes.difference(&second.bytes)),
        ];
        let mut found = parts.into_iter();
        found.find_map(|(part, where_first)| where_first.map(|text| (part, text)))
    }
}

/// Numbers by chance to fill memory with. They are made once; each call takes them from another start, as making a table
/// anew for each would cost more than the calls.
pub struct Contents {
    bytes: Vec<u8>,
    table: Vec<u32>,
    out: Vec<i64>,
}

impl Contents {
    /// How many starts there are.
    pub const STARTS: usize = 1_024;
    /// How much more than the least table, or than all objects, may be lent.
    pub const MORE: usize = 4_096;

    pub fn new(random: &mut Random) -> Self {
        let bytes = Self::STARTS + Self::MORE;
        let table = Self::STARTS + TABLE + Self::MORE;
        let out = Self::STARTS + OBJECTS as usize + Self::MORE;
        Contents {
            bytes: (0..bytes).map(|_| random.byte()).collect(),
            // No number is 0, so one that was not cleared is seen.
            table: (0..table).map(|_| random.word() as u32 | 1).collect(),
            out: (0..out).map(|_| random.word() as i64).collect(),
        }
    }
}

#[cfg(test)]
mod tests {
    use super::*;
    use crate::question::Call;

    fn lent(numbers: &[u32]) -> Lent<u32> {
        let mut lent = Lent::empty();
        lent.lend(numbers, &[9; GUARD]);
        lent
    }

    #[test]
    fn a_touched_guard_is_seen() {
        let second = lent(&[1, 2, 3]);
        for (at, place) in [(0, -61), (GUARD - 1, -1), (GUARD + 3, 3)] {
            let mut first = lent(&[1, 2, 3]);
            first.cells[at] = 8;
            let said = first.difference(&second);
            let expected = format!("number {place} of 3: 8, second 9");
            assert_eq!(said, Some(expected));
        }
    }

    #[test]
    fn a_lent_number_is_seen() {
        let mut first = lent(&[1, 2, 3]);
        assert_eq!(first.difference(&lent(&[1, 2, 3])), None);
        first.numbers_mut()[2] = 7;
        let said = first.difference(&lent(&[1, 2, 3]));
        assert_eq!(said, Some("number 2 of 3: 7, second 3".to_string()));
    }

    /// What is seen of a change in the memory of a call.
    fn seen(call: &Call, change: fn(&mut Memory)) -> Option<&'static str> {
        let contents = Contents::new(&mut Random::new(1));
        let question = Question {
            origin: "a test",
            input: &[0, 0],
            call,
            table: 3,
        };
        let memory = || {
            let mut memory = Memory::empty();
            memory.lend(&question, &contents, 5);
            memory
        };
        let mut changed = memory();
        change(&mut changed);
        changed.difference(&memory()).map(|(part, _)| part)
    }

    #[test]
    fn a_changed_part_is_seen() {
        let count = Call::CountValues {
            type_name: b"a".to_vec(),
            field_name: b"b".to_vec(),
            kind: 11,
        };
        let fill = count.fill_for(2).expect("a count is for a fill");
        for call in [&count, &fill] {
            let seen = |change| seen(call, change);
            assert_eq!(seen(|_| ()), None);
            assert_eq!(seen(|m| m.input.numbers_mut()[0] ^= 1), Some("input"));
            assert_eq!(seen(|m| m.type_name.cells[0] ^= 1), Some("type name"));
            assert_eq!(seen(|m| m.field_name.cells[61] ^= 1), Some("field name"));
            assert_eq!(seen(|m| m.table.numbers_mut()[2] ^= 1), Some("table"));
        }
        // The last of two numbers, and behind it. A count is lent none, and has guards alone.
        assert_eq!(seen(&fill, |m| m.out.numbers_mut()[1] ^= 1), Some("output"));
        assert_eq!(seen(&fill, |m| m.out.cells[63] ^= 1), Some("output"));
        assert_eq!(seen(&count, |m| m.out.cells[61] ^= 1), Some("output"));
    }

    #[test]
    fn a_changed_byte_is_seen() {
        let room = 3 * Contents::MORE + 1;
        for call in [Call::Listing { room }, Call::Build { room }] {
            let seen = |change| seen(&call, change);
            assert_eq!(seen(|_| ()), None);
            assert_eq!(seen(|m| m.bytes.numbers_mut()[12_288] ^= 1), Some("bytes"));
            assert_eq!(seen(|m| m.bytes.cells[60] ^= 1), Some("bytes"));
            assert_eq!(seen(|m| m.bytes.cells[12_350] ^= 1), Some("bytes"));
        }
    }
}
