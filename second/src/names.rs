//! The strings of a file, and which of them are equal.
//!
//! Names are compared by bytes. So that a long name is not compared over and
//! over, each string that serves as a name is looked up once and from then on
//! known by the number of the first such string with the same bytes.

use std::cell::Cell;

use crate::mixing::Mixed;

/// A name: the number of the first string used as a name with these bytes.
pub type Name = u32;

#[derive(Default)]
pub struct Names<'a> {
    strings: Vec<Known<'a>>,
    first: Mixed<&'a [u8], Name>,
}

/// A string.
struct Known<'a> {
    bytes: &'a [u8],
    /// Its name, 0 as long as it was not used as one.
    name: Cell<Name>,
}

impl<'a> Names<'a> {
    /// Makes room for more strings.
    pub fn reserve(&mut self, count: usize) {
        self.strings.reserve(count);
    }

    pub fn push(&mut self, string: &'a [u8]) {
        self.strings.push(Known {
            bytes: string,
            name: Cell::new(0),
        });
    }

    /// How many strings there are.
    pub fn len(&self) -> usize {
        self.strings.len()
    }

    pub fn is_empty(&self) -> bool {
        self.strings.is_empty()
    }

    /// The bytes of a string by its number from 1.
    pub fn bytes(&self, number: u32) -> &'a [u8] {
        self.strings[number as usize - 1].bytes
    }

    /// The name a string number stands for; none if it is 0 or too large. The
    /// string is a name from now on.
    #[inline]
    pub fn name(&mut self, number: u64) -> Option<Name> {
        let known = self.strings.get(index(number))?.name.get();
        match known {
            0 => Some(self.name_anew(number)),
            _ => Some(known),
        }
    }

    /// The name of a string that was not used as one.
    #[cold]
    fn name_anew(&mut self, number: u64) -> Name {
        let string = &self.strings[index(number)];
        let name = *self.first.entry(string.bytes).or_insert(number as Name);
        string.name.set(name);
        name
    }

    /// The name a string number stands for, if a string of these bytes is one
    /// already.
    pub fn known(&self, number: u64) -> Option<Name> {
        let string = self.strings.get(index(number))?;
        if string.name.get() == 0 {
            string.name.set(self.find(string.bytes)?);
        }
        Some(string.name.get())
    }

    /// The name of these bytes, if a string of these bytes is one already.
    pub fn find(&self, bytes: &[u8]) -> Option<Name> {
        self.first.get(bytes).copied()
    }
}

/// Where the string of a number stands in the list; null stands nowhere.
fn index(number: u64) -> usize {
    usize::try_from(number.wrapping_sub(1)).unwrap_or(usize::MAX)
}
