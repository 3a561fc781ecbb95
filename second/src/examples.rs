//! Ledgers as a shelf controller writes them, to try the programs with.
//!
//! The stories that they tell are in the folder `examples` of the project.

mod drives;
mod nine;
mod slots;
mod wear;

pub use nine::{nine, nine_short};
pub use slots::slots;
pub use wear::wear;

/// The strings of a file so far. A string is written when it is first
/// needed.
#[derive(Default)]
struct Strings {
    known: Vec<&'static str>,
    /// How many of them stand in earlier pairs.
    written: usize,
}

impl Strings {
    /// The number of a string; of equal ones the newest.
    fn number(&mut self, text: &'static str) -> u64 {
        let place = self.known.iter().rposition(|known| *known == text);
        match place {
            Some(index) => index as u64 + 1,
            None => self.anew(text),
        }
    }

    /// Writes a string though it may be there already.
    fn anew(&mut self, text: &'static str) -> u64 {
        self.known.push(text);
        self.known.len() as u64
    }

    /// Those of this pair.
    fn take(&mut self) -> Vec<Vec<u8>> {
        let new = &self.known[self.written..];
        self.written = self.known.len();
        new.iter().map(|text| text.as_bytes().to_vec()).collect()
    }
}
