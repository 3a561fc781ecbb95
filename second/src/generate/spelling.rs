//! Files in parts, so that each of their numbers can be spelt in every way.
//!
//! A v64 has up to nine spellings: the shortest, and longer ones that end in
//! padding. A text of parts says where the numbers of a file stand; end offsets
//! are worked out from how the chunks are spelt. Words are parted by blanks:
//!
//! - hex digits: a number
//! - `=` and hex digits: these very bytes
//! - `'word`: the bytes of the word itself
//! - `P`, `Q`: string blocks as in [`notation`](super::notation)
//! - `^`: the end offset of a chunk
//! - `[` .. `]`: a chunk; the first one belongs to the first end offset
//! - `~` before a number or an end offset: the one that is looked at

use super::notation;
use crate::v64;

/// The most padding that a number can have.
pub const MOST: usize = 8;

/// Bytes of the longest spelling.
const LONGEST: usize = 9;

/// Appends a number with so many bytes of padding, or with as many as nine
/// bytes in all leave room for.
pub fn write_padded(out: &mut Vec<u8>, value: u64, padding: usize) {
    let start = out.len();
    v64::write(out, value);
    let room = LONGEST - (out.len() - start);
    for _ in 0..padding.min(room) {
        let last = out.len() - 1;
        out[last] |= 0x80;
        out.push(0);
    }
}

/// The same by itself.
pub fn padded(value: u64, padding: usize) -> Vec<u8> {
    let mut out = Vec::with_capacity(LONGEST);
    write_padded(&mut out, value, padding);
    out
}

/// Appends a number in nine bytes.
pub fn nine(out: &mut Vec<u8>, value: u64) {
    write_padded(out, value, MOST);
}

/// Appends a number with padding that depends on where it stands: none for
/// about half of them, and every length for the others.
pub fn mixed(out: &mut Vec<u8>, value: u64) {
    let spread = (out.len() as u64 ^ value.rotate_left(17)).wrapping_mul(0x9E37_79B9_7F4A_7C15);
    let padding = match (spread >> 60) as usize {
        some @ 1..=MOST => some,
        _ => 0,
    };
    write_padded(out, value, padding);
}

/// A part of a file.
enum Part {
    Number(u64),
    /// The end offset of a chunk.
    End,
    /// What has one coding.
    Bytes(Vec<u8>),
    /// Where a chunk begins, and where it ends.
    Open,
    Close,
}

/// A file in its parts.
pub struct Parts {
    parts: Vec<Part>,
    /// The place, among all numbers, of the one that is looked at.
    marked: Option<usize>,
}

impl Parts {
    /// The parts of a text.
    ///
    /// # Panics
    ///
    /// If it is no such text; all of them stand in this package.
    pub fn of(text: &str) -> Parts {
        let mut file = Parts {
            parts: Vec::new(),
            marked: None,
        };
        for word in text.split_whitespace() {
            let word = match word.strip_prefix('~') {
                Some(word) => {
                    file.marked = Some(file.numbers());
                    word
                }
                None => word,
            };
            file.push(word);
        }
        file
    }

    fn push(&mut self, word: &str) {
        let part = match word {
            "^" => Part::End,
            "[" => Part::Open,
            "]" => Part::Close,
            "P" | "Q" => {
                let block = notation::bytes(word);
                self.parts.push(Part::Number(u64::from(block[0])));
                Part::Bytes(block[1..].to_vec())
            }
            _ => plain(word),
        };
        self.parts.push(part);
    }

    /// How many numbers there are, end offsets included.
    pub fn numbers(&self) -> usize {
        let number = |part: &&Part| matches!(part, Part::Number(_) | Part::End);
        self.parts.iter().filter(number).count()
    }

    /// The file with so much padding, by the place of a number among all.
    pub fn spelt(&self, padding: impl Fn(usize) -> usize) -> Vec<u8> {
        let mut ends = self.ends(&padding).into_iter();
        let mut out = Vec::new();
        let mut place = 0;
        for part in &self.parts {
            let value = match part {
                Part::Number(value) => *value,
                Part::End => ends.next().expect("an end offset has a chunk"),
                Part::Bytes(bytes) => {
                    out.extend_from_slice(bytes);
                    continue;
                }
                Part::Open | Part::Close => continue,
            };
            write_padded(&mut out, value, padding(place));
            place += 1;
        }
        out
    }

    /// The file without padding.
    pub fn shortest(&self) -> Vec<u8> {
        self.spelt(|_| 0)
    }

    /// The file with every number in nine bytes.
    pub fn nine(&self) -> Vec<u8> {
        self.spelt(|_| MOST)
    }

    /// The file with padding in one number.
    pub fn with(&self, place: usize, padding: usize) -> Vec<u8> {
        self.spelt(|other| if other == place { padding } else { 0 })
    }

    /// The file with padding in the number that is looked at.
    pub fn with_marked(&self, padding: usize) -> Vec<u8> {
        self.with(self.marked.expect("a number is marked"), padding)
    }

    /// All end offsets, those of a block counted from the start of its region.
    fn ends(&self, padding: &impl Fn(usize) -> usize) -> Vec<u64> {
        let mut ends = Vec::new();
        let mut place = 0;
        let mut region = 0;
        let mut inside = false;
        for part in &self.parts {
            let length = match part {
                Part::Number(value) => padded(*value, padding(place)).len(),
                Part::Bytes(bytes) => bytes.len(),
                Part::End | Part::Open | Part::Close => 0,
            };
            match part {
                Part::Open => inside = true,
                Part::Close => {
                    inside = false;
                    ends.push(region);
                }
                // End offsets stand before all chunks of their block.
                Part::End => region = 0,
                Part::Number(_) | Part::Bytes(_) if inside => region += length as u64,
                Part::Number(_) | Part::Bytes(_) => {}
            }
            place += usize::from(matches!(part, Part::Number(_) | Part::End));
        }
        ends
    }
}

/// A word for bytes or for a number.
fn plain(word: &str) -> Part {
    match (word.strip_prefix('='), word.strip_prefix('\'')) {
        (Some(digits), _) => Part::Bytes(notation::bytes(digits)),
        (_, Some(letters)) => Part::Bytes(letters.as_bytes().to_vec()),
        _ => Part::Number(u64::from_str_radix(word, 16).expect("hex digits")),
    }
}
