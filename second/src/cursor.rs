//! A reading position in the file, for everything that stands outside chunks.

use crate::refusal::{Refusal, SHORT};
use crate::v64::{self, Cut};

/// A number and the place where it began.
#[derive(Clone, Copy, Debug)]
pub struct Found {
    pub value: u64,
    pub place: usize,
}

impl Found {
    /// A refusal at this number.
    pub fn refuse<T>(self, number: u8) -> Result<T, Refusal> {
        Err(Refusal::at(number, self.place))
    }

    /// This refusal if the rule is broken.
    pub fn refuse_if(self, broken: bool, number: u8) -> Result<(), Refusal> {
        if broken {
            self.refuse(number)
        } else {
            Ok(())
        }
    }
}

/// Where reading stands.
pub struct Cursor<'f> {
    file: &'f [u8],
    position: usize,
}

impl<'f> Cursor<'f> {
    pub fn new(file: &'f [u8]) -> Self {
        Cursor { file, position: 0 }
    }

    pub fn position(&self) -> usize {
        self.position
    }

    pub fn at_end(&self) -> bool {
        self.position == self.file.len()
    }

    /// How many bytes are left.
    pub fn left(&self) -> usize {
        self.file.len() - self.position
    }

    /// Reads a v64.
    #[inline(always)]
    pub fn v64(&mut self) -> Result<Found, Refusal> {
        let place = self.position;
        let (value, next) = v64::read(self.file, place).map_err(|Cut| Refusal::at(SHORT, place))?;
        self.position = next;
        Ok(Found { value, place })
    }

    /// Reads `width` bytes, highest first, as an unsigned number.
    pub fn wide(&mut self, width: usize) -> Result<Found, Refusal> {
        let place = self.position;
        let bytes = self.take(width).ok_or(Refusal::at(SHORT, place))?;
        let value = bytes
            .iter()
            .fold(0, |value, &byte| value << 8 | u64::from(byte));
        Ok(Found { value, place })
    }

    /// Moves on by `length` bytes and answers them, if there are as many.
    pub fn take(&mut self, length: usize) -> Option<&'f [u8]> {
        let bytes = self.file[self.position..].get(..length)?;
        self.position += length;
        Some(bytes)
    }
}
