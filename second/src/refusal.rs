//! Refusals: the paper's number and the place at which the rule was broken.

/// The file ends where a number, string bytes or a data region are due.
pub const SHORT: u8 = 1;
/// A v64 was not in shortest coding. Every coding of at most nine bytes is
/// taken, so no file can break this; the number is never given.
pub const PADDED: u8 = 2;
/// A bound is passed.
pub const LIMIT: u8 = 3;
/// An end offset falls.
pub const ENDS: u8 = 4;
/// A name's string number is 0 or too large.
pub const NAME: u8 = 5;
/// A second entry in a block, or a used field name.
pub const TWICE: u8 = 6;
/// The super name is no earlier type.
pub const SUPER: u8 = 7;
/// The chain of super types returns to itself. No file can do that, since a
/// super type is always an earlier one; the number is never given.
pub const LOOP: u8 = 8;
/// A number of restrictions is not 0.
pub const RESTRICTION: u8 = 9;
/// A kind or element kind is not listed, or has no type.
pub const KIND: u8 = 10;
/// Objects are added and fewer fields given than known.
pub const FIELDS: u8 = 11;
/// Values do not fill their chunk exactly.
pub const CHUNK: u8 = 12;
/// A bool byte is neither 00 nor FF.
pub const VALUE: u8 = 13;
/// A string number is too large, or there is no object of that type.
pub const REFERENCE: u8 = 14;
/// The work table is too short.
pub const TABLE: u8 = 15;
/// No type of the file has the name.
pub const NO_TYPE: u8 = 16;
/// The type itself has no field of the name.
pub const NO_FIELD: u8 = 17;
/// The field's kind is not the one asked for.
pub const OTHER_KIND: u8 = 18;
/// The lent output is too short for the whole output.
pub const ROOM: u8 = 19;
/// No accepted file has this listing.
pub const LISTING: u8 = 20;
/// A local range rule is broken.
pub const RANGE: u8 = 21;

/// Why a call was refused.
#[derive(Clone, Copy, Debug, PartialEq, Eq)]
pub struct Refusal {
    /// The paper's refusal number.
    pub number: u8,
    /// Offset in the file at which the number, element or run of string bytes
    /// that broke the rule began; 0 for 15 to 20 and for an over-long file.
    pub place: u64,
}

impl Refusal {
    /// A refusal that has a place in the file.
    pub fn at(number: u8, place: usize) -> Self {
        Refusal {
            number,
            place: place as u64,
        }
    }

    /// A refusal that speaks of the call and not of a place in the file.
    pub fn of_call(number: u8) -> Self {
        Refusal { number, place: 0 }
    }
}
