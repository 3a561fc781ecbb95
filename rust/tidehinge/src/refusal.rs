//! Refusals.

use std::error::Error;
use std::fmt;

/// Why a call was refused.
///
/// `docs/REFUSALS.md` says of each when it is given and what to do.
#[derive(Clone, Copy, Debug, PartialEq, Eq, Hash)]
#[non_exhaustive]
#[repr(u8)]
pub enum Refusal {
    /// The file ends too early.
    Short = 1,
    /// A number has filler bytes. No longer given: every coding of a number in
    /// at most nine bytes is taken. No other refusal will get this number.
    Padded = 2,
    /// A bound is passed.
    Limit = 3,
    /// An end offset falls.
    Ends = 4,
    /// A name is missing.
    Name = 5,
    /// A type or a field name comes twice.
    Twice = 6,
    /// The super type is not known yet.
    Super = 7,
    /// The chain of super types returns to itself. No file can do that.
    Loop = 8,
    /// Restrictions are announced.
    Restriction = 9,
    /// A kind is unknown.
    Kind = 10,
    /// Known fields are left out.
    Fields = 11,
    /// Values and chunk length disagree.
    Chunk = 12,
    /// A bool is neither 00 nor FF.
    Value = 13,
    /// A number points at nothing.
    Reference = 14,
    /// The work table is too short.
    Table = 15,
    /// No such type in the file.
    NoType = 16,
    /// The type has no such field.
    NoField = 17,
    /// The field has another kind.
    OtherKind = 18,
    /// The lent output is too short.
    Room = 19,
    /// No file has this listing.
    Listing = 20,
    /// A subtype's range is wrong.
    Range = 21,
}

impl Refusal {
    /// All refusals, in the order of their numbers.
    pub const ALL: [Refusal; 21] = [
        Refusal::Short,
        Refusal::Padded,
        Refusal::Limit,
        Refusal::Ends,
        Refusal::Name,
        Refusal::Twice,
        Refusal::Super,
        Refusal::Loop,
        Refusal::Restriction,
        Refusal::Kind,
        Refusal::Fields,
        Refusal::Chunk,
        Refusal::Value,
        Refusal::Reference,
        Refusal::Table,
        Refusal::NoType,
        Refusal::NoField,
        Refusal::OtherKind,
        Refusal::Room,
        Refusal::Listing,
        Refusal::Range,
    ];

    /// The refusal's number, from 1 to 21.
    pub fn number(self) -> u8 {
        self as u8
    }

    fn words(self) -> &'static str {
        match self {
            Refusal::Short => "the file ends too early",
            Refusal::Padded => "a number has filler bytes",
            Refusal::Limit => "a bound is passed",
            Refusal::Ends => "an end offset falls",
            Refusal::Name => "a name is missing",
            Refusal::Twice => "a type or a field name comes twice",
            Refusal::Super => "the super type is not known yet",
            Refusal::Loop => "the chain of super types returns to itself",
            Refusal::Restriction => "restrictions are announced",
            Refusal::Kind => "a kind is unknown",
            Refusal::Fields => "known fields are left out",
            Refusal::Chunk => "values and chunk length disagree",
            Refusal::Value => "a bool is neither 00 nor FF",
            Refusal::Reference => "a number points at nothing",
            Refusal::Table => "the work table is too short",
            Refusal::NoType => "no such type in the file",
            Refusal::NoField => "the type has no such field",
            Refusal::OtherKind => "the field has another kind",
            Refusal::Room => "the lent output is too short",
            Refusal::Listing => "no file has this listing",
            Refusal::Range => "a subtype's range is wrong",
        }
    }
}

impl fmt::Display for Refusal {
    fn fmt(&self, out: &mut fmt::Formatter<'_>) -> fmt::Result {
        out.pad(self.words())
    }
}

impl Error for Refusal {}

/// An answer of the library: a result from 0 up, or minus a refusal's number.
/// It is proved that the library answers nothing else.
pub(crate) fn of_answer(answer: i64) -> Result<usize, Refusal> {
    if let Ok(result) = usize::try_from(answer) {
        return Ok(result);
    }
    let numbered = |refusal: &&Refusal| -i64::from(refusal.number()) == answer;
    let refusal = Refusal::ALL.iter().find(numbered);
    Err(*refusal.unwrap_or_else(|| unreachable!("the library answered {answer}")))
}

#[cfg(test)]
mod tests {
    use super::*;

    #[test]
    fn results() {
        for result in [0, 1, 65_535] {
            assert_eq!(of_answer(result as i64), Ok(result));
        }
    }

    #[test]
    fn refusals() {
        for (index, refusal) in Refusal::ALL.into_iter().enumerate() {
            let number = index as u8 + 1;
            assert_eq!(refusal.number(), number);
            assert_eq!(of_answer(-i64::from(number)), Err(refusal));
        }
    }

    #[test]
    #[should_panic(expected = "the library answered -22")]
    fn no_answer_of_the_library() {
        let _ = of_answer(-22);
    }

    #[test]
    #[should_panic(expected = "the library answered -9223372036854775808")]
    fn the_least_number_is_no_answer_either() {
        let _ = of_answer(i64::MIN);
    }

    #[test]
    fn a_refusal_is_an_error() {
        let error: Box<dyn Error> = Refusal::Chunk.into();
        assert_eq!(error.to_string(), "values and chunk length disagree");
    }
}
