//! Safe calls to Tidehinge, the proved reader and writer of SKilL ledgers.
//!
//! Every call gets the bytes of a whole file, or of a whole listing, and a work
//! table of at least [`WORK`] numbers, and uses no other memory. The table may
//! hold anything. After a call its first [`WORK`] numbers are 0 and the rest is
//! as lent. A shorter table gives [`Refusal::Table`] and is untouched.
//!
//! A file is accepted or refused as a whole: a fault in its last pair is told
//! by every call, whatever is asked for.
//!
//! ```
//! let file = [0u8; 2]; // one pair, with no strings and no entries
//! let mut work = vec![0; tidehinge::WORK];
//! assert_eq!(tidehinge::check(&file, &mut work), Ok(()));
//!
//! let refusal = tidehinge::objects(&file, b"drive", &mut work).unwrap_err();
//! assert_eq!(refusal, tidehinge::Refusal::NoType);
//! assert_eq!(refusal.number(), 16);
//! assert_eq!(refusal.to_string(), "no such type in the file");
//! ```

#![deny(unsafe_code)]
#![warn(missing_docs)]

mod library;
mod refusal;

pub use refusal::Refusal;

/// The numbers that a work table needs at least.
pub const WORK: usize = 16_384;

/// The most bytes that a file has.
pub const FILE: usize = 1_048_576;

/// The most objects that all types of a file have together. So many numbers are
/// room for the values of any field.
pub const OBJECTS: usize = 65_535;

/// Checks that a file follows every rule of the format.
pub fn check(file: &[u8], work: &mut [u32]) -> Result<(), Refusal> {
    refusal::of_answer(library::check(file, work)).map(|_| ())
}

/// The number of objects of the named type, those of its subtypes included.
///
/// Names are compared byte by byte.
pub fn objects(file: &[u8], type_name: &[u8], work: &mut [u32]) -> Result<usize, Refusal> {
    refusal::of_answer(library::objects(file, type_name, work))
}

/// The number of values that one field has: one for each object of the type,
/// so the number that [`objects`] gives too.
///
/// Ask first, lend [`fill_values`] so many numbers, or more, and it writes
/// exactly so many. Both take the same names and kind.
///
/// The field is one of the type itself, not of its super types. `kind` has to
/// be the field's kind; any other number gives [`Refusal::OtherKind`].
///
/// | kind | what is counted here, and written by [`fill_values`] |
/// |---|---|
/// | 0 to 4 | constant i8, i16, i32, i64, v64: its value, for every object |
/// | 6 | bool: 0 or 1 |
/// | 7 to 11 | i8, i16, i32, i64, v64 |
/// | 12, 13 | f32, f64: the bits; those of an f32 as a number from 0 up |
/// | 14 | string: its number in the file, from 1, or 0 for none |
/// | 32 | reference to any type: the object's number, from 1, or 0 for none |
///
/// A value of an annotation (kind 5), of an array, list or set (15, 17 to 19)
/// or of a map (20) is not one number: whatever kind these are asked with gives
/// [`Refusal::OtherKind`]. [`listing`] shows them.
///
/// The refusals are [`Refusal::Table`], those of the file,
/// [`Refusal::NoType`], [`Refusal::NoField`] and [`Refusal::OtherKind`],
/// looked for in this order. [`Refusal::Room`] is never given: no output is
/// lent.
///
/// ```
/// // The type `date` has two objects, and a field `date` of kind v64.
/// let file = b"\x01\0\0\0\x04date\x01\x01\0\x02\0\x01\0\x0B\x01\x02\x01\x7F";
/// let mut work = vec![0; tidehinge::WORK];
/// let count = tidehinge::count_values(file, b"date", b"date", 11, &mut work)?;
/// assert_eq!(count, 2);
///
/// let mut values = vec![0; count];
/// tidehinge::fill_values(file, b"date", b"date", 11, &mut work, &mut values)?;
/// assert_eq!(values, [1, 127]);
/// # Ok::<(), tidehinge::Refusal>(())
/// ```
pub fn count_values(
    file: &[u8],
    type_name: &[u8],
    field: &[u8],
    kind: u64,
    work: &mut [u32],
) -> Result<usize, Refusal> {
    refusal::of_answer(library::count_values(file, type_name, field, kind, work))
}

/// Writes the values that [`count_values`] counts to the front of `out`, in the
/// order of the file; gives their number, which is the same.
///
/// The rest of `out` is untouched, and a refusal leaves all of it as it was.
///
/// The refusals are those of [`count_values`], in the same order, and behind
/// them [`Refusal::Room`], if `out` has fewer places than there are values.
///
/// Each of the two reads the whole file anew, and knows nothing of the other.
/// If it is another file by then, this one answers for the bytes that it gets,
/// and with [`Refusal::Room`] where these have more values than `out` has
/// places.
///
/// [`OBJECTS`] numbers are always enough. Whoever would rather make one call
/// lends so many, and need not ask:
///
/// ```
/// // The type `date` has two objects, and a field `date` of kind v64.
/// let file = b"\x01\0\0\0\x04date\x01\x01\0\x02\0\x01\0\x0B\x01\x02\x01\x7F";
/// let mut work = vec![0; tidehinge::WORK];
/// let mut values = vec![0; tidehinge::OBJECTS];
/// let count = tidehinge::fill_values(file, b"date", b"date", 11, &mut work, &mut values)?;
/// assert_eq!(values[..count], [1, 127]);
///
/// let refusal = tidehinge::fill_values(file, b"date", b"date", 11, &mut work, &mut values[..1]);
/// assert_eq!(refusal, Err(tidehinge::Refusal::Room));
/// # Ok::<(), tidehinge::Refusal>(())
/// ```
pub fn fill_values(
    file: &[u8],
    type_name: &[u8],
    field: &[u8],
    kind: u64,
    work: &mut [u32],
    out: &mut [i64],
) -> Result<usize, Refusal> {
    let answer = library::fill_values(file, type_name, field, kind, work, out);
    refusal::of_answer(answer)
}

/// Writes the listing of a file, which is text in ASCII, to the front of
/// `out`; gives its length.
///
/// The rest of `out` is untouched, and a refusal leaves all of it as it was.
///
/// It is proved that a listing has at most 9 bytes for each byte of the file.
/// Only values of an array field of fixed length 0 come on top: each takes no
/// byte of the file and 4 of the listing, at most 33,553,920 in all. So lend 9
/// times the file's length, and after [`Refusal::Room`] 33,553,920 bytes more:
/// then that refusal is not given.
///
/// ```
/// let file = [0u8; 2]; // one pair, with no strings and no entries
/// let mut work = vec![0; tidehinge::WORK];
/// let mut out = vec![0; 9 * file.len()];
/// let length = tidehinge::listing(&file, &mut work, &mut out)?;
/// assert_eq!(out[..length], *b"pair\t0\t0\n");
/// # Ok::<(), tidehinge::Refusal>(())
/// ```
pub fn listing(file: &[u8], work: &mut [u32], out: &mut [u8]) -> Result<usize, Refusal> {
    refusal::of_answer(library::listing(file, work, out))
}

/// Builds a file from its listing: writes the shortest file that has the
/// listing `text` to the front of `out`; gives its length.
///
/// The rest of `out` is untouched, and a refusal leaves all of it as it was.
/// What is built is accepted by the other calls, and [`listing`] gives `text`
/// for it again.
///
/// A listing does not show in how many bytes the file had its numbers. Where
/// they all were in their shortest coding, as in every file that `build` wrote,
/// the same bytes come back. Where some were padded, the built file has the
/// same contents and is shorter, its end offsets worked out again.
///
/// `text` has to be what [`listing`] would write, byte for byte. Whatever else
/// it is gives [`Refusal::Listing`]: a blank too many, a number with a leading
/// zero, no newline at the end, or lines that follow each other in no file. So
/// does a listing whose file would break a rule or pass a bound. The text may
/// have any length, and none at all: that is the listing of the empty file.
///
/// The refusals are [`Refusal::Table`], [`Refusal::Listing`] and
/// [`Refusal::Room`], looked for in this order. [`FILE`] bytes of `out` are
/// always enough: no file is longer.
///
/// ```
/// let mut work = vec![0; tidehinge::WORK];
/// let mut out = vec![0; tidehinge::FILE];
/// let length = tidehinge::build(b"pair\t0\t0\n", &mut work, &mut out)?;
/// assert_eq!(out[..length], [0, 0]);
///
/// // The same pair, its number of strings in two bytes, has this listing too.
/// let length = tidehinge::listing(&[0x80, 0x00, 0x00], &mut work, &mut out)?;
/// assert_eq!(out[..length], *b"pair\t0\t0\n");
///
/// let refusal = tidehinge::build(b"pair\t00\t0\n", &mut work, &mut out);
/// assert_eq!(refusal, Err(tidehinge::Refusal::Listing));
/// # Ok::<(), tidehinge::Refusal>(())
/// ```
pub fn build(text: &[u8], work: &mut [u32], out: &mut [u8]) -> Result<usize, Refusal> {
    refusal::of_answer(library::build(text, work, out))
}
