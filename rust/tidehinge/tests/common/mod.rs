//! What several tests need.
#![allow(dead_code)]

use tidehinge::{Refusal, WORK};

/// The first file of the paper: type `date`, field `date`, values 1 and -1.
pub const D: [u8; 29] = [
    0x01, 0x00, 0x00, 0x00, 0x04, b'd', b'a', b't', b'e', // one string
    0x01, 0x01, 0x00, 0x02, 0x00, 0x01, // one type, two objects, one field
    0x00, 0x0B, 0x01, 0x0A, // v64, ends at 10
    0x01, 0xFF, 0xFF, 0xFF, 0xFF, 0xFF, 0xFF, 0xFF, 0xFF, 0xFF,
];

/// What stands behind `D` in the second file: one more object, value 256.
pub const LAST_PAIR: [u8; 8] = [0x00, 0x01, 0x01, 0x01, 0x01, 0x02, 0x80, 0x02];

/// The listing of the second file.
pub const LISTING: &str = "\
pair\t1\t1
str\t64617465
type\t1\t0\t-\t2\t1
new\t11\t1
val\t1
val\t-1
pair\t0\t1
type\t1\t-\t-\t1\t1
old
val\t256
";

/// Places in the last pair.
pub const COUNT: usize = 3;
pub const FIELDS: usize = 4;
pub const END: usize = 5;

/// The second file of the paper.
pub fn e() -> Vec<u8> {
    [&D[..], &LAST_PAIR[..]].concat()
}

/// The second file with another byte at a place in its last pair.
pub fn e_with(place: usize, byte: u8) -> Vec<u8> {
    let mut file = e();
    file[D.len() + place] = byte;
    file
}

/// Strings a, b and c. Type `a` has two objects, a constant `b` (i8, 3) and a
/// bool `c`, which is true and then false. Type `b` below it is the second
/// object alone, with a reference `a` to itself and a string `b`, which is c.
pub const SEVERAL: [u8; 49] = [
    0x03, 0x00, 0x00, 0x00, 0x01, 0x00, 0x00, 0x00, 0x02, 0x00, 0x00, 0x00, 0x03, b'a', b'b', b'c',
    0x02, // two entries
    0x01, 0x00, 0x02, 0x00, 0x02, // a: no super type, two objects, two fields
    0x00, 0x00, 0x03, 0x02, 0x00, // b: constant 3, ends at 0
    0x00, 0x06, 0x03, 0x02, // c: bool, ends at 2
    0x02, 0x01, 0x01, 0x01, 0x00, 0x02, // b below a: from 1, one object, two fields
    0x00, 0x21, 0x01, 0x03, // a: reference to the second type, ends at 3
    0x00, 0x0E, 0x02, 0x04, // b: string, ends at 4
    0xFF, 0x00, 0x02, 0x03,
];

/// A table that is long enough, and not empty.
pub fn table() -> Vec<u32> {
    vec![0xA5A5_A5A5; WORK]
}

pub fn check(file: &[u8]) -> Result<(), Refusal> {
    tidehinge::check(file, &mut table())
}

pub fn objects(file: &[u8], type_name: &str) -> Result<usize, Refusal> {
    tidehinge::objects(file, type_name.as_bytes(), &mut table())
}

/// A field's values, with room for any. Both calls are asked, and have to say
/// the same.
pub fn values_of(
    file: &[u8],
    type_name: &str,
    field: &str,
    kind: u64,
) -> Result<Vec<i64>, Refusal> {
    let (type_name, field) = (type_name.as_bytes(), field.as_bytes());
    let counted = tidehinge::count_values(file, type_name, field, kind, &mut table());
    let mut out = vec![7; tidehinge::OBJECTS];
    let filled = tidehinge::fill_values(file, type_name, field, kind, &mut table(), &mut out);
    assert_eq!(counted, filled, "the two calls disagree");
    let count = filled?;
    assert!(
        out[count..].iter().all(|&number| number == 7),
        "the rest of the output is touched"
    );
    out.truncate(count);
    Ok(out)
}

/// A listing with room for any that has no fixed arrays of length 0.
pub fn listing(file: &[u8]) -> Result<String, Refusal> {
    let mut out = vec![7; 9 * file.len()];
    let length = tidehinge::listing(file, &mut table(), &mut out)?;
    assert!(
        out[length..].iter().all(|&byte| byte == 7),
        "the rest of the output is touched"
    );
    out.truncate(length);
    Ok(String::from_utf8(out).expect("a listing is text"))
}

/// A file from its listing, with room for any.
pub fn build(text: &str) -> Result<Vec<u8>, Refusal> {
    let mut out = vec![7; tidehinge::FILE];
    let length = tidehinge::build(text.as_bytes(), &mut table(), &mut out)?;
    assert!(
        out[length..].iter().all(|&byte| byte == 7),
        "the rest of the output is touched"
    );
    out.truncate(length);
    Ok(out)
}
