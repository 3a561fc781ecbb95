//! Numbers in more bytes than they need: they are read as any other, the
//! listing does not show them, and what is built from it is shorter.

mod common;

use common::{build, check, e, e_with, listing, objects, values_of};
use common::{END, LISTING};
use tidehinge::{Refusal, FILE};

/// The ledger of a controller that writes every number in nine bytes.
const NINE: &[u8] = include_bytes!("../../../examples/nine.skill");
const NINE_LISTING: &str = include_str!("../../../examples/nine.listing");
/// The same ledger in shortest coding.
const SHORT: &[u8] = include_bytes!("../../../examples/nine.short.skill");

/// A number in nine bytes, the most that a coding has.
fn nine(number: i64) -> [u8; 9] {
    let bits = number as u64;
    let mut bytes = [0; 9];
    for (index, byte) in bytes[..8].iter_mut().enumerate() {
        *byte = (bits >> (7 * index)) as u8 | 0x80;
    }
    bytes[8] = (bits >> 56) as u8;
    bytes
}

/// Numbers one behind the other, each in nine bytes.
fn nines(numbers: &[i64]) -> Vec<u8> {
    numbers.iter().copied().flat_map(nine).collect()
}

/// The second file of the paper with all its numbers in nine bytes. The string
/// and its end have no other coding.
fn e_in_nines() -> Vec<u8> {
    let first = nines(&[1, 1, 0, 2, 0, 1, 0, 11, 1, 18, 1, -1]);
    let last = nines(&[0, 1, 1, 1, 1, 9, 256]);
    [&nine(1), &[0, 0, 0, 4][..], b"date", &first, &last].concat()
}

/// What a file without padding gives, a file with it gives too, and it comes
/// back as that file.
fn assert_is_e(file: &[u8]) {
    assert_eq!(check(file), Ok(()));
    assert_eq!(objects(file, "date"), Ok(3));
    assert_eq!(values_of(file, "date", "date", 11), Ok(vec![1, -1, 256]));
    let text = listing(file).expect("the listing of an accepted file");
    assert_eq!(text, LISTING);
    assert_eq!(build(&text), Ok(e()));
}

#[test]
fn every_number_in_nine_bytes() {
    let file = e_in_nines();
    assert_eq!((file.len(), e().len()), (188, 37));
    assert_is_e(&file);
}

/// Where a number of `e` stands in one byte, outside of the chunks.
fn places() -> impl Iterator<Item = usize> {
    (0..1).chain(9..19).chain(29..35)
}

/// A file with the byte at a place made longer by some bytes, all of them 0.
fn lengthened(file: &[u8], place: usize, more: usize) -> Vec<u8> {
    let number = [&[file[place] | 0x80], &vec![0x80; more - 1][..], &[0]].concat();
    [&file[..place], &number, &file[place + 1..]].concat()
}

#[test]
fn each_number_in_two_to_nine_bytes() {
    for place in places() {
        for more in 1..9 {
            assert_is_e(&lengthened(&e(), place, more));
        }
    }
}

/// The chunk of the last value grows with it.
#[test]
fn a_value_in_three_to_nine_bytes() {
    for more in 1..8 {
        let mut file = lengthened(&e(), 36, more);
        file[34] += more as u8;
        assert_is_e(&file);
    }
}

/// What has a value is held to the rules of this value.
#[test]
fn refused_by_value() {
    // A name, super names, a number of objects and of restrictions, a kind, and
    // a number of fields, each with a 00 behind its shortest coding.
    let wrong: [(usize, &[u8], Refusal); 7] = [
        (10, &[0x80, 0x00], Refusal::Name),
        (11, &[0x82, 0x00], Refusal::Name),
        (11, &[0x81, 0x00], Refusal::Super),
        (12, &[0x80, 0x80, 0x84, 0x00], Refusal::Limit),
        (13, &[0x81, 0x00], Refusal::Restriction),
        (16, &[0x95, 0x00], Refusal::Kind),
        (33, &[0x80, 0x00], Refusal::Fields),
    ];
    for (place, number, refusal) in wrong {
        let file = [&e()[..place], number, &e()[place + 1..]].concat();
        assert_eq!(check(&file), Err(refusal), "{number:x?} at {place}");
        assert_eq!(listing(&file), Err(refusal));
    }
}

/// A number has to lie within its chunk, also where its value is known before
/// it ends.
#[test]
fn across_the_end_of_a_chunk() {
    let mut file = e_with(END, 1);
    file[36] = 0;
    assert_eq!(check(&file), Err(Refusal::Chunk));
    file[34] = 2;
    assert_eq!(values_of(&file, "date", "date", 11), Ok(vec![1, -1, 0]));
}

/// A cut between the pairs leaves the first file. Any other is seen.
#[test]
fn cut_short() {
    let file = e_in_nines();
    for length in 1..file.len() {
        let expected = match length {
            125 => Ok(()),
            _ => Err(Refusal::Short),
        };
        assert_eq!(check(&file[..length]), expected, "{length} bytes");
    }
}

/// A file with one string, its number of strings in nine bytes.
fn one_string(length: usize) -> Vec<u8> {
    let end = (length as u32).to_be_bytes();
    [&nine(1), &end[..], &vec![b'x'; length], &[0]].concat()
}

/// A file is as long as its bytes are many, whatever it would be without
/// padding; what is built is held to the bound as it is built.
#[test]
fn bounded_by_its_own_length() {
    let longest = one_string(FILE - 14);
    assert_eq!(longest.len(), FILE);
    let built = build(&listing(&longest).unwrap()).unwrap();
    assert_eq!(built.len(), FILE - 8);
    assert_eq!(check(&one_string(FILE - 13)), Err(Refusal::Limit));
    let text = format!("pair\t1\t0\nstr\t{}\n", "78".repeat(FILE - 13));
    assert_eq!(build(&text).map(|file| file.len()), Ok(FILE - 7));
}

/// The example: the same answers and one listing for both files, and the
/// shorter one from it.
#[test]
fn the_ledger_in_nine_bytes() {
    let wear = vec![127, 256, 402, 311, 128, 0, 300, 255, 129, 1];
    for file in [NINE, SHORT] {
        assert_eq!(check(file), Ok(()));
        assert_eq!(objects(file, "drive"), Ok(10));
        assert_eq!(objects(file, "spare"), Ok(2));
        assert_eq!(values_of(file, "drive", "wear", 11).as_ref(), Ok(&wear));
        assert_eq!(listing(file).as_deref(), Ok(NINE_LISTING));
    }
    assert_eq!(build(NINE_LISTING).as_deref(), Ok(SHORT));
    assert_eq!((NINE.len(), SHORT.len()), (943, 302));
}
