//! The longest listings, for each byte of the file and of all files, and the
//! files from them.

mod common;

use common::{build, listing, table};
use tidehinge::{Refusal, OBJECTS};

/// How many fields a file has at most.
const FIELDS: usize = 128;

/// A number in the coding of the format.
fn v64(mut number: usize) -> Vec<u8> {
    let mut bytes = Vec::new();
    while number > 127 {
        bytes.push(number as u8 | 0x80);
        number >>= 7;
    }
    bytes.push(number as u8);
    bytes
}

/// A type of so many objects, whose fields have this kind and values of this
/// many bytes, all 80.
fn ledger(objects: usize, fields: usize, kind: &[u8], width: usize) -> Vec<u8> {
    let mut file = v64(fields);
    let names: Vec<u8> = (1..=fields as u8).collect();
    for end in 1..=fields as u32 {
        file.extend(end.to_be_bytes());
    }
    file.extend([&names[..], &[1, 1, 0]].concat());
    file.extend([v64(objects), vec![0], v64(fields)].concat());
    for field in 1..=fields {
        let end = field * objects * width;
        file.extend([&[0], kind, &v64(field), &v64(end)].concat());
    }
    file.resize(file.len() + fields * objects * width, 0x80);
    file
}

/// An i8 of one byte takes up to nine.
#[test]
fn nine_bytes_for_one() {
    let file = ledger(OBJECTS, 10, &[7], 1);
    let text = listing(&file).unwrap();
    let lines = 10 * OBJECTS;
    assert!(text.ends_with(&"val\t-128\n".repeat(lines)));
    assert!(text.len() > 9 * lines && text.len() <= 9 * file.len());
    assert_eq!(build(&text), Ok(file));
}

/// As many arrays of fixed length 0 as there may be: each is a line, and none
/// has a byte in the file.
#[test]
fn four_bytes_for_nothing() {
    let file = ledger(OBJECTS, FIELDS, &[15, 0, 6], 0);
    assert_eq!(listing(&file), Err(Refusal::Room));
    let lines = 4 * FIELDS * OBJECTS;
    assert_eq!(lines, 33_553_920);
    let mut out = vec![7; 9 * file.len() + lines];
    let length = tidehinge::listing(&file, &mut table(), &mut out).unwrap();
    let (text, rest) = out.split_at(length);
    assert!(rest.iter().all(|&byte| byte == 7));
    let (head, values) = text.split_at(length - lines);
    assert!(head.starts_with(b"pair\t128\t1\nstr\t01\n"));
    assert!(head.ends_with(b"new\t15,0,6\t128\n"));
    assert!(values.chunks(4).all(|line| line == b"val\n"));
    let text = std::str::from_utf8(text).expect("a listing is text");
    assert_eq!(build(text), Ok(file));
}
