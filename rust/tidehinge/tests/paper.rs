//! The files of the paper, damaged ones, and what is asked of them.

mod common;

use common::{build, check, e, e_with, listing, objects, values_of};
use common::{COUNT, D, END, FIELDS, LISTING, SEVERAL};
use tidehinge::Refusal;

#[test]
fn the_two_files() {
    assert_eq!(check(&D), Ok(()));
    assert_eq!(objects(&D, "date"), Ok(2));
    assert_eq!(values_of(&D, "date", "date", 11), Ok(vec![1, -1]));
    assert_eq!(check(&e()), Ok(()));
    assert_eq!(objects(&e(), "date"), Ok(3));
    assert_eq!(values_of(&e(), "date", "date", 11), Ok(vec![1, -1, 256]));
}

#[test]
fn the_two_listings() {
    assert_eq!(listing(&e()).as_deref(), Ok(LISTING));
    let last_pair = LISTING.find("pair\t0").unwrap();
    assert_eq!(listing(&D).as_deref(), Ok(&LISTING[..last_pair]));
}

#[test]
fn the_two_files_from_their_listings() {
    assert_eq!(build(LISTING), Ok(e()));
    let last_pair = LISTING.find("pair\t0").unwrap();
    assert_eq!(build(&LISTING[..last_pair]), Ok(D.to_vec()));
}

/// The files of the folder `examples` are the same two.
#[test]
fn the_two_files_as_examples() {
    assert_eq!(D, *include_bytes!("../../../examples/d.skill"));
    assert_eq!(e(), *include_bytes!("../../../examples/e.skill"));
}

#[test]
fn the_empty_file() {
    assert_eq!(check(&[]), Ok(()));
    assert_eq!(objects(&[], ""), Err(Refusal::NoType));
    assert_eq!(values_of(&[], "", "", 11), Err(Refusal::NoType));
    assert_eq!(listing(&[]).as_deref(), Ok(""));
    assert_eq!(build(""), Ok(Vec::new()));
}

/// Every call tells the fault, whatever it was asked for.
fn assert_refused(file: &[u8], refusal: Refusal) {
    assert_eq!(check(file), Err(refusal));
    assert_eq!(listing(file), Err(refusal));
    for name in ["date", "no such name"] {
        assert_eq!(objects(file, name), Err(refusal));
        assert_eq!(values_of(file, name, "date", 11), Err(refusal));
    }
}

#[test]
fn damaged_in_the_last_pair() {
    assert_refused(&e_with(END, 1), Refusal::Chunk);
    assert_refused(&e_with(END, 3), Refusal::Short);
    assert_refused(&e_with(COUNT, 2), Refusal::Chunk);
    assert_refused(&e_with(FIELDS, 0), Refusal::Fields);
}

/// A cut between the pairs leaves the first file. Any other is seen.
#[test]
fn cut_short() {
    let file = e();
    for length in 1..file.len() {
        let expected = match length {
            29 => Ok(()),
            _ => Err(Refusal::Short),
        };
        assert_eq!(check(&file[..length]), expected, "{length} bytes");
    }
}

/// The most bytes of a file are looked at, one more are not.
#[test]
fn too_long() {
    let mut file = vec![1; tidehinge::FILE];
    assert_refused(&file, Refusal::Short);
    file.push(1);
    assert_refused(&file, Refusal::Limit);
}

#[test]
fn names_that_are_missing() {
    for name in ["dat", "dates", "Date", "", "date\0"] {
        assert_eq!(objects(&e(), name), Err(Refusal::NoType), "{name}");
        assert_eq!(values_of(&e(), name, "date", 11), Err(Refusal::NoType));
        assert_eq!(values_of(&e(), "date", name, 11), Err(Refusal::NoField));
    }
}

/// Asked with every kind, a field answers to its own alone.
fn assert_kind(type_name: &str, field: &str, kind: u64, values: &[i64]) {
    let others = (0..40).chain([64, 0x1_0000_0000 + kind, u64::MAX]);
    for asked in others.filter(|&asked| asked != kind) {
        let answer = values_of(&SEVERAL, type_name, field, asked);
        assert_eq!(answer, Err(Refusal::OtherKind), "{field} as {asked}");
    }
    let answer = values_of(&SEVERAL, type_name, field, kind);
    assert_eq!(answer.as_deref(), Ok(values));
}

#[test]
fn kinds() {
    assert_kind("a", "b", 0, &[3, 3]);
    assert_kind("a", "c", 6, &[1, 0]);
    assert_kind("b", "a", 32, &[2]);
    assert_kind("b", "b", 14, &[3]);
}

/// Strings in hex, a constant, a subtype with its start, and values of kinds
/// that are not v64.
#[test]
fn listing_of_several_kinds() {
    let lines = [
        "pair\t3\t2",
        "str\t61",
        "str\t62",
        "str\t63",
        "type\t1\t0\t-\t2\t2",
        "new\t0,3\t2",
        "new\t6\t3",
        "type\t2\t1\t1\t1\t2",
        "new\t33\t1",
        "new\t14\t2",
        "val\t1",
        "val\t0",
        "val\t2",
        "val\t3",
    ];
    let expected = lines.map(|line| format!("{line}\n")).concat();
    assert_eq!(build(&expected).as_deref(), Ok(&SEVERAL[..]));
    assert_eq!(listing(&SEVERAL), Ok(expected));
}

/// A listing with one thing changed is refused, unless it is then the listing
/// of another file.
#[test]
fn changed_listings() {
    let wrong = [
        ("val\t256", "val\t0256"),
        ("val\t256", "val\t+256"),
        ("val\t256", "val\t-0"),
        ("val\t256", "val\t18446744073709551872"),
        ("val\t256", "val 256"),
        ("val\t256", "val\t256\t"),
        ("val\t256\n", "val\t256"),
        ("val\t256\n", "val\t256\r\n"),
        ("val\t256\n", "val\t256\n\n"),
        ("val\t256\n", "val\t256\n\0"),
        ("val\t256\n", ""),
        ("old\n", ""),
        ("old\n", "new\t11\t1\n"),
        ("str\t64617465", "str\t6461746F"),
        ("str\t64617465", "str\t6461746"),
        ("pair\t1\t1", "pair\t2\t1"),
        ("pair\t1\t1", "pair\t01\t1"),
        ("type\t1\t0\t-\t2\t1", "type\t2\t0\t-\t2\t1"),
        ("type\t1\t0\t-\t2\t1", "type\t1\t0\t-\t3\t1"),
        ("new\t11\t1", "new\t5\t1"),
        ("new\t11\t1", "new\t16\t1"),
        ("new\t11\t1", "new\t20\t1"),
        ("new\t11\t1", "new\t20,1,11\t1"),
        ("new\t11\t1", "new\t20,2,11,11\t1"),
        ("new\t11\t1", "new\t32\t1"),
    ];
    for (from, to) in wrong {
        let answer = build(&LISTING.replace(from, to));
        assert_eq!(answer, Err(Refusal::Listing), "{to:?} for {from:?}");
    }
    let other = build(&LISTING.replace("256", "257")).unwrap();
    assert_eq!(values_of(&other, "date", "date", 11), Ok(vec![1, -1, 257]));
}

/// The file's own bounds hold for what is built, not for the text.
#[test]
fn built_up_to_the_bounds() {
    let pairs = |count| build(&"pair\t0\t0\n".repeat(count));
    assert_eq!(pairs(32), Ok(vec![0; 64]));
    assert_eq!(pairs(33), Err(Refusal::Listing));
    // The file has six bytes beside the string.
    let string = |length| build(&format!("pair\t1\t0\nstr\t{}\n", "78".repeat(length)));
    let longest = string(tidehinge::FILE - 6).unwrap();
    assert_eq!(longest.len(), tidehinge::FILE);
    assert_eq!(check(&longest), Ok(()));
    assert_eq!(string(tidehinge::FILE - 5), Err(Refusal::Listing));
}

#[test]
fn a_subtype_has_its_own_objects_and_fields() {
    assert_eq!(objects(&SEVERAL, "a"), Ok(2));
    assert_eq!(objects(&SEVERAL, "b"), Ok(1));
    assert_eq!(objects(&SEVERAL, "c"), Err(Refusal::NoType));
    assert_eq!(values_of(&SEVERAL, "b", "c", 6), Err(Refusal::NoField));
}

/// Type first, then field, then kind.
#[test]
fn the_first_thing_wrong_is_told() {
    assert_eq!(values_of(&D, "x", "x", 5), Err(Refusal::NoType));
    assert_eq!(values_of(&D, "date", "x", 5), Err(Refusal::NoField));
    assert_eq!(values_of(&D, "date", "date", 5), Err(Refusal::OtherKind));
}
