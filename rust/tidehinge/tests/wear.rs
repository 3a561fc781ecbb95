//! The ledger `wear.skill`: twenty weeks, forty drives.

mod common;

use common::{build, check, listing, objects, table, values_of};
use tidehinge::Refusal;

const WEAR: &[u8] = include_bytes!("../../../examples/wear.skill");

/// What the second program prints for it.
const LISTING: &str = include_str!("../../../examples/wear.listing");

/// The wear of the forty drives, a line for each week in which some came.
#[rustfmt::skip]
const VALUES: [i64; 40] = [
    118, 127, 402, 93,
    128, 64,
    211, 256, 187,
    255, 0,
    142,
    299, 300, 76,
    165, 301,
    49, 233,
    311, 104, 1,
    256, 198,
    12,
    274, 88, 311,
    153, 240,
    37, 0,
    172, 256,
    402,
    129, 220, 61,
    195, 2,
];

#[test]
fn wear_of_all_drives() {
    assert_eq!(check(WEAR), Ok(()));
    assert_eq!(objects(WEAR, "drive"), Ok(40));
    assert_eq!(values_of(WEAR, "drive", "wear", 11), Ok(VALUES.to_vec()));
}

#[test]
fn room_for_forty() {
    let counted = tidehinge::count_values(WEAR, b"drive", b"wear", 11, &mut table());
    assert_eq!(counted, Ok(40));
    let mut out = [-5; 40];
    let mut fill = |length| {
        let out = &mut out[..length];
        tidehinge::fill_values(WEAR, b"drive", b"wear", 11, &mut table(), out)
    };
    assert_eq!(fill(39), Err(Refusal::Room));
    assert_eq!(fill(40), Ok(40));
    assert_eq!(out, VALUES);
}

#[test]
fn listing_of_all_weeks() {
    assert_eq!(listing(WEAR).as_deref(), Ok(LISTING));
}

#[test]
fn built_from_its_listing() {
    assert_eq!(build(LISTING).as_deref(), Ok(WEAR));
}

/// The wear of the last drive, changed by hand in the listing.
#[test]
fn built_with_another_wear() {
    let last = LISTING
        .rfind("val\t2\n")
        .expect("the wear of the last drive");
    let text = [&LISTING[..last], "val\t3\n", &LISTING[last + 6..]].concat();
    let file = build(&text).unwrap();
    let wear = values_of(&file, "drive", "wear", 11).unwrap();
    assert_eq!(wear[..39], VALUES[..39]);
    assert_eq!(wear[39], 3);
}

/// The hours come in week 9, for the drives before it too.
#[test]
fn the_late_field() {
    let hours = values_of(WEAR, "drive", "hours", 9).unwrap();
    assert_eq!(hours.len(), 40);
    assert_eq!(hours[..4], [9_120, 9_876, 31_540, 7_411]);
    assert_eq!(hours[16..20], [23_897, 3_905, 18_724, 25_377]);
    assert_eq!(hours[38..], [15_480, 140]);
}

/// Serial numbers are the first strings of a pair, after the name `drive`.
#[test]
fn the_other_fields() {
    let serials = values_of(WEAR, "drive", "serial", 14).unwrap();
    assert_eq!(serials[..6], [2, 3, 4, 5, 9, 10]);
    let shelves = values_of(WEAR, "drive", "shelf", 7).unwrap();
    assert_eq!((shelves[0], shelves[11], shelves[39]), (1, 2, 4));
}

/// A spare is a drive, and the wear is a field of drives alone.
#[test]
fn spares() {
    assert_eq!(objects(WEAR, "spare"), Ok(4));
    assert_eq!(values_of(WEAR, "spare", "wear", 11), Err(Refusal::NoField));
}

/// A copy that lost its end is refused, or it is the ledger of some weeks ago:
/// then it has the first drives, and their wear.
#[test]
fn cut_short() {
    let mut weeks = 0;
    for length in 0..WEAR.len() {
        let part = &WEAR[..length];
        match values_of(part, "drive", "wear", 11) {
            Ok(wear) => {
                assert_eq!(wear, VALUES[..wear.len()]);
                assert!(LISTING.starts_with(&listing(part).unwrap()));
                weeks += 1;
            }
            Err(Refusal::NoType) => assert_eq!(length, 0),
            Err(refusal) => assert_eq!(refusal, Refusal::Short),
        }
    }
    assert_eq!(weeks, 19);
}
