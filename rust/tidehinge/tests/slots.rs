//! The ledger `slots.skill`: what sits in each slot, as annotations, and the
//! ports that lead there, as maps.

mod common;

use common::{build, check, listing, objects, values_of};
use tidehinge::Refusal;

const SLOTS: &[u8] = include_bytes!("../../../examples/slots.skill");

/// What the second program prints for it.
const LISTING: &str = include_str!("../../../examples/slots.listing");

#[test]
fn objects_and_values() {
    assert_eq!(check(SLOTS), Ok(()));
    assert_eq!(objects(SLOTS, "slot"), Ok(10));
    assert_eq!(objects(SLOTS, "drive"), Ok(6));
    let wear = values_of(SLOTS, "drive", "wear", 11);
    assert_eq!(wear, Ok(vec![118, 127, 255, 402, 93, 0]));
}

/// Annotations and maps cannot be asked for, with whatever number.
#[test]
fn nothing_to_count_or_to_fill() {
    for (type_name, field) in [("slot", "holds"), ("slot", "ports"), ("tier", "ports")] {
        for kind in (0..40).chain([64, u64::MAX]) {
            let answer = values_of(SLOTS, type_name, field, kind);
            assert_eq!(answer, Err(Refusal::OtherKind), "{field} as {kind}");
        }
    }
}

#[test]
fn listing_of_all_weeks() {
    assert_eq!(listing(SLOTS).as_deref(), Ok(LISTING));
}

#[test]
fn built_from_its_listing() {
    assert_eq!(build(LISTING).as_deref(), Ok(SLOTS));
}

/// A listing with one thing changed: what is then no annotation, and what is
/// no map of this size, is refused.
#[test]
fn changed_by_hand() {
    let wrong = [
        ("val\t26\t6\n", "val\t26\t7\n"),
        ("val\t26\t6\n", "val\t34\t6\n"),
        ("val\t26\t6\n", "val\t26\t0\n"),
        ("val\t26\t6\n", "val\t0\t6\n"),
        ("val\t26\t6\n", "val\t26\n"),
        ("val\t26\t6\n", "val\t26\t6\t6\n"),
        ("val\t1\t8\t129\n", "val\t2\t8\t129\n"),
        ("val\t1\t8\t129\n", "val\t0\t8\t129\n"),
        ("val\t1\t8\t129\n", "val\t1\t8\n"),
        ("val\t1\t8\t129\n", "val\n"),
        ("val\t1\t8\t129\n", "val\t18446744073709551615\t8\t129\n"),
        ("new\t20,2,14,11\t4\n", "new\t20,3,14,11\t4\n"),
        ("new\t20,3,14,32,11\t4\n", "new\t20,3,14,36,11\t4\n"),
    ];
    for (from, to) in wrong {
        assert!(LISTING.contains(from), "{from:?}");
        let answer = build(&LISTING.replacen(from, to, 1));
        assert_eq!(answer, Err(Refusal::Listing), "{to:?} for {from:?}");
    }
}

/// The drive of slot 2A goes to slot 2C, behind port 130.
#[test]
fn moved_by_hand() {
    let text = LISTING
        .replace(
            "val\t26\t6\nval\t26\t5\nval\t0\t0\n",
            "val\t0\t0\nval\t26\t5\nval\t26\t6\n",
        )
        .replace(
            "val\t1\t8\t129\nval\t0\n",
            "val\t1\t8\t129\nval\t1\t7\t130\n",
        );
    let file = build(&text).unwrap();
    assert_eq!(file.len(), SLOTS.len() + 3);
    assert_eq!(listing(&file), Ok(text));
}

/// A copy that lost its end is refused, or it is the ledger of some weeks ago.
#[test]
fn cut_short() {
    let mut weeks = 0;
    for length in 1..SLOTS.len() {
        let part = &SLOTS[..length];
        match check(part) {
            Ok(()) => {
                assert!(LISTING.starts_with(&listing(part).unwrap()));
                weeks += 1;
            }
            Err(refusal) => assert_eq!(refusal, Refusal::Short),
        }
    }
    assert_eq!(weeks, 2);
}
