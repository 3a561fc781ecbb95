//! The ledgers of the folder `examples`: they are those that are made here, and
//! they hold what their page tells of them.

mod common;

use common::{build, check, listing, objects, values_of};
use second::{reader, v64};

const WEAR: &[u8] = include_bytes!("../../examples/wear.skill");
const WEAR_LISTING: &[u8] = include_bytes!("../../examples/wear.listing");
const SLOTS: &[u8] = include_bytes!("../../examples/slots.skill");
const SLOTS_LISTING: &[u8] = include_bytes!("../../examples/slots.listing");
const NINE: &[u8] = include_bytes!("../../examples/nine.skill");
const NINE_LISTING: &[u8] = include_bytes!("../../examples/nine.listing");
const NINE_SHORT: &[u8] = include_bytes!("../../examples/nine.short.skill");

fn drives(field: &[u8], kind: u64) -> Vec<i64> {
    values_of(WEAR, b"drive", field, kind).unwrap()
}

#[test]
fn the_files_are_those_made_here() {
    assert_eq!(second::examples::wear(), WEAR);
    assert_eq!(second::examples::slots(), SLOTS);
    assert_eq!(second::examples::nine(), NINE);
    assert_eq!(second::examples::nine_short(), NINE_SHORT);
}

#[test]
fn listings_and_files_belong_together() {
    let all = [
        (WEAR, WEAR_LISTING),
        (SLOTS, SLOTS_LISTING),
        (NINE_SHORT, NINE_LISTING),
    ];
    for (file, text) in all {
        assert_eq!(listing(file).as_deref(), Ok(text));
        assert_eq!(build(text).as_deref(), Ok(file));
    }
}

/// The listing of the padded file is that of the short one, so the file that
/// is built from it is the short one.
#[test]
fn nine_bytes_for_each_number() {
    assert_eq!(listing(NINE).as_deref(), Ok(NINE_LISTING));
    assert_eq!((NINE.len(), NINE_SHORT.len()), (943, 302));
    for file in [NINE, NINE_SHORT] {
        assert_eq!(check(file), Ok(()));
        assert_eq!(objects(file, b"drive"), Ok(10));
        assert_eq!(objects(file, b"spare"), Ok(2));
        let wear = values_of(file, b"drive", b"wear", 11);
        let expected = vec![127, 256, 402, 311, 128, 0, 300, 255, 129, 1];
        assert_eq!(wear, Ok(expected));
        let shelf = values_of(file, b"drive", b"shelf", 7);
        assert_eq!(shelf, Ok(vec![5, 5, 5, 5, 5, 5, 6, 6, 6, 6]));
    }
    // No number of the padded file has fewer than nine bytes: its columns of
    // numbers stand nine bytes apart.
    let ledger = reader::read(NINE).unwrap();
    let drive = ledger.find_type(b"drive").unwrap();
    for name in [&b"serial"[..], b"wear"] {
        let field = ledger.find_field(drive, name).unwrap();
        let chunks = ledger.chunks.iter().filter(|chunk| chunk.field == field);
        for chunk in chunks {
            assert_eq!(ledger.part(chunk).len() as u64, 9 * chunk.values);
        }
    }
    // The first wear of 256: its two bytes, then padding.
    let wear = common::bytes("80 82 80*6 00");
    assert_eq!(NINE.windows(9).filter(|nine| **nine == wear).count(), 1);
}

#[test]
fn forty_drives_and_four_spares() {
    assert_eq!(check(WEAR), Ok(()));
    assert_eq!(objects(WEAR, b"drive"), Ok(40));
    assert_eq!(objects(WEAR, b"spare"), Ok(4));
}

#[test]
fn wear_at_full_width() {
    let wear = drives(b"wear", 11);
    let times = |value| wear.iter().filter(|&&wear| wear == value).count();
    assert_eq!((times(256), times(311), times(402)), (3, 2, 2));
    assert_eq!((times(299), times(300), times(301)), (1, 1, 1));
    assert_eq!(wear.iter().filter(|&&wear| wear >= 300).count(), 6);
}

/// The hours come in week 9, and the drives of the weeks before have theirs.
#[test]
fn hours_of_the_first_drive_and_of_the_last() {
    let hours = drives(b"hours", 9);
    assert_eq!((hours[0], hours[39]), (9_120, 140));
}

/// Every drive has a serial number, and no two have the same.
#[test]
fn serial_numbers_differ() {
    let mut serials = drives(b"serial", 14);
    serials.sort_unstable();
    serials.dedup();
    assert_eq!(serials.len(), 40);
    assert!(!serials.contains(&0));
}

#[test]
fn shelves_one_to_four() {
    let shelves = drives(b"shelf", 7);
    assert!(shelves.iter().all(|shelf| (1..=4).contains(shelf)));
}

#[test]
fn ten_slots_and_what_there_is_to_put_in_them() {
    assert_eq!(check(SLOTS), Ok(()));
    let all = [
        ("slot", 10),
        ("drive", 6),
        ("spare", 1),
        ("blank", 2),
        ("tier", 4),
    ];
    for (name, count) in all {
        assert_eq!(objects(SLOTS, name.as_bytes()), Ok(count), "{name}");
    }
    let wear = values_of(SLOTS, b"drive", b"wear", 11);
    assert_eq!(wear, Ok(vec![118, 127, 255, 402, 93, 0]));
}

/// The numbers in all chunks of a field.
fn numbers(type_name: &[u8], field_name: &[u8]) -> Vec<u64> {
    let ledger = reader::read(SLOTS).unwrap();
    let owner = ledger.find_type(type_name).unwrap();
    let field = ledger.find_field(owner, field_name).unwrap();
    let chunks = ledger.chunks.iter().filter(|chunk| chunk.field == field);
    let bytes: Vec<u8> = chunks
        .flat_map(|chunk| ledger.part(chunk))
        .copied()
        .collect();
    let mut all = Vec::new();
    let mut at = 0;
    while let Ok((number, next)) = v64::read(&bytes, at) {
        all.push(number);
        at = next;
    }
    all
}

/// A string of the file; 0 is none.
fn string(number: u64) -> String {
    let ledger = reader::read(SLOTS).unwrap();
    match number {
        0 => String::new(),
        _ => String::from_utf8(ledger.names.bytes(number as u32).to_vec()).unwrap(),
    }
}

#[test]
fn what_sits_in_each_slot() {
    let labels = values_of(SLOTS, b"slot", b"label", 14).unwrap();
    let holds = numbers(b"slot", b"holds");
    let table: Vec<String> = labels
        .iter()
        .zip(holds.chunks(2))
        .map(|(&label, held)| format!("{} {} {}", string(label as u64), string(held[0]), held[1]))
        .collect();
    let expected = [
        "1A drive 1",
        "1B drive 2",
        "1C blank 1",
        "1D  0",
        "1E drive 3",
        "1F drive 4",
        "1G blank 2",
        "2A drive 6",
        "2B drive 5",
        "2C  0",
    ];
    assert_eq!(table, expected);
    // The name stands in the file twice, and both strings are used.
    let mut names: Vec<u64> = holds.iter().copied().step_by(2).collect();
    names.sort_unstable();
    names.dedup();
    assert_eq!(names.len(), 4);
}

/// Of slots: how many controllers, and for each its name and port. Of tiers:
/// the same with a map from slots to ports in the port's place.
#[test]
fn ports_of_slots_and_tiers() {
    let [north, south] = ["north", "south"].map(|name| {
        let found = (1..).find(|&number| string(number) == name);
        found.unwrap()
    });
    let of_slots = [
        &[2, north, 1, south, 1][..],
        &[2, north, 2, south, 2],
        &[0],
        &[1, north, 4],
        &[2, north, 5, south, 5],
        &[1, north, 6],
        &[0],
        &[2, north, 127, south, 128],
        &[1, south, 129],
        &[0],
    ];
    assert_eq!(numbers(b"slot", b"ports"), of_slots.concat());
    let of_tiers = [
        &[2, north, 2, 1, 1, 2, 2, south, 3, 1, 1, 2, 2, 5, 5][..],
        &[2, north, 2, 6, 6, 8, 127, south, 2, 8, 128, 9, 129],
        &[2, north, 0, south, 0],
        &[0],
    ];
    assert_eq!(numbers(b"tier", b"ports"), of_tiers.concat());
}

#[test]
fn no_columns_of_annotations_and_maps() {
    for (owner, field) in [("slot", "holds"), ("slot", "ports"), ("tier", "ports")] {
        for kind in 0..64 {
            let asked = values_of(SLOTS, owner.as_bytes(), field.as_bytes(), kind);
            assert_eq!(asked, Err(18), "{owner} {field} {kind}");
        }
    }
}

/// Slot 2A holds the spare. It is named as a drive; by `spare` it cannot be.
#[test]
fn a_spare_is_held_as_a_drive() {
    let text = String::from_utf8(SLOTS_LISTING.to_vec()).unwrap();
    let ledger = reader::read(SLOTS).unwrap();
    let number_of = |name: &str| {
        let numbers = 1..=ledger.names.len() as u32;
        let mut all = numbers.filter(|&number| ledger.names.bytes(number) == name.as_bytes());
        all.next_back().unwrap()
    };
    let (drive, spare) = (number_of("drive"), number_of("spare"));
    let line = format!("\nval\t{drive}\t6\n");
    assert_eq!(text.matches(&line).count(), 1);
    for wrong in [
        format!("\nval\t{spare}\t6\n"),
        format!("\nval\t{spare}\t1\n"),
        format!("\nval\t{drive}\t7\n"),
        format!("\nval\t{drive}\t0\n"),
        "\nval\t0\t6\n".to_string(),
    ] {
        let text = text.replace(&line, &wrong);
        assert_eq!(build(text.as_bytes()), Err(20), "{wrong:?}");
    }
    let text = text.replace(&line, "\nval\t0\t0\n");
    assert!(build(text.as_bytes()).is_ok());
}
