//! Annotations and maps: what they lead to, how they are listed and built.

mod common;

use common::{build, bytes, listing, number};

/// A file of type a with two objects, its subtype b with the second of them,
/// and a field of one annotation for each object of a.
fn annotated(values: &str) -> Vec<u8> {
    bytes(&format!(
        "P 02 01 00 02 00 01 00 05 03 04 02 01 01 01 00 00 {values}"
    ))
}

#[test]
fn an_annotation_leads_to_an_object_of_a_base_type() {
    assert_eq!(number(&annotated("01 01 01 02")), 0);
    assert_eq!(number(&annotated("00 00 01 02")), 0);
    assert_eq!(number(&annotated("01 03 00 00")), 14);
    // b is declared, but below a.
    assert_eq!(number(&annotated("02 01 00 00")), 14);
    // c is a string, but no type; there is no sixth string.
    assert_eq!(number(&annotated("03 01 00 00")), 14);
    assert_eq!(number(&annotated("06 01 00 00")), 14);
}

#[test]
fn half_of_null_is_nothing() {
    for half in ["00 01", "00 02", "01 00", "02 00", "03 00", "06 00"] {
        assert_eq!(number(&annotated(&format!("{half} 00 00"))), 14, "{half}");
    }
    let large = bytes("P 01 01 00 01 00 01 00 05 02 0A 00 FF*9");
    assert_eq!(number(&large), 14);
    let large = bytes("P 01 01 00 01 00 01 00 05 02 0A FF*9 00");
    assert_eq!(number(&large), 14);
}

/// Strings 1 and 2 have the same bytes. The type is declared by the second.
#[test]
fn any_string_of_the_same_bytes_will_do() {
    let twice = "03 00000001 00000002 00000003 616178";
    let file = |name: &str| bytes(&format!("{twice} 01 02 00 01 00 01 00 05 03 02 {name} 01"));
    assert_eq!(number(&file("01")), 0);
    assert_eq!(number(&file("02")), 0);
    assert_eq!(number(&file("03")), 14);
}

#[test]
fn later_entries_of_the_block_count_and_later_pairs_do_not() {
    let forward = "P 02 01 00 01 00 01 00 05 03 02 02 00 01 00 00 02 01";
    assert_eq!(number(&bytes(forward)), 0);
    // The second object of b comes with the second pair, and so does type c.
    let first = |value: &str| format!("P 02 01 00 01 00 01 00 05 03 02 02 00 01 00 00 {value}");
    let second = "00 02 02 01 00 03 00 01 00 00";
    for (value, answer) in [("02 01", 0), ("02 02", 14), ("03 01", 14)] {
        let file = bytes(&format!("{} {second}", first(value)));
        assert_eq!(number(&file), answer, "{value}");
    }
    // From the second pair on they are there, and the first pair's still are.
    for value in ["02 02", "03 01", "01 02", "02 01", "01 01", "00 00"] {
        let second = format!("00 03 01 01 01 02 02 01 00 03 00 01 00 00 {value}");
        let file = bytes(&format!("{} {second}", first("02 01")));
        assert_eq!(number(&file), 0, "{value}");
    }
}

/// A string of a later pair that names a type of an earlier one.
#[test]
fn strings_reach_as_far_as_this_pair() {
    let first = |value: &str| format!("Q 01 01 00 01 00 01 00 05 02 02 {value}");
    let second = |value: &str| format!("01 00000001 61 01 01 01 01 02 {value}");
    let file = |one: &str, two: &str| bytes(&format!("{} {}", first(one), second(two)));
    assert_eq!(number(&file("01 01", "03 02")), 0);
    assert_eq!(number(&file("03 01", "03 02")), 14);
    assert_eq!(number(&file("01 01", "04 02")), 14);
}

#[test]
fn annotations_are_listed_as_two_fields() {
    let head = "pair\t1\t1\nstr\t61\ntype\t1\t0\t-\t1\t1\nnew\t";
    let file = |kind: &str, end: &str, values: &str| {
        bytes(&format!(
            "01 00000001 61 01 01 00 01 00 01 00 {kind} 01 {end} {values}"
        ))
    };
    let rows = [
        (file("05", "02", "01 01"), "5\t1\nval\t1\t1\n"),
        (file("05", "02", "00 00"), "5\t1\nval\t0\t0\n"),
        (
            file("0F 02 05", "04", "01 01 00 00"),
            "15,2,5\t1\nval\t1\t1\t0\t0\n",
        ),
        (file("11 05", "01", "00"), "17,5\t1\nval\n"),
        (
            file("13 05", "05", "02 01 01 01 01"),
            "19,5\t1\nval\t1\t1\t1\t1\n",
        ),
        (
            file("14 02 05 06", "04", "01 00 00 FF"),
            "20,2,5,6\t1\nval\t1\t0\t0\t1\n",
        ),
        (file("14 02 0B 05", "01", "00"), "20,2,11,5\t1\nval\t0\n"),
        (
            file("14 03 06 20 05", "08", "02 00 00 FF 01 01 01 01"),
            "20,3,6,32,5\t1\nval\t2\t0\t0\t1\t1\t1\t1\t1\n",
        ),
    ];
    for (file, behind) in rows {
        let text = format!("{head}{behind}");
        assert_eq!(listing(&file).as_deref(), Ok(text.as_bytes()), "{behind:?}");
        assert_eq!(build(text.as_bytes()), Ok(file), "{behind:?}");
    }
}

#[test]
fn what_no_file_lists_is_not_built() {
    let head = "pair\t1\t1\nstr\t61\ntype\t1\t0\t-\t1\t1\nnew\t";
    let wrong = [
        // Annotations: an odd number of fields, half of null, no such object.
        "5\t1\nval\t1\n",
        "5\t1\nval\n",
        "5\t1\nval\t1\t1\t1\n",
        "5\t1\nval\t0\t1\n",
        "5\t1\nval\t1\t0\n",
        "5\t1\nval\t1\t2\n",
        "5\t1\nval\t1\t-1\n",
        "5\t1\nval\t1\t18446744073709551617\n",
        "17,5\t1\nval\t1\t1\t1\n",
        "15,2,5\t1\nval\t1\t1\n",
        "15,2,5\t1\nval\t1\t1\t1\n",
        // Kinds.
        "20\t1\nval\t0\n",
        "20,2\t1\nval\t0\n",
        "20,2,11\t1\nval\t0\n",
        "20,2,11,11,11\t1\nval\t0\n",
        "20,0\t1\nval\t0\n",
        "20,1,11\t1\nval\t0\n",
        "20,9,11,11,11,11,11,11,11,11,11\t1\nval\t0\n",
        "20,02,11,11\t1\nval\t0\n",
        "20,2,11,20\t1\nval\t0\n",
        "20,2,17,11\t1\nval\t0\n",
        "17,20\t1\nval\n",
        "20,2,11,33\t1\nval\t0\n",
        // Maps: no size, keys and values that are not there or too many.
        "20,2,11,11\t1\nval\n",
        "20,2,11,11\t1\nval\t\n",
        "20,2,11,11\t1\nval\t0\t0\n",
        "20,2,11,11\t1\nval\t1\n",
        "20,2,11,11\t1\nval\t1\t5\n",
        "20,2,11,11\t1\nval\t1\t5\t6\t7\n",
        "20,2,11,11\t1\nval\t01\t5\t6\n",
        "20,2,11,11\t1\nval\t-1\n",
        "20,2,11,11\t1\nval\t65536\n",
        "20,2,11,11\t1\nval\t18446744073709551615\t5\t6\n",
        "20,2,11,11\t1\nval\t18446744073709551616\t5\t6\n",
        "20,3,11,11,11\t1\nval\t1\t5\t18446744073709551615\t5\t6\n",
        "20,3,11,11,11\t1\nval\t1\t5\n",
    ];
    for behind in wrong {
        let text = format!("{head}{behind}");
        assert_eq!(build(text.as_bytes()), Err(20), "{behind:?}");
    }
}

/// Order, repeats and nulls of keys are not looked at.
#[test]
fn keys_may_be_anything() {
    let file = bytes("P 01 01 00 01 00 01 00 14 02 0E 0B 02 09 04 05 01 00 02 05 03 00 04");
    assert_eq!(number(&file), 0);
}

/// The bound of a size is that of a length, and sizes are not added up.
#[test]
fn sizes_up_to_their_bound() {
    let head = "P 01 01 00 01 00 01 00 14";
    let map = |size: &str, keys: usize| {
        let end = second::v64::coded(3 + 2 * keys as u64);
        let end: String = end.iter().map(|byte| format!("{byte:02X}")).collect();
        bytes(&format!("{head} 02 07 07 02 {end} {size} 0909*{keys}"))
    };
    assert_eq!(number(&map("FFFF03", 65_535)), 0);
    assert_eq!(number(&map("808004", 65_536)), 3);
    assert_eq!(number(&map("FFFF03", 65_534)), 12);
    // Two inner maps have more keys together than one may have.
    let keys = 40_000;
    let inner = format!("00 C0B802 0909*{keys}");
    let end = second::v64::coded(1 + 2 * (4 + 2 * keys));
    let end: String = end.iter().map(|byte| format!("{byte:02X}")).collect();
    let file = bytes(&format!("{head} 03 07 07 07 02 {end} 02 {inner} {inner}"));
    assert_eq!(number(&file), 0);
    let text = listing(&file).expect("a listing");
    assert_eq!(build(&text), Ok(file));
}

#[test]
fn eight_types_deep() {
    let kind = "14 08 0E 0B 06 07 08 20 05 0C";
    let value = "01 05 01 FF*9 01 00 01 80 01 0001 01 01 01 01 01 3F800000";
    let file = |end: &str| bytes(&format!("P 01 01 00 01 00 01 00 {kind} 02 {end} {value}"));
    assert_eq!(number(&file("1C")), 0);
    assert_eq!(number(&file("1B")), 12);
    let text = listing(&file("1C")).expect("a listing");
    let printed = "\nnew\t20,8,14,11,6,7,8,32,5,12\t2\n\
        val\t1\t5\t1\t-1\t1\t0\t1\t-128\t1\t1\t1\t1\t1\t1\t1\t3f800000\n";
    assert!(text.ends_with(printed.as_bytes()));
    assert_eq!(build(&text), Ok(file("1C")));
}
