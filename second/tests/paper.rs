//! The paper's own examples.

mod common;

use common::{build, bytes, check, count_values, listing, number, objects, values_of};
use second::generate::spelling::padded;
use second::generate::LISTING_E;
use second::v64::{self, Cut};

/// The paper's table of codings, with the numbers as unsigned ones.
fn codings() -> Vec<(u64, Vec<u8>)> {
    vec![
        (0, bytes("00")),
        (127, bytes("7F")),
        (128, bytes("80 01")),
        (255, bytes("FF 01")),
        (256, bytes("80 02")),
        (16_383, bytes("FF 7F")),
        (16_384, bytes("80 80 01")),
        ((1 << 56) - 1, bytes("FF*7 7F")),
        (1 << 56, bytes("80*8 01")),
        (i64::MIN as u64, bytes("80*9")),
        (u64::MAX, bytes("FF*9")),
    ]
}

#[test]
fn the_eleven_codings_both_ways() {
    for (value, coded) in codings() {
        assert_eq!(v64::read(&coded, 0), Ok((value, coded.len())));
        assert_eq!(v64::coded(value), coded);
    }
}

#[test]
fn the_two_padded_codings_are_read_as_0() {
    assert_eq!(v64::read(&bytes("80 00"), 0), Ok((0, 2)));
    assert_eq!(v64::read(&bytes("80*8 00"), 0), Ok((0, 9)));
    assert_eq!(v64::read(&bytes("80*8"), 0), Err(Cut));
}

/// Every number has a coding of each length from its shortest to nine bytes,
/// and no byte behind the ninth is one of it.
#[test]
fn every_length_of_a_number_is_read() {
    for (value, coded) in codings() {
        for padding in 0..=8 {
            let mut longer = padded(value, padding);
            let length = longer.len();
            assert_eq!(length, (coded.len() + padding).min(9));
            assert_eq!(v64::read(&longer, 0), Ok((value, length)));
            for cut in 0..length {
                assert_eq!(v64::read(&longer[..cut], 0), Err(Cut));
            }
            longer.push(0x01);
            assert_eq!(v64::read(&longer, 0), Ok((value, length)));
        }
    }
}

#[test]
fn every_length_of_a_coding_comes_back() {
    for bit in 0..64 {
        for value in [1u64 << bit, (1u64 << bit) - 1, !0 << bit, !(1u64 << bit)] {
            let coded = v64::coded(value);
            assert_eq!(v64::read(&coded, 0), Ok((value, coded.len())));
            for cut in 0..coded.len() {
                assert_eq!(v64::read(&coded[..cut], 0), Err(Cut));
            }
        }
    }
}

#[test]
fn i8_takes_the_sign_from_its_top_bit() {
    let file = bytes("P 01 01 00 02 00 01 00 07 01 02 7F 80");
    assert_eq!(values_of(&file, b"a", b"a", 7), Ok(vec![127, -128]));
}

#[test]
fn files_d_and_e() {
    let (d, e) = (bytes("D"), bytes("E"));
    assert_eq!(d.len(), 29);
    assert_eq!(e.len(), 37);
    assert_eq!(check(&d), Ok(()));
    assert_eq!(check(&e), Ok(()));
    assert_eq!(objects(&d, b"date"), Ok(2));
    assert_eq!(objects(&e, b"date"), Ok(3));
    assert_eq!(values_of(&d, b"date", b"date", 11), Ok(vec![1, -1]));
    assert_eq!(values_of(&e, b"date", b"date", 11), Ok(vec![1, -1, 256]));
}

#[test]
fn the_listing_of_e() {
    let shown = "pair 1 1
str 64617465
type 1 0 - 2 1
new 11 1
val 1
val -1
pair 0 1
type 1 - - 1 1
old
val 256
";
    let text = shown.replace(' ', "\t");
    assert_eq!(text, LISTING_E);
    assert_eq!(listing(&bytes("E")), Ok(text.clone().into_bytes()));
    assert_eq!(build(text.as_bytes()), Ok(bytes("E")));
}

#[test]
fn the_four_damaged_last_pairs_of_e() {
    assert_eq!(number(&bytes("D 00 01 01 01 01 01 80 02")), 12);
    assert_eq!(number(&bytes("D 00 01 01 01 01 03 80 02")), 1);
    assert_eq!(number(&bytes("D 00 01 01 02 01 02 80 02")), 12);
    assert_eq!(number(&bytes("D 00 01 01 01 00 02 80 02")), 11);
}

#[test]
fn the_empty_file() {
    assert_eq!(check(b""), Ok(()));
    assert_eq!(listing(b""), Ok(Vec::new()));
    assert_eq!(build(b""), Ok(Vec::new()));
    assert_eq!(objects(b"", b""), Err(16));
}

#[test]
fn kinds_of_several_numbers_are_joined_by_commas() {
    let text = "pair\t1\t1\nstr\t61\ntype\t1\t0\t-\t1\t1\nnew\t15,3,8\t1\nval\t1\t-1\t256\n";
    let file = bytes("01 00000001 61 01 01 00 01 00 01 00 0F 03 08 01 06 0001 FFFF 0100");
    assert_eq!(listing(&file).as_deref(), Ok(text.as_bytes()));
    assert_eq!(build(text.as_bytes()), Ok(file));
    let text = "pair\t1\t1\nstr\t61\ntype\t1\t0\t-\t1\t1\nnew\t4,-1\t1\n";
    let file = bytes("01 00000001 61 01 01 00 01 00 01 00 04 FF*9 01 00");
    assert_eq!(listing(&file).as_deref(), Ok(text.as_bytes()));
    assert_eq!(build(text.as_bytes()), Ok(file));
    // A map leads from strings to maps from v64 to i8: two keys, the first of
    // which leads to one key, the second to none.
    let text = "pair\t1\t1\nstr\t61\ntype\t1\t0\t-\t1\t1\nnew\t20,3,14,11,7\t1\n\
        val\t2\t1\t1\t-1\t5\t0\t0\n";
    let file =
        bytes("01 00000001 61 01 01 00 01 00 01 00 14 03 0E 0B 07 01 0F 02 01 01 FF*9 05 00 00");
    assert_eq!(listing(&file).as_deref(), Ok(text.as_bytes()));
    assert_eq!(build(text.as_bytes()), Ok(file));
}

#[test]
fn columns_of_every_kind() {
    let one = |kind: &str, asked: u64, end: &str, values: &str| {
        let file = bytes(&format!("P 01 01 00 02 00 01 00 {kind} 02 {end} {values}"));
        assert_eq!(objects(&file, b"a"), Ok(2));
        values_of(&file, b"a", b"b", asked)
    };
    assert_eq!(one("00 80", 0, "00", ""), Ok(vec![-128, -128]));
    assert_eq!(one("01 8000", 1, "00", ""), Ok(vec![-32_768, -32_768]));
    assert_eq!(
        one("02 80000000", 2, "00", ""),
        Ok(vec![-1 << 31, -1 << 31])
    );
    assert_eq!(one("03 80 00*7", 3, "00", ""), Ok(vec![i64::MIN, i64::MIN]));
    assert_eq!(one("04 80 02", 4, "00", ""), Ok(vec![256, 256]));
    assert_eq!(one("06", 6, "02", "FF 00"), Ok(vec![1, 0]));
    assert_eq!(one("07", 7, "02", "FF 01"), Ok(vec![-1, 1]));
    assert_eq!(one("08", 8, "04", "FFFE 0102"), Ok(vec![-2, 258]));
    assert_eq!(
        one("09", 9, "08", "80000000 7FFFFFFF"),
        Ok(vec![-1 << 31, (1 << 31) - 1])
    );
    assert_eq!(
        one("0A", 10, "10", "80 00*7 7F FF*7"),
        Ok(vec![i64::MIN, i64::MAX])
    );
    assert_eq!(one("0B", 11, "0A", "80*9 05"), Ok(vec![i64::MIN, 5]));
    assert_eq!(
        one("0C", 12, "08", "FFFFFFFF 3F800000"),
        Ok(vec![0xFFFF_FFFF, 0x3F80_0000])
    );
    assert_eq!(
        one("0D", 13, "10", "FF*8 3FF0 00*6"),
        Ok(vec![-1, 0x3FF0 << 48])
    );
    assert_eq!(one("0E", 14, "02", "05 00"), Ok(vec![5, 0]));
    assert_eq!(one("20", 32, "02", "02 00"), Ok(vec![2, 0]));
}

#[test]
fn other_kinds_are_refused() {
    let constant = bytes("P 01 01 00 01 00 01 00 04 05 02 00");
    let array = bytes("P 01 01 00 01 00 01 00 11 0B 02 01 00");
    let fixed = bytes("P 01 01 00 01 00 01 00 0F 01 0B 02 01 00");
    let annotation = bytes("P 01 01 00 01 00 01 00 05 02 02 01 01");
    let map = bytes("P 01 01 00 01 00 01 00 14 02 0B 0B 02 01 00");
    let reference = bytes("P 02 01 00 01 00 00 02 00 01 00 01 00 21 02 01 00");
    assert_eq!(values_of(&constant, b"a", b"b", 11), Err(18));
    for kind in (0..64).chain([65_535, 1 << 32, u64::MAX]) {
        let asked = values_of(&constant, b"a", b"b", kind);
        assert_eq!(asked.is_ok(), kind == 4, "{kind}");
        assert_eq!(values_of(&array, b"a", b"b", kind), Err(18));
        assert_eq!(values_of(&fixed, b"a", b"b", kind), Err(18));
        assert_eq!(values_of(&annotation, b"a", b"b", kind), Err(18));
        assert_eq!(values_of(&map, b"a", b"b", kind), Err(18));
        let asked = values_of(&reference, b"b", b"b", kind);
        assert_eq!(asked.is_ok(), kind == 32, "{kind}");
    }
}

#[test]
fn sixteen_to_eighteen_in_their_order() {
    let e = bytes("E");
    assert_eq!(values_of(&e, b"datum", b"x", 99), Err(16));
    assert_eq!(values_of(&e, b"date", b"x", 99), Err(17));
    assert_eq!(values_of(&e, b"date", b"date", 99), Err(18));
    for kind in [5, 20] {
        assert_eq!(values_of(&e, b"datum", b"x", kind), Err(16));
        assert_eq!(values_of(&e, b"date", b"x", kind), Err(17));
        assert_eq!(values_of(&e, b"date", b"date", kind), Err(18));
    }
    assert_eq!(values_of(&e[..36], b"datum", b"x", 99), Err(1));
    assert_eq!(objects(&e[..36], b"datum"), Err(1));
    // A string of that name is not a type of that name.
    assert_eq!(objects(&bytes("P 01 01 00 01 00 00"), b"b"), Err(16));
    // A super type's field is not the type's own.
    let tree = bytes("P 02 01 00 01 00 01 00 0B 03 01 02 01 00 01 00 00 05");
    assert_eq!(values_of(&tree, b"a", b"c", 11), Ok(vec![5]));
    assert_eq!(values_of(&tree, b"b", b"c", 11), Err(17));
}

/// How many values there are: one for each object of the field's own type, and
/// a constant has as many.
#[test]
fn values_are_counted_by_objects() {
    assert_eq!(count_values(&bytes("D"), b"date", b"date", 11), Ok(2));
    assert_eq!(count_values(&bytes("E"), b"date", b"date", 11), Ok(3));
    // A type of three objects, and one of them below it.
    let entries = "01 00 03 00 01 00 0B 03 03 02 01 01 01 00 02 00 07 02 04 00 00 FF 03 04";
    let tree = bytes(&format!("P 02 {entries} 05 06 07 08"));
    assert_eq!(count_values(&tree, b"a", b"c", 11), Ok(3));
    assert_eq!(count_values(&tree, b"b", b"b", 7), Ok(1));
    assert_eq!(count_values(&tree, b"b", b"c", 0), Ok(1));
    assert_eq!(count_values(&tree, b"b", b"c", 11), Err(18));
    assert_eq!(count_values(&tree, b"a", b"b", 7), Err(17));
    let none = bytes("P 01 01 00 00 00 02 00 0B 01 00 00 00 FF 02 00");
    assert_eq!(count_values(&none, b"a", b"a", 11), Ok(0));
    assert_eq!(count_values(&none, b"a", b"b", 0), Ok(0));
    let many = bytes("P 01 01 00 FFFF03 00 01 00 00 FF 01 00");
    assert_eq!(count_values(&many, b"a", b"a", 0), Ok(65_535));
}

#[test]
fn late_fields_cover_all_objects_so_far() {
    let file = bytes("D 01 00000001 78 01 01 01 02 01 00 07 02 04 09 050607");
    assert_eq!(values_of(&file, b"date", b"date", 11), Ok(vec![1, -1, 9]));
    assert_eq!(values_of(&file, b"date", b"x", 7), Ok(vec![5, 6, 7]));
}
