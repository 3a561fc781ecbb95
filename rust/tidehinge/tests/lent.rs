//! What lent memory holds afterwards.

mod common;

use common::{e, e_with, table, END, LISTING};
use tidehinge::{Refusal, WORK};

/// Any call, over a table.
type Call<'a> = &'a dyn Fn(&mut [u32]) -> Result<usize, Refusal>;

/// Numbers none of which is 0, and no two of which are equal.
fn filled(length: usize) -> Vec<u32> {
    (1..=length as u32)
        .map(|n| n.wrapping_mul(0x9E37_79B1))
        .collect()
}

/// A long enough table is cleared in front and left alone behind; a shorter
/// one gives 15 and is left alone.
fn assert_tables(call: Call<'_>, expected: Result<usize, Refusal>) {
    for length in [0, 1, WORK - 1] {
        let mut work = filled(length);
        assert_eq!(call(&mut work), Err(Refusal::Table), "{length}");
        assert_eq!(work, filled(length));
    }
    for length in [WORK, WORK + 1, WORK + 5_000] {
        let mut work = filled(length);
        assert_eq!(call(&mut work), expected, "{length}");
        assert!(work[..WORK].iter().all(|&number| number == 0));
        assert_eq!(work[WORK..], filled(length)[WORK..]);
    }
}

fn count_of(file: &[u8], kind: u64, work: &mut [u32]) -> Result<usize, Refusal> {
    tidehinge::count_values(file, b"date", b"date", kind, work)
}

fn fill_of(file: &[u8], kind: u64, work: &mut [u32], out: &mut [i64]) -> Result<usize, Refusal> {
    tidehinge::fill_values(file, b"date", b"date", kind, work, out)
}

fn listing_of(file: &[u8], work: &mut [u32]) -> Result<usize, Refusal> {
    tidehinge::listing(file, work, &mut [0; 400])
}

fn build_of(text: &str, work: &mut [u32], room: usize) -> Result<usize, Refusal> {
    tidehinge::build(text.as_bytes(), work, &mut vec![0; room])
}

#[test]
fn tables_after_an_answer() {
    let file = e();
    assert_tables(&|work| tidehinge::check(&file, work).map(|()| 0), Ok(0));
    assert_tables(&|work| tidehinge::objects(&file, b"date", work), Ok(3));
    assert_tables(&|work| count_of(&file, 11, work), Ok(3));
    assert_tables(&|work| fill_of(&file, 11, work, &mut [0; 9]), Ok(3));
    assert_tables(&|work| listing_of(&file, work), Ok(LISTING.len()));
    assert_tables(&|work| build_of(LISTING, work, 400), Ok(file.len()));
}

#[test]
fn tables_after_a_fault_of_the_file() {
    let file = e_with(END, 1);
    let refused = Err(Refusal::Chunk);
    assert_tables(&|work| tidehinge::check(&file, work).map(|()| 0), refused);
    assert_tables(&|work| tidehinge::objects(&file, b"date", work), refused);
    assert_tables(&|work| count_of(&file, 11, work), refused);
    assert_tables(&|work| fill_of(&file, 11, work, &mut [0; 9]), refused);
    assert_tables(&|work| listing_of(&file, work), refused);
}

#[test]
fn tables_after_a_file_that_is_too_long() {
    let file = vec![0; tidehinge::FILE + 1];
    let refused = Err(Refusal::Limit);
    assert_tables(&|work| tidehinge::check(&file, work).map(|()| 0), refused);
    assert_tables(&|work| tidehinge::objects(&file, b"date", work), refused);
    assert_tables(&|work| count_of(&file, 11, work), refused);
    assert_tables(&|work| fill_of(&file, 11, work, &mut [0; 9]), refused);
    assert_tables(&|work| listing_of(&file, work), refused);
}

#[test]
fn tables_after_a_question_without_an_answer() {
    let file = e();
    let no_type = Err(Refusal::NoType);
    assert_tables(&|work| tidehinge::objects(&file, b"day", work), no_type);
    let of_no_type = |work: &mut [u32]| tidehinge::count_values(&file, b"day", b"date", 11, work);
    assert_tables(&of_no_type, no_type);
    let of_no_field = |work: &mut [u32]| tidehinge::count_values(&file, b"date", b"day", 11, work);
    assert_tables(&of_no_field, Err(Refusal::NoField));
    let other_kind = Err(Refusal::OtherKind);
    assert_tables(&|work| count_of(&file, 10, work), other_kind);
    assert_tables(&|work| fill_of(&file, 10, work, &mut [0; 9]), other_kind);
    let room = Err(Refusal::Room);
    assert_tables(&|work| fill_of(&file, 11, work, &mut [0; 2]), room);
    let listing = |work: &mut [u32]| tidehinge::listing(&file, work, &mut [0; 94]);
    assert_tables(&listing, room);
    assert_tables(&|work| build_of(LISTING, work, 36), room);
}

/// Also where there is no room at all: the text is judged first.
#[test]
fn tables_after_a_text_that_is_no_listing() {
    let refused = Err(Refusal::Listing);
    for text in ["\n", &LISTING[1..], &LISTING.replace("256", "0256")] {
        assert_tables(&|work| build_of(text, work, 400), refused);
        assert_tables(&|work| build_of(text, work, 0), refused);
    }
}

#[test]
fn rooms() {
    for length in [0, 1, 2] {
        let mut out = vec![-5; length];
        let answer = fill_of(&e(), 11, &mut table(), &mut out);
        assert_eq!(answer, Err(Refusal::Room), "{length}");
        assert_eq!(out, vec![-5; length]);
    }
    for length in [3, 4, 900] {
        let mut out = vec![-5; length];
        let answer = fill_of(&e(), 11, &mut table(), &mut out);
        assert_eq!(answer, Ok(3), "{length}");
        assert_eq!(out[..3], [1, -1, 256]);
        assert!(out[3..].iter().all(|&number| number == -5));
    }
}

fn assert_output_left(file: &[u8], names: [&str; 2], kind: u64, refusal: Refusal) {
    let [type_name, field] = names.map(str::as_bytes);
    let mut out = [-5; 9];
    let answer = tidehinge::fill_values(file, type_name, field, kind, &mut table(), &mut out);
    assert_eq!(answer, Err(refusal));
    assert_eq!(out, [-5; 9]);
}

/// Of another type or field, of another kind, or of a damaged file nothing is
/// written, also where the fault stands behind good values.
#[test]
fn a_refusal_leaves_the_output() {
    let good = e();
    assert_output_left(&good, ["day", "date"], 11, Refusal::NoType);
    assert_output_left(&good, ["date", "day"], 11, Refusal::NoField);
    assert_output_left(&good, ["date", "date"], 10, Refusal::OtherKind);
    assert_output_left(&good[..36], ["date", "date"], 11, Refusal::Short);
    assert_output_left(&e_with(END, 1), ["date", "date"], 11, Refusal::Chunk);
    let mut out = [-5; 9];
    let answer = fill_of(&good, 11, &mut [1; WORK - 1], &mut out);
    assert_eq!(answer, Err(Refusal::Table));
    assert_eq!(out, [-5; 9]);
}

/// The file and the names are only read, whatever is answered.
#[test]
fn what_is_read_is_left() {
    let good = e();
    for (file, name, kind, expected) in [
        (&good[..], "date", 11, Ok(3)),
        (&good, "date", 10, Err(Refusal::OtherKind)),
        (&good, "day", 11, Err(Refusal::NoType)),
        (&good[..36], "date", 11, Err(Refusal::Short)),
    ] {
        let lent = (file.to_vec(), name.to_string(), name.to_string());
        let (bytes, names) = (&lent.0, [lent.1.as_bytes(), lent.2.as_bytes()]);
        let counted = tidehinge::count_values(bytes, names[0], names[1], kind, &mut table());
        assert_eq!(counted, expected);
        let out = &mut [0; 3];
        let filled = tidehinge::fill_values(bytes, names[0], names[1], kind, &mut table(), out);
        assert_eq!(filled, expected);
        assert_eq!((&bytes[..], names), (file, [name.as_bytes(); 2]));
    }
}

#[test]
fn rooms_of_a_listing() {
    assert_eq!(LISTING.len(), 95);
    for length in 0..95 {
        let mut out = vec![5; length];
        let answer = tidehinge::listing(&e(), &mut table(), &mut out);
        assert_eq!(answer, Err(Refusal::Room), "{length}");
        assert_eq!(out, vec![5; length]);
    }
    for length in [95, 96, 900] {
        let mut out = vec![5; length];
        let answer = tidehinge::listing(&e(), &mut table(), &mut out);
        assert_eq!(answer, Ok(95), "{length}");
        assert_eq!(out[..95], *LISTING.as_bytes());
        assert!(out[95..].iter().all(|&byte| byte == 5));
    }
}

/// The empty file has an empty listing.
#[test]
fn no_room_is_enough_for_no_lines() {
    assert_eq!(tidehinge::listing(&[], &mut table(), &mut []), Ok(0));
    let mut out = [5; 3];
    assert_eq!(tidehinge::listing(&[], &mut table(), &mut out), Ok(0));
    assert_eq!(out, [5; 3]);
}

fn assert_listing_left(file: &[u8], work: &mut [u32], room: usize, refusal: Refusal) {
    let mut out = vec![5; room];
    let answer = tidehinge::listing(file, work, &mut out);
    assert_eq!(answer, Err(refusal), "room {room}");
    assert_eq!(out, vec![5; room]);
}

/// The table comes first, then the file, then the room; nothing is written,
/// also where the fault stands behind good lines.
#[test]
fn a_refusal_leaves_the_listing() {
    let good = e();
    for room in [0, 94, 95, 900] {
        assert_listing_left(&good[..36], &mut table(), room, Refusal::Short);
        assert_listing_left(&e_with(END, 1), &mut table(), room, Refusal::Chunk);
        for file in [&good[..], &good[..36]] {
            assert_listing_left(file, &mut [1; WORK - 1], room, Refusal::Table);
        }
    }
}

#[test]
fn rooms_of_a_built_file() {
    let file = e();
    assert_eq!(file.len(), 37);
    for length in 0..37 {
        let mut out = vec![5; length];
        let answer = tidehinge::build(LISTING.as_bytes(), &mut table(), &mut out);
        assert_eq!(answer, Err(Refusal::Room), "{length}");
        assert_eq!(out, vec![5; length]);
    }
    for length in [37, 38, 900] {
        let mut out = vec![5; length];
        let answer = tidehinge::build(LISTING.as_bytes(), &mut table(), &mut out);
        assert_eq!(answer, Ok(37), "{length}");
        assert_eq!(out[..37], file);
        assert!(out[37..].iter().all(|&byte| byte == 5));
    }
}

/// The empty text is the listing of the empty file.
#[test]
fn no_room_is_enough_for_no_bytes() {
    assert_eq!(tidehinge::build(&[], &mut table(), &mut []), Ok(0));
    let mut out = [5; 3];
    assert_eq!(tidehinge::build(&[], &mut table(), &mut out), Ok(0));
    assert_eq!(out, [5; 3]);
}

fn assert_file_left(text: &str, work: &mut [u32], room: usize, refusal: Refusal) {
    let mut out = vec![5; room];
    let answer = tidehinge::build(text.as_bytes(), work, &mut out);
    assert_eq!(answer, Err(refusal), "room {room}");
    assert_eq!(out, vec![5; room]);
}

/// The table comes first, then the text, then the room; nothing is written,
/// also where the fault stands behind good lines.
#[test]
fn a_refusal_leaves_the_file() {
    let cut = &LISTING[..LISTING.len() - 1];
    let wrong = LISTING.replace("old", "new");
    for room in [0, 36, 37, 900] {
        assert_file_left(cut, &mut table(), room, Refusal::Listing);
        assert_file_left(&wrong, &mut table(), room, Refusal::Listing);
        for text in [LISTING, cut] {
            assert_file_left(text, &mut [1; WORK - 1], room, Refusal::Table);
        }
    }
}

/// One table serves call after call, and calls at the same time do not meet.
#[test]
fn threads_with_tables_of_their_own() {
    let file = e();
    std::thread::scope(|scope| {
        for _ in 0..4 {
            scope.spawn(|| {
                let mut work = table();
                let mut out = [0; 3];
                for _ in 0..50 {
                    assert_eq!(count_of(&file, 11, &mut work), Ok(3));
                    assert_eq!(fill_of(&file, 11, &mut work, &mut out), Ok(3));
                    assert_eq!(out, [1, -1, 256]);
                    assert_eq!(listing_of(&file, &mut work), Ok(95));
                    assert_eq!(build_of(LISTING, &mut work, 37), Ok(37));
                    assert_eq!(
                        tidehinge::check(&file[..30], &mut work),
                        Err(Refusal::Short)
                    );
                }
            });
        }
    });
}
