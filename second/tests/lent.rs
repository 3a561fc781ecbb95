//! What lent memory holds afterwards.

mod common;

use common::bytes;
use second::bounds::TABLE;
use second::generate::random::Random;
use second::generate::{self, LISTING_E};
use second::Refusal;

/// The six calls, each with tables of several lengths and random contents.
type Call<'a> = &'a dyn Fn(&mut [u32]) -> Result<usize, Refusal>;

fn table(random: &mut Random, length: usize) -> Vec<u32> {
    (0..length).map(|_| random.word() as u32 | 1).collect()
}

/// A long enough table is cleared in front and left alone behind; a shorter
/// one gives 15 and is left alone.
fn tables(call: Call<'_>) {
    let mut random = Random::new(3);
    for length in [0, 1, TABLE - 1] {
        let before = table(&mut random, length);
        let mut after = before.clone();
        let refusal = call(&mut after).unwrap_err();
        assert_eq!((refusal.number, refusal.place), (15, 0));
        assert_eq!(after, before);
    }
    for length in [TABLE, TABLE + 1, TABLE + 5_000] {
        let before = table(&mut random, length);
        let mut after = before.clone();
        let answer = call(&mut after);
        assert_ne!(answer.map_err(|refusal| refusal.number), Err(15));
        assert!(after[..TABLE].iter().all(|&number| number == 0));
        assert_eq!(after[TABLE..], before[TABLE..]);
    }
}

#[test]
fn tables_of_every_call() {
    let mut files: Vec<Vec<u8>> = generate::small()
        .into_iter()
        .map(|case| case.bytes)
        .collect();
    files.push(vec![0; second::bounds::FILE + 1]);
    for file in files {
        tables(&|work| second::check(&file, work).map(|()| 0));
        tables(&|work| second::objects(&file, b"date", work));
        tables(&|work| second::count_values(&file, b"date", b"date", 11, work));
        tables(&|work| second::fill_values(&file, b"date", b"date", 11, work, &mut [0; 9]));
        tables(&|work| second::listing(&file, work, &mut [0; 900]));
        tables(&|work| second::listing(&file, work, &mut []));
        tables(&|work| second::build(&file, work, &mut [0; 90]));
    }
    tables(&|work| second::build(LISTING_E.as_bytes(), work, &mut [0; 90]));
    tables(&|work| second::build(LISTING_E.as_bytes(), work, &mut [0; 9]));
}

/// Runs a call with room for exactly `length`, more, less and nothing.
fn rooms<T: Copy + PartialEq + std::fmt::Debug>(
    whole: &[T],
    filler: T,
    call: &dyn Fn(&mut [T]) -> Result<usize, Refusal>,
) {
    for more in [0, 1, 70] {
        let mut out = vec![filler; whole.len() + more];
        assert_eq!(call(&mut out), Ok(whole.len()));
        assert_eq!(&out[..whole.len()], whole);
        assert!(out[whole.len()..].iter().all(|&left| left == filler));
    }
    for short in [whole.len().wrapping_sub(1), whole.len() / 2, 0] {
        if short < whole.len() {
            let mut out = vec![filler; short];
            let refusal = call(&mut out).unwrap_err();
            assert_eq!((refusal.number, refusal.place), (19, 0));
            assert!(out.iter().all(|&left| left == filler));
        }
    }
}

#[test]
fn rooms_of_listing_and_build() {
    for case in generate::small() {
        let file = &case.bytes;
        let Ok(text) = common::listing(file) else {
            continue;
        };
        rooms(&text, 0xA5, &|out| {
            second::listing(file, &mut vec![1; TABLE], out)
        });
        let built = common::build(&text).expect("a listing");
        rooms(&built, 0xA5, &|out| {
            second::build(&text, &mut vec![1; TABLE], out)
        });
    }
}

/// As many as are counted are filled in, in any room that has them.
fn rooms_of_field(file: &[u8], name: &[u8], kind: u64, whole: &[i64]) {
    let counted = common::count_values(file, name, name, kind);
    assert_eq!(counted, Ok(whole.len()));
    rooms(whole, 77, &|out| {
        second::fill_values(file, name, name, kind, &mut vec![1; TABLE], out)
    });
}

#[test]
fn rooms_of_values() {
    rooms_of_field(&bytes("E"), b"date", 11, &[1, -1, 256]);
    // No objects: no room is enough.
    let none = bytes("P 01 01 00 00 00 01 00 0B 01 00");
    rooms_of_field(&none, b"a", 11, &[]);
    let constant = bytes("P 01 01 00 03 00 01 00 00 FF 01 00");
    rooms_of_field(&constant, b"a", 0, &[-1, -1, -1]);
}

#[test]
fn refusals_leave_the_output_alone() {
    let work = || vec![1; TABLE];
    for case in generate::small() {
        if case.expected == Some(0) {
            continue;
        }
        let mut text = [0xA5; 600];
        assert!(second::listing(&case.bytes, &mut work(), &mut text).is_err());
        assert_eq!(text, [0xA5; 600]);
        let mut values = [5; 20];
        let answer = second::fill_values(&case.bytes, b"a", b"a", 11, &mut work(), &mut values);
        let expected = case.expected.expect("small files have an answer");
        assert_eq!(answer.unwrap_err().number, expected, "{}", case.label);
        assert_eq!(values, [5; 20]);
    }
    for case in generate::listings(0, 0) {
        if case.expected == Some(20) {
            // 20 comes before 19: even an empty buffer does not change it.
            for length in [600, 0] {
                let mut out = vec![0xA5; length];
                let answer = second::build(&case.bytes, &mut work(), &mut out);
                assert_eq!(answer.unwrap_err().number, 20, "{}", case.label);
                assert!(out.iter().all(|&left| left == 0xA5));
            }
        }
    }
}

#[test]
fn eighteen_comes_before_nineteen() {
    let e = bytes("E");
    let asked = |kind, out: &mut [i64]| {
        let answer = second::fill_values(&e, b"date", b"date", kind, &mut vec![1; TABLE], out);
        answer.map_err(|refusal| refusal.number)
    };
    assert_eq!(asked(10, &mut []), Err(18));
    assert_eq!(asked(11, &mut []), Err(19));
    assert_eq!(asked(11, &mut [0; 2]), Err(19));
    assert_eq!(asked(11, &mut [0; 3]), Ok(3));
}
