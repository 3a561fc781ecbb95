//! Numbers in more bytes than they need: they have their values, and nothing
//! that is built has them.

mod common;

use common::{build, bytes, check, listing, number, objects, values_of};
use second::bounds::{FILE, TABLE};
use second::generate::spelling::{padded, Parts};
use second::generate::{self, Case, SEED};
use second::kind::REFERENCE;
use second::{reader, refusal, Refusal};

/// End offsets are those of the chunks as they are spelt, block by block.
#[test]
fn ends_follow_the_spelling() {
    let text = "Q 1 1 0 1 0 2 0 B 1 ^ 0 6 2 ~^ [ 5 ] [ =FF ] 0 1 1 1 2 ^ ^ [ 80 ] [ =00 ]";
    let parts = Parts::of(text);
    let front = "Q 01 01 00 01 00 02 00 0B 01";
    let back = "00 01 01 01 02";
    let file = |first: &str, second: &str| bytes(&format!("{front} {first} {back} {second}"));
    let shortest = file("01 00 06 02 02 05 FF", "02 03 8001 00");
    assert_eq!(parts.shortest(), shortest);
    assert_eq!(parts.numbers(), 24);
    // The second pair's value, the first one's, and the marked end.
    let spelt = parts.with(23, 1);
    assert_eq!(spelt, file("01 00 06 02 02 05 FF", "03 04 808100 00"));
    let spelt = parts.with(15, 2);
    assert_eq!(spelt, file("03 00 06 02 04 858000 FF", "02 03 8001 00"));
    let spelt = parts.with_marked(1);
    assert_eq!(spelt, file("01 00 06 02 8200 05 FF", "02 03 8001 00"));
    for spelt in [parts.shortest(), parts.nine(), parts.with_marked(3)] {
        assert_eq!(check(&spelt), Ok(()));
    }
}

#[test]
fn padding_ends_with_the_ninth_byte() {
    assert_eq!(padded(0, 0), [0x00]);
    assert_eq!(padded(0, 1), [0x80, 0x00]);
    assert_eq!(padded(0, 20), bytes("80*8 00"));
    assert_eq!(padded(256, 2), [0x80, 0x82, 0x80, 0x00]);
    assert_eq!(padded((1 << 56) - 1, 1), bytes("FF*8 00"));
    assert_eq!(padded(u64::MAX, 8), bytes("FF*9"));
}

/// A padded file has the answers of its shortest spelling, and what is built
/// from its listing is that spelling.
#[test]
fn twins_have_the_same_answers() {
    let (mut accepted, mut columns) = (0, 0);
    for twin in generate::twins() {
        let label = &twin.padded.label;
        let file = &twin.padded.bytes;
        assert!(file.len() > twin.shortest.len(), "{label}");
        assert_eq!(number(file), number(&twin.shortest), "{label}");
        let text = listing(file);
        assert_eq!(text, listing(&twin.shortest), "{label}");
        if let Ok(text) = text {
            accepted += 1;
            assert_eq!(build(&text), Ok(twin.shortest.clone()), "{label}");
            columns += same_columns(file, &twin.shortest, label);
        }
    }
    assert!(accepted > 600 && columns > 800, "{accepted}, {columns}");
}

/// Every column of two files that hold the same; how many there are.
fn same_columns(file: &[u8], other: &[u8], label: &str) -> usize {
    let ledger = reader::read(file).expect("an accepted file");
    let mut compared = 0;
    for owner in &ledger.types {
        let type_name = ledger.names.bytes(owner.name);
        assert_eq!(objects(file, type_name), objects(other, type_name));
        for &field in &owner.fields {
            let name = ledger.names.bytes(ledger.fields[field].name);
            let kind = ledger.fields[field].kind.number().min(REFERENCE);
            let values = values_of(file, type_name, name, kind);
            assert_eq!(values, values_of(other, type_name, name, kind), "{label}");
            compared += usize::from(values.is_ok());
        }
    }
    compared
}

/// Chance makes padded files as well, accepted ones and refused ones.
#[test]
fn chance_has_padded_files_too() {
    let fixed = generate::fixed_files().len();
    let cases = &generate::files(SEED, 2_000)[fixed..];
    let padded: Vec<&Case> = cases
        .iter()
        .filter(|case| case.label.contains(", padded"))
        .collect();
    let accepted = padded.iter().filter(|case| check(&case.bytes).is_ok());
    let (all, accepted) = (padded.len(), accepted.count());
    assert!(all == 400 && accepted > 200, "{accepted} of {all}");
    assert!(all - accepted > 50, "{accepted} of {all}");
}

/// All that the six calls say of a file or a text.
fn all_answers(input: &[u8]) -> Vec<Result<usize, Refusal>> {
    let mut table = vec![0; TABLE];
    let mut text = [0; 64];
    let mut numbers = [0; 4];
    let mut answers = vec![
        second::check(input, &mut table).map(|()| 0),
        second::listing(input, &mut table, &mut text),
        second::build(input, &mut table, &mut text),
        second::check(input, &mut table[1..]).map(|()| 0),
    ];
    for name in [&b"a"[..], b"date"] {
        answers.push(second::objects(input, name, &mut table));
        for kind in [4, 11, REFERENCE] {
            let counted = second::count_values(input, name, name, kind, &mut table);
            answers.push(counted);
            let out = &mut numbers[..];
            answers.push(second::fill_values(
                input, name, name, kind, &mut table, out,
            ));
        }
    }
    answers
}

/// Refusal 2 keeps its number and is never given: not for any file, text or
/// call, nor for the files as texts and the texts as files.
#[test]
fn two_is_never_given() {
    let files = generate::files(SEED, generate::FILES);
    let texts = generate::listings(SEED, generate::LISTINGS);
    let mut met = [0; 22];
    for case in files.iter().chain(&texts) {
        for answer in all_answers(&case.bytes) {
            let refusal = answer.err().map_or(0, |refusal| refusal.number);
            met[usize::from(refusal)] += 1;
        }
    }
    assert_eq!(met[usize::from(refusal::PADDED)], 0);
    assert_eq!(met[usize::from(refusal::LOOP)], 0);
    for (number, &count) in met.iter().enumerate() {
        assert_eq!(count == 0, matches!(number, 2 | 8), "{number}: {count}");
    }
}

/// The bound is on the file as it is spelt, not on what it would be built to.
#[test]
fn the_bound_of_a_padded_file() {
    let twins = generate::twins();
    let at = twins.iter().find(|twin| twin.padded.bytes.len() == FILE);
    let at = at.expect("a padded file at the bound");
    assert!(at.shortest.len() < FILE / 4);
    assert_eq!(check(&at.padded.bytes), Ok(()));
    let cases = generate::fixed_files();
    let past = cases
        .iter()
        .find(|case| case.label == "1048577 bytes of padded numbers");
    let past = &past.expect("one past the bound").bytes;
    assert_eq!(past.len(), FILE + 1);
    assert_eq!(
        check(past),
        Err(Refusal {
            number: 3,
            place: 0
        })
    );
}
