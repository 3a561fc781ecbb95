//! The comparison itself: it accepts the second program's own, and notices others.

use std::path::Path;

use programs::feed::Feed;
use programs::process::Process;
use programs::{cases, compare, there_and_back};
use second::generate::Case;
use second::programs::{build, print};

const PROGRAM: &str = env!("CARGO_BIN_EXE_programs");

fn second(word: &str) -> Process {
    Process::new(Path::new(PROGRAM), &[word])
}

/// A program that is a line for the shell.
fn shell(line: &str) -> Process {
    Process::new(Path::new("sh"), &["-c", line])
}

/// Both programs, by the word that asks for the second one's, and what goes through them.
fn both() -> [(&'static str, Vec<Case>); 2] {
    [
        ("second-print", cases::print()),
        ("second-build", cases::build()),
    ]
}

#[test]
fn the_second_programs_agree_with_themselves() {
    for (word, cases) in both() {
        let met = compare(&second(word), &second(word), &cases[..20]).expect("no difference");
        assert_eq!(met.inputs, 20);
        assert!(met.in_pieces >= 5);
    }
}

/// What any program may do wrong: hand on its input, fail, write nothing, refuse everything.
fn others() -> [Process; 4] {
    [
        shell("cat"),
        shell("false"),
        shell("cat >/dev/null"),
        shell(r"cat >/dev/null; printf 'refused\t3\n'"),
    ]
}

#[test]
fn another_program_is_noticed() {
    for (word, cases) in both() {
        for other in others() {
            assert!(compare(&other, &second(word), &cases).is_err());
        }
    }
    let [(print, files), (build, texts)] = both();
    assert!(compare(&second(build), &second(print), &files).is_err());
    assert!(compare(&second(print), &second(build), &texts).is_err());
}

/// The right program but for one thing: it takes what the first read brings, or no more than the bound and is silent about
/// the rest, or writes a byte less than the bound.
fn nearly(word: &str) -> [String; 3] {
    [
        format!("dd bs=99999 count=1 2>/dev/null | {PROGRAM} {word}"),
        format!("head -c 32768 | {PROGRAM} {word}"),
        format!("{PROGRAM} {word} | head -c 65535"),
    ]
}

#[test]
fn a_program_that_is_nearly_right_is_noticed() {
    for (word, cases) in both() {
        for line in nearly(word) {
            let outcome = compare(&shell(&line), &second(word), &cases);
            assert!(outcome.is_err(), "{line}");
        }
    }
}

#[test]
fn listings_come_back() {
    let texts = &cases::texts()[..20];
    let (build, print) = (second("second-build"), second("second-print"));
    let met = there_and_back(&build, &print, texts).expect("no difference");
    assert_eq!(met.inputs, 20);
    for other in others() {
        assert!(there_and_back(&other, &print, texts).is_err());
        assert!(there_and_back(&build, &other, texts).is_err());
    }
}

#[test]
fn pieces_make_up_the_whole() {
    for length in [0, 1, 2, 37, 32_769] {
        for feed in [Feed::Whole, Feed::Pieces(length as u64)] {
            let cuts = feed.cuts(length);
            assert_eq!((cuts[0], *cuts.last().unwrap()), (0, length));
            assert!(cuts.windows(2).all(|cut| cut[0] < cut[1]));
        }
    }
    assert!(Feed::Pieces(1).cuts(37).len() > 5);
}

fn bytes_of<'a>(cases: &'a [Case], label: &str) -> &'a [u8] {
    let case = cases.iter().find(|case| case.label == label);
    &case.expect(label).bytes
}

fn refused(number: u8) -> (bool, Vec<u8>) {
    (false, format!("refused\t{number}\n").into_bytes())
}

/// The cases are what their labels say.
#[test]
fn the_bounds_are_met_by_files() {
    let cases = cases::print();
    let of = |label: &str| print(bytes_of(&cases, label));
    assert!(of("32768 bytes, accepted by the calls").0);
    assert_eq!(of("32769 bytes, accepted by the calls"), refused(3));
    assert_eq!(of("a listing of 65536 bytes").1.len(), 65_536);
    assert_eq!(of("a listing of 65538 bytes"), refused(19));
    assert_eq!(of("32768 bytes, refused"), refused(5));
    let padding = "32768 bytes, most of them padding";
    let (accepted, text) = of(padding);
    assert!(accepted && build(&text).1.len() < 8_000);
    assert_eq!(bytes_of(&cases, padding).len(), 32_768);
    assert_eq!(of("32769 bytes, most of them padding"), refused(3));
    assert_eq!(of("32769 bytes, refused"), refused(3));
    assert!(cases.len() > 200);
}

#[test]
fn the_bounds_are_met_by_listings() {
    let cases = cases::build();
    let of = |label: &str| build(bytes_of(&cases, label));
    for length in [32_767, 32_768, 32_769] {
        let label = format!("{length} bytes, accepted by the calls");
        let text = bytes_of(&cases, &label);
        assert_eq!(text.len(), length);
        assert!(second::build(text, &mut vec![0; 16_384], &mut vec![0; length]).is_ok());
        assert_eq!(build(text).0, length <= 32_768);
    }
    assert_eq!(of("32769 bytes, accepted by the calls"), refused(3));
    assert_eq!(of("32768 bytes, refused"), refused(20));
    assert_eq!(of("32769 bytes, refused"), refused(3));
    assert_eq!(of("a file of 65535 bytes").1.len(), 65_535);
    assert_eq!(of("a file of 65536 bytes").1.len(), 65_536);
    assert_eq!(of("a file of 65537 bytes"), refused(19));
    assert_eq!(
        of("a file of 65537 bytes, the last newline left out"),
        refused(20)
    );
    assert!(cases.len() > 200);
    assert!(cases::texts().len() > 100);
}
