//! The two programs and the command line.

mod common;

use std::io::Write;
use std::process::{Command, Stdio};

use common::bytes;
use second::bounds::{PROGRAM_INPUT, PROGRAM_OUTPUT};
use second::generate::LISTING_E;
use second::programs;

/// Runs the command with this standard input; answers status and output.
fn run(arguments: &[&str], input: &[u8]) -> (i32, Vec<u8>) {
    let mut child = Command::new(env!("CARGO_BIN_EXE_second"))
        .args(arguments)
        .stdin(Stdio::piped())
        .stdout(Stdio::piped())
        .stderr(Stdio::null())
        .spawn()
        .expect("the command starts");
    // A command that reads nothing may be gone before all is written.
    let _ = child.stdin.take().expect("a pipe").write_all(input);
    let output = child.wait_with_output().expect("the command ends");
    (output.status.code().expect("a status"), output.stdout)
}

#[test]
fn print_and_build_of_e() {
    let e = bytes("E");
    assert_eq!(run(&["program-print"], &e), (0, LISTING_E.into()));
    assert_eq!(run(&["program-build"], LISTING_E.as_bytes()), (0, e));
    assert_eq!(run(&["program-print"], b""), (0, Vec::new()));
    assert_eq!(run(&["program-build"], b""), (0, Vec::new()));
}

/// Padding is not shown, and what is built has none.
#[test]
fn print_of_padded_numbers() {
    let padded = bytes("8000 80*8 00");
    assert_eq!(
        run(&["program-print"], &padded),
        (0, b"pair\t0\t0\n".to_vec())
    );
    assert_eq!(run(&["program-build"], b"pair\t0\t0\n"), (0, vec![0, 0]));
}

/// The example with annotations and maps, as it is made and as it is listed.
#[test]
fn print_and_build_of_the_slots() {
    let slots = include_bytes!("../../examples/slots.skill");
    let listing = include_bytes!("../../examples/slots.listing");
    assert_eq!(run(&["example-slots"], b""), (0, slots.to_vec()));
    assert_eq!(run(&["program-print"], slots), (0, listing.to_vec()));
    assert_eq!(run(&["program-build"], listing), (0, slots.to_vec()));
}

/// The example with numbers of nine bytes: listed, and built shorter.
#[test]
fn print_and_build_of_nine_bytes() {
    let nine = include_bytes!("../../examples/nine.skill");
    let listing = include_bytes!("../../examples/nine.listing");
    let short = include_bytes!("../../examples/nine.short.skill");
    assert_eq!(run(&["example-nine"], b""), (0, nine.to_vec()));
    assert_eq!(run(&["program-print"], nine), (0, listing.to_vec()));
    assert_eq!(run(&["program-build"], listing), (0, short.to_vec()));
}

#[test]
fn refusals_of_the_programs() {
    let refused = |number: u8| (1, format!("refused\t{number}\n").into_bytes());
    assert_eq!(run(&["program-print"], &bytes("80 00")), refused(1));
    assert_eq!(run(&["program-print"], &bytes("8000 01 8100")), refused(5));
    assert_eq!(run(&["program-print"], &bytes("E 00 01 07")), refused(5));
    assert_eq!(run(&["program-build"], b"pair\t0\t0"), refused(20));
}

/// A file of one string whose listing has as many bytes as asked for.
fn file_of(length: usize) -> Vec<u8> {
    let mut file = bytes("01");
    file.extend_from_slice(&((length - 6) as u32).to_be_bytes());
    file.resize(length - 1, b'x');
    file.push(0);
    file
}

#[test]
fn bounds_of_the_programs() {
    let refused = |number: u8| (false, format!("refused\t{number}\n").into_bytes());
    // 32,762 string bytes print as 65,524 digits beside 9 + 4 + 1 bytes.
    let (accepted, text) = programs::print(&file_of(PROGRAM_INPUT));
    assert!(!accepted);
    assert_eq!((accepted, text), refused(19));
    let fits = file_of(PROGRAM_INPUT - 1);
    let (accepted, text) = programs::print(&fits);
    assert!(accepted);
    assert_eq!(text.len(), PROGRAM_OUTPUT);
    assert_eq!(programs::print(&file_of(PROGRAM_INPUT + 1)), refused(3));
    // Too much input comes before whatever is wrong with it.
    assert_eq!(programs::print(&vec![0x80; PROGRAM_INPUT + 1]), refused(3));
    assert_eq!(programs::build(&vec![b'x'; PROGRAM_INPUT + 1]), refused(3));
    assert_eq!(programs::build(&vec![b'x'; PROGRAM_INPUT]), refused(20));
    // The input's own refusal comes before 19.
    let mut wrong = file_of(PROGRAM_INPUT);
    wrong[PROGRAM_INPUT - 1] = 1;
    assert_eq!(programs::print(&wrong), refused(1));
    assert_eq!(run(&["program-print"], &vec![0; 100_000]).1, refused(3).1);
    // Two bytes of text can be eight of the file.
    let array = |length: usize| {
        let head = "pair\t1\t1\nstr\t61\ntype\t1\t0\t-\t1\t1\nnew\t17,10\t1\nval";
        format!("{head}{}\n", "\t1".repeat(length)).into_bytes()
    };
    let (accepted, file) = programs::build(&array(8_000));
    assert!(accepted && file.len() > 64_000);
    assert_eq!(programs::build(&array(9_000)), refused(19));
}

#[test]
fn commands() {
    let e = bytes("E");
    assert_eq!(run(&["check", "-"], &e), (0, b"accepted\n".to_vec()));
    assert_eq!(
        run(&["check", "-"], &e[..36]),
        (1, b"refused\t1\t35\n".to_vec())
    );
    assert_eq!(run(&["objects", "-", "date"], &e), (0, b"3\n".to_vec()));
    assert_eq!(
        run(&["objects", "-", "x"], &e),
        (1, b"refused\t16\t0\n".to_vec())
    );
    let of_date = |command, kind| run(&[command, "-", "date", "date", kind], &e);
    assert_eq!(of_date("count-values", "11"), (0, b"3\n".to_vec()));
    assert_eq!(of_date("values", "11"), (0, b"1\n-1\n256\n".to_vec()));
    for command in ["count-values", "values"] {
        assert_eq!(of_date(command, "10"), (1, b"refused\t18\t0\n".to_vec()));
    }
    assert_eq!(run(&["listing", "-"], &e), (0, LISTING_E.into()));
    assert_eq!(run(&["build", "-"], LISTING_E.as_bytes()), (0, e));
    assert_eq!(
        run(&["build", "-"], b"x"),
        (1, b"refused\t20\t0\n".to_vec())
    );
}

#[test]
fn wrong_use() {
    for arguments in [
        &[][..],
        &["unknown"],
        &["check"],
        &["count-values", "-", "a", "b", "c"],
        &["values", "-", "a", "b", "c"],
        &["values", "-", "a", "b"],
        &["counts", "--seed"],
        &["counts", "--sand", "1"],
        &["program-print", "x"],
    ] {
        assert_eq!(run(arguments, b""), (2, Vec::new()));
    }
}

#[test]
fn generate_writes_cases_and_an_index() {
    let folder = std::env::temp_dir().join(format!("second-generate-{}", std::process::id()));
    let name = folder.to_str().expect("a plain name");
    let (status, _) = run(&["generate", name, "--seed", "4", "--count", "10"], b"");
    assert_eq!(status, 0);
    let index = std::fs::read_to_string(folder.join("index")).expect("an index");
    let mut checked = 0;
    for line in index.lines().step_by(50) {
        let words: Vec<&str> = line.split('\t').collect();
        let case = std::fs::read(folder.join(words[0])).expect("the case");
        if words[0].starts_with("file") {
            let answer = common::number(&case);
            assert_eq!(answer.to_string(), words[1]);
            checked += 1;
        }
    }
    std::fs::remove_dir_all(&folder).expect("the folder goes away");
    assert!(checked > 20);
}
