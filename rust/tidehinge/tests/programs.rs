//! The programs `wear` in C and in Rust, and the C header.

mod common;

use std::fs;
use std::path::{Path, PathBuf};
use std::process::{Command, Output};

use common::{e, e_with, END};
use tidehinge::{Refusal, FILE, OBJECTS, WORK};

const PACKAGE: &str = env!("CARGO_MANIFEST_DIR");
const EXPECTED: &str = include_str!("../../../examples/wear.expected");

fn in_project(path: &str) -> PathBuf {
    Path::new(PACKAGE).join("../..").join(path)
}

/// A place for what a test makes.
fn made(name: &str) -> PathBuf {
    Path::new(env!("CARGO_TARGET_TMPDIR")).join(name)
}

fn run(command: &mut Command) -> Output {
    command.output().expect("the program can be started")
}

/// What compiles a program.
struct Language {
    compiler: &'static str,
    name: &'static str,
    standard: &'static str,
}

/// There is a C compiler wherever Rust programs are linked.
const C: Language = Language {
    compiler: "cc",
    name: "-xc",
    standard: "-std=c99",
};

const CPP: Language = Language {
    compiler: "c++",
    name: "-xc++",
    standard: "-std=c++11",
};

impl Language {
    fn is_here(&self) -> bool {
        Command::new(self.compiler)
            .arg("--version")
            .output()
            .is_ok()
    }

    /// Compiles a program against the header and the library. Every warning
    /// is an error: the header is for others to include.
    fn compile(&self, source: &Path, name: &str) -> PathBuf {
        let program = made(name);
        let mut command = Command::new(self.compiler);
        command.args([self.standard, "-Wall", "-Wextra", "-Wpedantic", "-Werror"]);
        command.arg("-I").arg(in_project("c"));
        command.arg(self.name).arg(source);
        command.arg("-xnone").arg(env!("TIDEHINGE_ARCHIVE"));
        let output = run(command.arg("-o").arg(&program));
        let said = String::from_utf8_lossy(&output.stderr);
        assert!(output.status.success(), "{said}");
        program
    }
}

fn wear_in_c(name: &str) -> Command {
    Command::new(C.compile(&in_project("c/wear.c"), name))
}

/// Cargo builds the example anew if it has changed.
fn wear_in_rust() -> Command {
    let mut command = Command::new(env!("CARGO"));
    command.args(["run", "--offline", "--quiet", "--example", "wear"]);
    command
        .arg("--manifest-path")
        .arg(Path::new(PACKAGE).join("Cargo.toml"))
        .arg("--");
    command
}

/// What a program wrote, and its status.
fn ran(command: &mut Command) -> (String, String, Option<i32>) {
    let output = run(command);
    let text = |bytes| String::from_utf8(bytes).expect("the programs write text");
    (
        text(output.stdout),
        text(output.stderr),
        output.status.code(),
    )
}

/// Both programs are given the file, and do the same.
fn both(name: &str, file: &Path) -> (String, String, Option<i32>) {
    let in_c = ran(wear_in_c(name).arg(file));
    let in_rust = ran(wear_in_rust().arg(file));
    assert_eq!(in_c, in_rust);
    in_c
}

#[test]
fn wear_of_the_example() {
    let printed = both("wear_of_the_example", &in_project("examples/wear.skill"));
    assert_eq!(printed, (EXPECTED.to_string(), String::new(), Some(0)));
}

fn assert_refused(name: &str, file: &[u8], refusal: &str) {
    let path = made(&format!("{name}.skill"));
    fs::write(&path, file).expect("the file can be written");
    let refused = (String::new(), format!("refused\t{refusal}\n"), Some(1));
    assert_eq!(both(name, &path), refused);
}

#[test]
fn refusals_in_words() {
    assert_refused("no_drives", &e(), "16\tno such type in the file");
    let damaged = e_with(END, 1);
    assert_refused("damaged", &damaged, "12\tvalues and chunk length disagree");
}

/// The last byte makes the difference: the programs hand on all of a file.
#[test]
fn a_file_that_is_too_long() {
    let mut file = vec![1; FILE];
    assert_refused("longest", &file, "1\tthe file ends too early");
    file.push(1);
    assert_refused("too_long", &file, "3\ta bound is passed");
}

/// What stands in a ledger of drives before its values: their number, one field
/// by the string of this number, its kind, and where it ends.
fn drives(count: &[u8], field: u8, kind: u8, end: &[u8]) -> Vec<u8> {
    let strings = [&[0x02, 0, 0, 0, 5, 0, 0, 0, 9], &b"drivewear"[..]].concat();
    let entry = [&[0x01, 0x01, 0x00], count, &[0x00, 0x01]].concat();
    [strings, entry, [&[0x00, kind, field], end].concat()].concat()
}

/// A ledger with as many drives as there may be, all with the wear -1.
fn most_drives() -> Vec<u8> {
    // 65,535 values of nine bytes end at 589,815.
    let mut file = drives(&[0xFF, 0xFF, 0x03], 2, 0x0B, &[0xF7, 0xFF, 0x23]);
    file.resize(file.len() + 9 * OBJECTS, 0xFF);
    file
}

/// A ledger of drives that have no wear, or a wear of another kind.
#[test]
fn drives_without_such_a_wear() {
    let named_by_their_type = [drives(&[0x01], 1, 0x0B, &[0x01]), vec![0x05]].concat();
    assert_refused(
        "no_wear",
        &named_by_their_type,
        "17\tthe type has no such field",
    );
    let in_a_byte = [drives(&[0x01], 2, 0x07, &[0x01]), vec![0x05]].concat();
    assert_refused("in_a_byte", &in_a_byte, "18\tthe field has another kind");
}

/// There is nothing to print, and nothing is wrong.
#[test]
fn no_drives_at_all() {
    let path = made("none.skill");
    fs::write(&path, drives(&[0x00], 2, 0x0B, &[0x00])).expect("the file can be written");
    let printed = both("none", &path);
    assert_eq!(printed, (String::new(), String::new(), Some(0)));
}

#[test]
fn as_many_drives_as_there_may_be() {
    let path = made("most_drives.skill");
    fs::write(&path, most_drives()).expect("the file can be written");
    let (printed, said, status) = both("most_drives", &path);
    assert_eq!((said.as_str(), status), ("", Some(0)));
    assert_eq!(printed.lines().count(), OBJECTS);
    assert_eq!(printed.lines().last(), Some("drive 65535\t-1"));
}

#[test]
fn wrong_use() {
    let missing = made("there is no such file");
    for mut wear in [wear_in_c("wrong_use"), wear_in_rust()] {
        let (printed, said, status) = ran(&mut wear);
        assert_eq!((printed.as_str(), status), ("", Some(2)));
        assert_eq!(said, "usage: wear FILE\n");
        let (printed, said, status) = ran(wear.arg(&missing));
        assert_eq!((printed.as_str(), status), ("", Some(2)));
        assert!(said.contains("there is no such file"), "{said}");
    }
}

/// The header has the numbers and words that this package has.
fn assert_header(language: &Language, name: &str) {
    let source = Path::new(PACKAGE).join("tests/header.c");
    let mut expected = format!("{WORK} {FILE} {OBJECTS}\n");
    for refusal in Refusal::ALL {
        expected += &format!("{} {refusal}\n", refusal.number());
    }
    expected += "done\ndone\nno refusal of this format\nno refusal of this format\n";
    expected += "the file ends too early\n2 2 5 5\nthe lent output is too short\n";
    expected += "pair\t0\t0\n2 0 0\nno file has this listing\n";
    let printed = ran(&mut Command::new(language.compile(&source, name)));
    assert_eq!(printed, (expected, String::new(), Some(0)));
}

#[test]
fn header_in_c() {
    assert_header(&C, "header_in_c");
}

/// Rust needs no C++ compiler, so there may be none.
#[test]
fn header_in_cpp() {
    if CPP.is_here() {
        assert_header(&CPP, "header_in_cpp");
    }
}

/// The page of refusals has the same words, but for the two that are never
/// given.
#[test]
fn page_of_refusals() {
    let page = fs::read_to_string(in_project("docs/REFUSALS.md")).expect("the page is there");
    let given = |refusal: &Refusal| !matches!(refusal, Refusal::Padded | Refusal::Loop);
    for refusal in Refusal::ALL.into_iter().filter(given) {
        let number = refusal.number();
        let line = page
            .lines()
            .find(|line| line.starts_with(&format!("| [{number}](")));
        assert!(
            line.is_some_and(|line| line.contains(&format!("| {refusal} |"))),
            "{number}"
        );
    }
}
