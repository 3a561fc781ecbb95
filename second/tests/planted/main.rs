//! Single faults, each planted in a copy of the second program, are all
//! noticed by what the generator makes.
//!
//! The copy is compiled once, with every fault behind a switch ([`copy`]).
//! `driver.rs` is compiled against it: it asks the copy about all files and
//! listings that are made for rules and bounds, once without a fault and once
//! with each. A fault that changes no answer says that a sentence of the paper
//! is not held by any case. A place is no answer but for the faults that are
//! about places.

mod copy;
mod faults;

use std::fs;
use std::path::{Path, PathBuf};
use std::process::Command;

use faults::Fault;
use second::generate::{self, Case, SEED};

/// A change in a file of the program.
pub struct Edit {
    pub file: &'static str,
    /// A piece that the file has once; what is changed stands between « and ».
    pub at: &'static str,
    /// What stands there instead.
    pub new: &'static str,
}

/// What is no fault, planted behind them, is not noticed.
#[test]
fn every_fault_is_noticed() {
    let mut faults = faults::all();
    let numbered = faults.len();
    faults.extend(faults::of_places());
    faults.push(faults::NONE);
    let folder = Path::new(env!("CARGO_TARGET_TMPDIR")).join("planted");
    copy::write(&folder, &faults).unwrap_or_else(|text| panic!("{text}"));
    let driver = compiled(&folder);
    let cases = folder.join("cases");
    fs::write(&cases, generated()).unwrap_or_else(|error| panic!("{error}"));
    let numbers = [numbered, faults.len()].map(|number| number.to_string());
    let output = run(Command::new(driver).arg(cases).args(numbers));
    let mut missed = missed(&output, &faults);
    let none = missed.pop();
    assert!(missed.is_empty(), "not noticed:\n{}", missed.join("\n"));
    assert_eq!(
        none,
        Some(format!("{}\t{}", faults.len(), faults::NONE.says))
    );
}

/// All files and listings that chance has no part in, for the driver to read.
fn generated() -> Vec<u8> {
    let mut out = Vec::new();
    for case in generate::files(SEED, 0) {
        put(&mut out, false, &case);
    }
    for case in generate::listings(SEED, 0) {
        put(&mut out, true, &case);
    }
    out
}

fn put(out: &mut Vec<u8>, is_listing: bool, case: &Case) {
    out.extend([is_listing, case.expected.is_some()].map(u8::from));
    for piece in [case.label.as_bytes(), &case.bytes] {
        out.extend((piece.len() as u32).to_be_bytes());
        out.extend(piece);
    }
}

/// The library with its faults, and the driver linked to it.
fn compiled(folder: &Path) -> PathBuf {
    let library = folder.join("libsecond.rlib");
    let driver = folder.join("driver");
    let here = Path::new(env!("CARGO_MANIFEST_DIR")).join("tests/planted");
    run(rustc(&folder.join("lib.rs"), &library).args(["--crate-type=lib", "--crate-name=second"]));
    let linked = format!("second={}", library.display());
    run(rustc(&here.join("driver.rs"), &driver).args(["--extern", &linked]));
    driver
}

fn rustc(source: &Path, output: &Path) -> Command {
    let program = std::env::var_os("RUSTC").unwrap_or("rustc".into());
    let mut command = Command::new(program);
    command.args(["--edition=2021", "-Copt-level=2", "--cap-lints=allow"]);
    command.arg("--error-format=short");
    command.arg(source).arg("-o").arg(output);
    command
}

/// What a command prints. It has to end well.
fn run(command: &mut Command) -> String {
    let output = command
        .output()
        .unwrap_or_else(|error| panic!("{command:?} does not start: {error}"));
    let said = String::from_utf8_lossy(&output.stderr);
    assert!(output.status.success(), "{command:?}\n{said}");
    String::from_utf8_lossy(&output.stdout).into_owned()
}

/// The faults that changed no answer. The driver prints a line for each
/// fault: its number, and the first case that shows it, if any.
fn missed(output: &str, faults: &[Fault]) -> Vec<String> {
    let lines: Vec<&str> = output.lines().collect();
    assert_eq!(lines.len(), faults.len(), "the driver ended early");
    let all = lines.iter().zip(faults);
    let missed = all.filter(|(line, _)| line.ends_with('\t'));
    missed
        .map(|(line, fault)| format!("{line}{}", fault.says))
        .collect()
}
