//! Prints the wear of every drive of a ledger, and marks those that are due to
//! be replaced. `c/wear.c` does the same.
//!
//! Status 0 is done, 1 refused, 2 wrong use or trouble with a file.

use std::env;
use std::ffi::{OsStr, OsString};
use std::fs;
use std::io::{self, Write};
use std::process::ExitCode;

use tidehinge::{count_values, fill_values, Refusal, WORK};

/// A drive is replaced at this wear.
const REPLACED_AT: i64 = 300;

/// The kind of the field: v64.
const V64: u64 = 11;

/// The wear of every drive, in the order in which they were entered: how many
/// there are is asked first, and so many numbers are lent.
fn wear_of_drives(file: &[u8]) -> Result<Vec<i64>, Refusal> {
    let mut work = vec![0; WORK];
    let count = count_values(file, b"drive", b"wear", V64, &mut work)?;
    let mut wear = vec![0; count];
    fill_values(file, b"drive", b"wear", V64, &mut work, &mut wear)?;
    Ok(wear)
}

fn print_drives(wear: &[i64]) -> io::Result<()> {
    let mut output = io::BufWriter::new(io::stdout().lock());
    for (index, &wear) in wear.iter().enumerate() {
        let mark = if wear >= REPLACED_AT { "\treplace" } else { "" };
        writeln!(output, "drive {}\t{wear}{mark}", index + 1)?;
    }
    output.flush()
}

fn run(path: &OsStr) -> io::Result<ExitCode> {
    match wear_of_drives(&fs::read(path)?) {
        Ok(wear) => {
            print_drives(&wear)?;
            Ok(ExitCode::SUCCESS)
        }
        Err(refusal) => {
            eprintln!("refused\t{}\t{refusal}", refusal.number());
            Ok(ExitCode::FAILURE)
        }
    }
}

fn main() -> ExitCode {
    let arguments: Vec<OsString> = env::args_os().skip(1).collect();
    let [path] = arguments.as_slice() else {
        eprintln!("usage: wear FILE");
        return ExitCode::from(2);
    };
    run(path).unwrap_or_else(|error| {
        eprintln!("{}: {error}", path.to_string_lossy());
        ExitCode::from(2)
    })
}
