//! Holds the proved programs to the second one's. `rt run` in crates/print and in crates/make first, or `rt ci`: either leaves
//! them in `crates/print/out` and `crates/make/out`.

use std::env;
use std::io;
use std::path::Path;
use std::process::ExitCode;

use programs::process::Process;
use programs::{cases, compare, there_and_back};

const USAGE: &str = "\
usage: programs print PRINT        compare this print program with the second one
       programs build BUILD        compare this build program with the second one
       programs back BUILD PRINT   from a listing to its file and back, by both in a pipe
       programs second-print       the second one: standard input to standard output
       programs second-build       the same for the build program
";

/// What a program writes for its input, and whether it accepted it.
type Program = fn(&[u8]) -> (bool, Vec<u8>);

fn main() -> ExitCode {
    let words: Vec<String> = env::args().skip(1).collect();
    let words: Vec<&str> = words.iter().map(String::as_str).collect();
    let outcome = match words[..] {
        ["print", program] => print(Path::new(program)),
        ["build", program] => build(Path::new(program)),
        ["back", build, print] => back(Path::new(build), Path::new(print)),
        ["second-print"] => run(second::programs::print),
        ["second-build"] => run(second::programs::build),
        _ => {
            eprint!("{USAGE}");
            return ExitCode::from(2);
        }
    };
    match outcome {
        Ok(()) => ExitCode::SUCCESS,
        Err(text) => {
            eprintln!("programs: {text}");
            ExitCode::FAILURE
        }
    }
}

fn print(program: &Path) -> Result<(), String> {
    let met = compare(
        &Process::new(program, &[]),
        &second("second-print")?,
        &cases::print(),
    )?;
    println!(
        "programs: print agrees on {} files, {} of them refused, {} given in pieces too",
        met.inputs, met.refused, met.in_pieces
    );
    Ok(())
}

fn build(program: &Path) -> Result<(), String> {
    let met = compare(
        &Process::new(program, &[]),
        &second("second-build")?,
        &cases::build(),
    )?;
    println!(
        "programs: build agrees on {} listings, {} of them refused, {} given in pieces too",
        met.inputs, met.refused, met.in_pieces
    );
    Ok(())
}

fn back(build: &Path, print: &Path) -> Result<(), String> {
    let met = there_and_back(
        &Process::new(build, &[]),
        &Process::new(print, &[]),
        &cases::texts(),
    )?;
    println!(
        "programs: print gives back {} listings that build took, {} given in pieces too",
        met.inputs, met.in_pieces
    );
    Ok(())
}

/// The second one is this program, asked for it.
fn second(word: &str) -> Result<Process, String> {
    let this = env::current_exe().map_err(|error| error.to_string())?;
    Ok(Process::new(&this, &[word]))
}

/// Unlike the second program's own command it ends with status 0 on a refusal, as the proved program does.
fn run(program: Program) -> Result<(), String> {
    let run = second::programs::run(program, io::stdin().lock(), io::stdout().lock());
    run.map(|_| ()).map_err(|error| error.to_string())
}
