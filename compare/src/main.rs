//! Holds the proved library to the second program. `rt lib` in crates/capi first.

mod proved;

use std::process::ExitCode;

use compare::comparison::{Comparison, Mismatch};
use compare::{builds, files, mutants};
use proved::Proved;
use second::generate::{FILES, SEED};

const USAGE: &str = "\
usage: compare            every generated file and text
       compare mutants N  N small files, changed at random
       compare damage N   N listings damaged in each way
";

fn main() -> ExitCode {
    let words: Vec<String> = std::env::args().skip(1).collect();
    let words: Vec<&str> = words.iter().map(String::as_str).collect();
    let outcome = match words[..] {
        [] => Some(every_file()),
        ["mutants", count] => count.parse().ok().map(some_mutants),
        ["damage", count] => count.parse().ok().map(some_damage),
        _ => None,
    };
    match outcome {
        Some(Ok(lines)) => {
            for line in lines.lines() {
                println!("compare: {line}");
            }
            ExitCode::SUCCESS
        }
        Some(Err(text)) => {
            eprintln!("compare: {text}");
            ExitCode::FAILURE
        }
        None => {
            eprint!("{USAGE}");
            ExitCode::from(2)
        }
    }
}

/// All generated files and texts; it fails as well where a refusal was never met, or one that the call cannot give.
fn every_file() -> Result<String, String> {
    let mut comparison = Comparison::new(&Proved, SEED);
    files::compare_all(&mut comparison).map_err(text)?;
    builds::compare_all(&mut comparison).map_err(text)?;
    let lines = comparison.met.lines();
    let (missing, impossible) = (comparison.met.missing(), comparison.met.impossible());
    if missing.is_empty() && impossible.is_empty() {
        return Ok(lines);
    }
    let missing = format!("never met: [{}]", missing.join(", "));
    let impossible = format!("met and impossible: [{}]", impossible.join(", "));
    Err(format!("{lines}\n{missing}\n{impossible}"))
}

fn some_mutants(count: u64) -> Result<String, String> {
    let mut comparison = Comparison::new(&Proved, SEED);
    mutants::compare(&mut comparison, count).map_err(text)?;
    Ok(comparison.met.line())
}

fn some_damage(each: usize) -> Result<String, String> {
    let mut comparison = Comparison::new(&Proved, SEED);
    let sheets = builds::sheets(FILES);
    builds::damaged(&mut comparison, &sheets, each).map_err(text)?;
    Ok(comparison.met.lines())
}

fn text(mismatch: Mismatch) -> String {
    mismatch.to_string()
}
