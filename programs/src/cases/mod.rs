//! What goes through both programs.

mod build;
mod print;

use second::bounds::{FILE, PROGRAM_INPUT, TABLE};
use second::generate::{self, Case};

/// From this length on an input is near a bound of the programs, or beyond it.
pub const LARGE: usize = PROGRAM_INPUT - 16;

/// How many files, and how many listings, are made by chance.
const BY_CHANCE: usize = 400;

/// Every third of what is generated is taken: it is there for the calls, and a process takes longer than a call.
const STEP: usize = 3;

/// For the print program: the bounds of the programs first, then generated files.
pub fn print() -> Vec<Case> {
    let generated = generate::files(generate::SEED, BY_CHANCE);
    with_some(print::bounds(), generated)
}

/// For the build program: the bounds of the programs first, then generated listings, good and damaged, and the listings of
/// generated files.
pub fn build() -> Vec<Case> {
    let generated = generate::listings(generate::SEED, BY_CHANCE);
    let mut cases = with_some(build::bounds(), generated);
    cases.extend(print().iter().filter_map(listed));
    cases
}

/// The texts for which the build program writes a file that the print program takes.
pub fn texts() -> Vec<Case> {
    build()
        .into_iter()
        .filter(|case| is_printable(&case.bytes))
        .collect()
}

/// The listing of a file that is accepted, if the programs take it.
fn listed(file: &Case) -> Option<Case> {
    let (accepted, text) = second::programs::print(&file.bytes);
    let label = format!("the listing of: {}", file.label);
    (accepted && text.len() <= PROGRAM_INPUT).then(|| Case::chance(label, text))
}

fn is_printable(text: &[u8]) -> bool {
    let (accepted, file) = second::programs::build(text);
    accepted && file.len() <= PROGRAM_INPUT
}

fn with_some(mut cases: Vec<Case>, generated: Vec<Case>) -> Vec<Case> {
    let short = generated
        .into_iter()
        .filter(|case| case.bytes.len() <= PROGRAM_INPUT);
    cases.extend(short.step_by(STEP));
    cases
}

/// The text whose file has this length, given the text for each name, in hex: the name fills it up.
fn filled(length: usize, text: impl Fn(&str) -> String) -> String {
    let least = built(&text("61")).len();
    text(&"61".repeat(1 + length - least))
}

fn built(text: &str) -> Vec<u8> {
    let mut out = vec![0; FILE];
    let length = second::build(text.as_bytes(), &mut vec![0; TABLE], &mut out)
        .unwrap_or_else(|refusal| panic!("a listing refused with {}", refusal.number));
    out.truncate(length);
    out
}
