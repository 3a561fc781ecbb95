//! Listings for the build program.

use second::bounds::{FILE, PROGRAM_INPUT, PROGRAM_OUTPUT};
use second::generate::Case;

use super::filled;

/// The bounds of the programs, met by listings.
pub fn bounds() -> Vec<Case> {
    let mut cases = vec![Case::chance("no input".into(), Vec::new())];
    for length in PROGRAM_INPUT - 1..=PROGRAM_INPUT + 1 {
        cases.push(Case::chance(
            format!("{length} bytes, accepted by the calls"),
            string(length).into_bytes(),
        ));
        // Too much input comes before whatever is wrong with it.
        let label = format!("{length} bytes, refused");
        cases.push(Case::chance(label, vec![b'x'; length]));
    }
    for length in PROGRAM_OUTPUT - 1..=PROGRAM_OUTPUT + 1 {
        let mut text = array(length).into_bytes();
        let label = format!("a file of {length} bytes");
        cases.push(Case::chance(label.clone(), text.clone()));
        // That it is no listing comes before the length of the file.
        text.pop();
        cases.push(Case::chance(
            format!("{label}, the last newline left out"),
            text,
        ));
    }
    // More than a pipe holds: the program ends before it has all of it.
    cases.push(Case::chance("a megabyte".into(), vec![b'x'; FILE]));
    cases
}

/// A listing of this length: one string, two digits for each byte. The line of a type makes it odd.
fn string(length: usize) -> String {
    let (entries, entry) = match length % 2 {
        0 => (0, ""),
        _ => (1, "type\t1\t0\t-\t0\t0\n"),
    };
    let digits = length - "pair\t1\t0\nstr\t\n".len() - entry.len();
    format!(
        "pair\t1\t{entries}\nstr\t{}\n{entry}",
        "61".repeat(digits / 2)
    )
}

/// A short listing whose file has this length: two bytes of text are eight of the file.
fn array(length: usize) -> String {
    filled(length, |name| {
        format!(
            "pair\t1\t1\nstr\t{name}\ntype\t1\t0\t-\t1\t1\nnew\t17,10\t1\nval{}\n",
            "\t7".repeat(length / 8 - 4),
        )
    })
}
