//! Files as statements for the project's checker.
//!
//! Each file is computed there with the definitions and must give this
//! program's answer: the refusal and its place, or the listing. The small files
//! and those with padded numbers are asked for every column as well, and what
//! is built from their listings is said: for a file with padding its shortest
//! spelling.

use std::fmt::Write;

use crate::bounds::{FILE, TABLE};
use crate::generate::{self, notation, sentences, Case};
use crate::reader;
use crate::Refusal;

const HEAD: &str = "\
-- Files of the second program, computed with the definitions: the answers are that program's, and it writes this file.
-- Assumes nothing.
use Rattle.std.specs.Prelude.{◌≡◌, refl, List, [], ◌∷◌, ◌++◌, ℕ, replicate, ℤ, pos, negsuc}
use Rattle.paper.specs.Reader.{Out, got, no}
use Rattle.paper.specs.File.{file}
use Rattle.paper.specs.Listing.{ascii}
use Rattle.paper.specs.Calls.{Answer, done, refused, objects, fill_values, listing, build}
use Rattle.paper.specs.Whole.{whole}
";

/// The part that has the small files.
const SMALL: &str = "Small";

/// From how many equal bytes on they are written as a run.
const SHORTEST_RUN: usize = 5;

/// The kinds that values can be asked for with.
const ASKED: [u64; 15] = [0, 1, 2, 3, 4, 6, 7, 8, 9, 10, 11, 12, 13, 14, 32];

/// The names of the parts: the small files, and a part for each section of
/// sentences.
pub fn parts() -> Vec<&'static str> {
    let sections = sentences::sections();
    let names = sections.iter().map(|section| section.name);
    std::iter::once(SMALL).chain(names).collect()
}

/// The statements of a part.
pub fn text(part: &str) -> Option<String> {
    if part == SMALL {
        return Some(statements("file", &generate::small(), wholly));
    }
    let sections = sentences::sections();
    let section = sections.iter().find(|section| section.name == part)?;
    let name = part.to_lowercase();
    let claims = if part == sentences::PADDED {
        wholly
    } else {
        read
    };
    Some(statements(&name, &section.cases, claims))
}

/// A statement for each case, named by what they are and their number.
fn statements(kind: &str, cases: &[Case], claims: fn(&Case) -> Vec<String>) -> String {
    let mut text = head();
    for (index, case) in cases.iter().enumerate() {
        let name = format!("{kind}{index}");
        text += &statement(&name, &case.label, &claims(case));
    }
    text
}

/// What stands before the statements: the names that they use.
fn head() -> String {
    let mut text = HEAD.to_string();
    for (name, piece) in pieces() {
        let listed = piece.iter().map(|byte| format!("0x{byte:02X} ∷ "));
        let listed: String = listed.collect();
        text += &format!("\nabbrev {name} : List ℕ\n{name} = {listed}[]\n");
    }
    text
}

/// All claims in one statement, each of them computed.
fn statement(name: &str, label: &str, claims: &[String]) -> String {
    let proof = match claims.len() {
        1 => "refl".to_string(),
        count => format!("({})", vec!["refl"; count].join(", ")),
    };
    let all = claims.join(" ×\n    ");
    format!("\n-- {label}\n{name} :\n    {all}\nunfolding whole\n{name} = {proof}\n")
}

/// What is said of a file: its refusal and the place, or its listing.
fn read(case: &Case) -> Vec<String> {
    let file = numbers(&case.bytes);
    match listing(case) {
        Err(refusal) => vec![format!(
            "(file ({file}) ≡ no {} {})",
            refusal.number, refusal.place
        )],
        Ok(listing) => vec![format!(
            "(listing {} {TABLE} ({file}) ≡ done (ascii {}))",
            listing.len(),
            quoted(&listing)
        )],
    }
}

/// The same, and of an accepted file what is built from its listing, and every
/// column.
fn wholly(case: &Case) -> Vec<String> {
    let mut claims = read(case);
    if let Ok(listing) = listing(case) {
        let built = built(&listing);
        claims.push(format!(
            "(build {} {TABLE} (ascii {}) ≡ done ({}))",
            built.len(),
            quoted(&listing),
            numbers(&built)
        ));
        claims.extend(columns(case, &numbers(&case.bytes)));
    }
    claims
}

/// The file of a listing.
fn built(listing: &[u8]) -> Vec<u8> {
    let mut out = vec![0; FILE];
    let answer = crate::build(listing, &mut vec![0; TABLE], &mut out);
    out.truncate(answer.expect("the listing of an accepted file"));
    out
}

/// The listing of a file.
fn listing(case: &Case) -> Result<Vec<u8>, Refusal> {
    let mut table = vec![0; TABLE];
    let mut out = vec![0; 64 * case.bytes.len() + 64];
    let length = crate::listing(&case.bytes, &mut table, &mut out)?;
    out.truncate(length);
    Ok(out)
}

/// The objects of every type, and every column that can be asked for.
fn columns(case: &Case, file: &str) -> Vec<String> {
    let Ok(ledger) = reader::read(&case.bytes) else {
        return Vec::new();
    };
    let mut claims = Vec::new();
    for known in &ledger.types {
        let type_name = ledger.names.bytes(known.name);
        let of = numbers(type_name);
        claims.push(format!(
            "(objects ({of}) {TABLE} ({file}) ≡ done {})",
            known.objects
        ));
        for &field in &known.fields {
            let field_name = ledger.names.bytes(ledger.fields[field].name);
            for kind in ASKED {
                if let Ok(values) = values(&case.bytes, type_name, field_name, kind) {
                    claims.push(format!(
                        "(fill_values ({of}) ({}) {kind} {} {TABLE} ({file}) ≡ done ({}))",
                        numbers(field_name),
                        values.len(),
                        signed(&values)
                    ));
                }
            }
        }
    }
    claims
}

/// The values of a field, in just as much room as they need.
fn values(file: &[u8], name: &[u8], field: &[u8], kind: u64) -> Result<Vec<i64>, Refusal> {
    let mut table = vec![0; TABLE];
    let count = crate::count_values(file, name, field, kind, &mut table)?;
    let mut out = vec![0; count];
    crate::fill_values(file, name, field, kind, &mut table, &mut out)?;
    Ok(out)
}

/// Bytes as a list of the checker's: known pieces at the front by their names,
/// and longer runs of one byte as such.
fn numbers(bytes: &[u8]) -> String {
    let mut text = String::new();
    let mut rest = bytes;
    for (name, piece) in pieces() {
        if let Some(behind) = rest.strip_prefix(&piece[..]) {
            write!(text, "{name} ++ ").expect("a string takes all");
            rest = behind;
        }
    }
    while let Some(&byte) = rest.first() {
        let run = rest.iter().take_while(|&&next| next == byte).count();
        if run < SHORTEST_RUN {
            write!(text, "0x{byte:02X} ∷ ").expect("a string takes all");
            rest = &rest[1..];
        } else {
            write!(text, "replicate {run} 0x{byte:02X} ++ ").expect("a string takes all");
            rest = &rest[run..];
        }
    }
    text + "[]"
}

/// The pieces of the notation that stand at the front of most files.
fn pieces() -> Vec<(&'static str, Vec<u8>)> {
    let named = ["P", "Q", "D"];
    named.map(|name| (name, notation::bytes(name))).to_vec()
}

/// Signed numbers as a list of the checker's: `negsuc n` is -1 - n.
fn signed(values: &[i64]) -> String {
    let mut text = String::new();
    for &value in values {
        if value < 0 {
            write!(text, "negsuc {} ∷ ", -1 - value).expect("a string takes all");
        } else {
            write!(text, "pos {value} ∷ ").expect("a string takes all");
        }
    }
    text + "[]"
}

/// A listing as a text of the checker's.
fn quoted(listing: &[u8]) -> String {
    let mut text = String::from("\"");
    for &byte in listing {
        match byte {
            b'\t' => text.push_str("\\t"),
            b'\n' => text.push_str("\\n"),
            byte => text.push(byte as char),
        }
    }
    text + "\""
}
