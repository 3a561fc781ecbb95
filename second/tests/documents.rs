//! The examples of the documents: every file and every listing that
//! `docs/REFUSALS.md` and `docs/DRAFTS.md` show gets the answer that stands
//! beside it.

mod common;

use std::fs;
use std::path::Path;

use common::{build, check};

/// Strings a, b and c: a file that begins with `P` has them there.
const P: &str = "03 00000001 00000002 00000003 61 62 63 ";
/// The first file of the paper: a file that begins with `D` has it there.
const D: &str = "01 00000004 64617465 01 01 00 02 00 01 00 0B 01 0A 01 FFFFFFFFFFFFFFFFFF ";

/// The lines of a document.
fn lines(name: &str) -> Vec<String> {
    let folder = Path::new(env!("CARGO_MANIFEST_DIR")).join("../docs");
    let text = fs::read_to_string(folder.join(name)).expect("a document of the project");
    text.lines().map(str::to_string).collect()
}

/// The bytes of a file as the documents write them; nothing if it is no file.
fn bytes(text: &str) -> Option<Vec<u8>> {
    let text = match text.split_at_checked(2) {
        Some(("P ", rest)) => P.to_string() + rest,
        Some(("D ", rest)) => D.to_string() + rest,
        _ => text.replace("0000x32", &"0000".repeat(32)),
    };
    let digits: String = text.split_whitespace().collect();
    let byte = |at| u8::from_str_radix(digits.get(at..at + 2)?, 16).ok();
    (0..digits.len()).step_by(2).map(byte).collect()
}

/// What this program says of a file, in the words of the documents.
fn told(file: &[u8]) -> String {
    match check(file) {
        Ok(()) => "accepted".to_string(),
        Err(refusal) => format!("refused {}, byte {}", refusal.number, refusal.place),
    }
}

/// What stands between backticks.
fn code(cell: &str) -> Option<&str> {
    cell.strip_prefix('`')?.strip_suffix('`')
}

/// The cells of a table's row.
fn cells(line: &str) -> Vec<&str> {
    let row = line
        .strip_prefix("| ")
        .and_then(|row| row.strip_suffix(" |"));
    row.map_or(Vec::new(), |row| row.split(" | ").collect())
}

/// A row that ends with a file, its answer and the place.
fn row_file(line: &str) -> Option<(Vec<u8>, String)> {
    let [.., file, number, place] = cells(line)[..] else {
        return None;
    };
    let answer = match number {
        "accepted" => number.to_string(),
        _ => format!("refused {number}, byte {place}"),
    };
    Some((bytes(code(file)?)?, answer))
}

/// A block of hex, with its answer in the first line behind it.
fn block_file(lines: &[String]) -> Option<(Vec<u8>, String)> {
    let (first, rest) = lines.split_first()?;
    if first != "```hex" {
        return None;
    }
    let end = rest.iter().position(|line| line == "```")?;
    let answer = rest[end + 1..].iter().find(|line| !line.is_empty())?;
    let answer = answer.strip_prefix("Result: ")?.strip_suffix('.')?;
    Some((bytes(&rest[..end].join(" "))?, answer.to_string()))
}

#[test]
fn files() {
    let mut count = 0;
    for name in ["REFUSALS.md", "DRAFTS.md"] {
        let lines = lines(name);
        for at in 0..lines.len() {
            let example = row_file(&lines[at]).or_else(|| block_file(&lines[at..]));
            if let Some((file, answer)) = example {
                assert_eq!(told(&file), answer, "{name}, line {}", at + 1);
                count += 1;
            }
        }
    }
    assert!(count > 130, "{count} files");
}

/// A listing in a row's first cell, and the answer behind it.
fn row_text(line: &str, before: &str) -> Option<(String, String)> {
    let [text, answer, _] = cells(line)[..] else {
        return None;
    };
    let (text, times) = match text.strip_suffix(" 33 times") {
        Some(text) => (text, 33),
        None => (text, 1),
    };
    let text = code(text)?.repeat(times);
    let listing = text.starts_with("pair") || text.starts_with("new");
    let text = before.to_string() + &text;
    let text = text.replace("\\t", "\t").replace("\\n", "\n");
    listing.then(|| (text.replace("\\r", "\r"), answer.to_string()))
}

#[test]
fn listings() {
    let (mut before, mut count) = (String::new(), 0);
    for (at, line) in lines("REFUSALS.md").iter().enumerate() {
        if let Some(rest) = line.strip_prefix("The next ones begin with `") {
            before = rest.split('`').next().unwrap_or_default().to_string();
        }
        if let Some((text, answer)) = row_text(line, &before) {
            let told = match build(text.as_bytes()) {
                Ok(file) => format!("{} bytes", file.len()),
                Err(number) => number.to_string(),
            };
            assert_eq!(told, answer, "line {}", at + 1);
            count += 1;
        }
    }
    assert!(count > 18, "{count} listings");
}
