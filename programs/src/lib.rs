//! Holds a proved program to the second one's, as processes.
//!
//! Each input, a file or a listing, goes through both, by a pipe: all at once, and in pieces with pauses between them, so that
//! reads are short. What the two write has to be equal, byte for byte. And a listing goes through both proved programs, one
//! behind the other, and has to come out again.

#![forbid(unsafe_code)]

pub mod cases;
pub mod feed;
pub mod process;

use feed::Feed;
use process::Process;
use second::generate::Case;

/// What was compared.
#[derive(Clone, Copy, Debug, Default, PartialEq, Eq)]
pub struct Met {
    pub inputs: usize,
    pub refused: usize,
    pub in_pieces: usize,
}

/// Runs every input through both programs. The first difference ends it.
pub fn compare(proved: &Process, second: &Process, cases: &[Case]) -> Result<Met, String> {
    let mut met = Met::default();
    for (number, case) in cases.iter().enumerate() {
        for feed in feeds(number, case) {
            let expected = second.run(&case.bytes, Feed::Whole)?;
            let found = proved.run(&case.bytes, feed)?;
            if expected != found {
                return Err(difference(case, feed, &expected, &found));
            }
            met.refused += usize::from(feed == Feed::Whole && expected.starts_with(b"refused\t"));
            met.in_pieces += usize::from(feed != Feed::Whole);
        }
        met.inputs += 1;
    }
    Ok(met)
}

/// Runs every text through the build program and the print program behind it: it has to come out again. This says something
/// only of programs that were compared: two that hand on what they take would do.
pub fn there_and_back(build: &Process, print: &Process, texts: &[Case]) -> Result<Met, String> {
    let mut met = Met::default();
    for (number, case) in texts.iter().enumerate() {
        for feed in feeds(number, case) {
            let found = build.run_into(print, &case.bytes, feed)?;
            if case.bytes != found {
                return Err(difference(case, feed, &case.bytes, &found));
            }
            met.in_pieces += usize::from(feed != Feed::Whole);
        }
        met.inputs += 1;
    }
    Ok(met)
}

/// Every input in pieces would take minutes of pauses.
fn feeds(number: usize, case: &Case) -> Vec<Feed> {
    let mut feeds = vec![Feed::Whole];
    if number % 5 == 0 || case.bytes.len() >= cases::LARGE {
        feeds.push(Feed::Pieces(number as u64));
    }
    feeds
}

fn difference(case: &Case, feed: Feed, expected: &[u8], found: &[u8]) -> String {
    let same = expected.iter().zip(found).take_while(|(a, b)| a == b);
    format!(
        "{} ({} bytes, {feed:?}): {} bytes, not {}; they differ at {}\nexpected: {}\nfound: {}",
        case.label,
        case.bytes.len(),
        found.len(),
        expected.len(),
        same.count(),
        start(expected),
        start(found),
    )
}

/// The start of a text, for people.
fn start(text: &[u8]) -> String {
    let text = &text[..text.len().min(80)];
    text.escape_ascii().to_string()
}
