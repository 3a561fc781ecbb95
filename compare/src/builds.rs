//! What is asked of the builder: every accepted file from its listing and back, which gives its shortest spelling, and texts
//! that are no listing.

use second::bounds::{FILE, TABLE};
use second::generate::{self, Case, LISTINGS, SEED};

use crate::comparison::{Comparison, Mismatch};
use crate::damage::{Way, WAYS};
use crate::large::{self, Large};
use crate::plan;
use crate::question::{Call, Question};
use crate::reader::Reader;
use crate::sheet::Sheet;

/// How many listings are damaged in each way.
pub const EACH: usize = 500;

/// The longest listing to damage. In a longer one a change is likely to hit nothing but a value.
const LONGEST: usize = 1_500;

/// How many places get every byte there is.
const PLACES: usize = 12;

/// Holds a builder to the second program on the second program's own texts, on damaged listings and on large texts.
pub fn compare_all<R: Reader>(comparison: &mut Comparison<'_, R>) -> Result<(), Mismatch> {
    let listings = generate::listings(SEED, LISTINGS);
    compare(comparison, "`second::generate::listings`", &listings)?;
    let sheets = sheets(generate::FILES);
    damaged(comparison, &sheets, EACH)?;
    every_byte(comparison, &sheets, PLACES)?;
    large(comparison, large::TEXTS)
}

/// Large texts, each made when its turn comes.
pub fn large<R: Reader>(
    comparison: &mut Comparison<'_, R>,
    texts: &[Large],
) -> Result<(), Mismatch> {
    for text in texts {
        of_text(comparison, text.group, text.name, &(text.make)())?;
    }
    Ok(())
}

/// Holds a builder to the second program on these texts. `source` says where they come from, in this order.
pub fn compare<R: Reader>(
    comparison: &mut Comparison<'_, R>,
    source: &str,
    cases: &[Case],
) -> Result<(), Mismatch> {
    for (number, case) in cases.iter().enumerate() {
        let origin = format!("{number} of {source} ({})", case.label);
        of_text(comparison, "of the second program", &origin, &case.bytes)?;
    }
    Ok(())
}

/// So many listings damaged in each way.
pub fn damaged<R: Reader>(
    comparison: &mut Comparison<'_, R>,
    sheets: &[Sheet],
    each: usize,
) -> Result<(), Mismatch> {
    for way in WAYS {
        damaged_by(comparison, way, sheets, each)?;
    }
    Ok(())
}

fn damaged_by<R: Reader>(
    comparison: &mut Comparison<'_, R>,
    way: &Way,
    sheets: &[Sheet],
    each: usize,
) -> Result<(), Mismatch> {
    for number in 0..each {
        let text = way.text(&mut comparison.random, sheets);
        let origin = format!("damaged listing {number}, {}", way.name);
        of_text(comparison, way.name, &origin, &text)?;
    }
    Ok(())
}

/// Every byte there is, in so many places.
pub fn every_byte<R: Reader>(
    comparison: &mut Comparison<'_, R>,
    sheets: &[Sheet],
    places: usize,
) -> Result<(), Mismatch> {
    let some: Vec<&Sheet> = sheets.iter().filter(|one| !one.text.is_empty()).collect();
    for number in 0..places {
        let sheet = *comparison.random.pick(&some);
        let at = comparison.random.index(sheet.text.len());
        for byte in 0..=255 {
            let text = sheet.with(at..at + 1, &[byte]);
            let origin = format!("listing {number} with byte {byte} at {at}");
            of_text(comparison, "every byte", &origin, &text)?;
        }
    }
    Ok(())
}

/// Listings to damage, of files so many of which are made by chance.
pub fn sheets(count: usize) -> Vec<Sheet> {
    let files = generate::files(SEED, count).into_iter();
    let short = files.filter(|case| case.bytes.len() <= LONGEST);
    let sheets = short.filter_map(|case| Sheet::of(&case.bytes));
    sheets.filter(|one| one.text.len() <= LONGEST).collect()
}

/// An accepted file: the builder gives it again from its listing, without padding where it has some. It needs no more room
/// than the file had.
pub fn of_file<R: Reader>(
    comparison: &mut Comparison<'_, R>,
    origin: &str,
    file: &[u8],
) -> Result<(), Mismatch> {
    let room = plan::listing_length(file);
    let text = written(comparison, origin, file, &Call::Listing { room })?;
    let answer = asked(comparison, origin, &text, file.len(), TABLE)?;
    let length = usize::try_from(answer).unwrap_or(usize::MAX);
    if length < file.len() {
        return built(comparison, origin, &text, length).map(drop);
    }
    let built = built(comparison, origin, &text, file.len())?;
    same(origin, "the file of its listing", &built, file)
}

/// Any text. `group` is what it is counted as.
fn of_text<R: Reader>(
    comparison: &mut Comparison<'_, R>,
    group: &'static str,
    origin: &str,
    text: &[u8],
) -> Result<(), Mismatch> {
    let table = comparison.long_table();
    let answer = asked(comparison, origin, text, enough(text.len()), table)?;
    comparison.met.count_text(group, answer);
    if let Ok(length) = usize::try_from(answer) {
        return built(comparison, origin, text, length).map(drop);
    }
    // 20 comes before 19, and 15 before both.
    asked(comparison, origin, text, 0, TABLE)?;
    if comparison.random.once_in(4) {
        let short = comparison.short_table();
        asked(comparison, origin, text, 0, short)?;
    }
    Ok(())
}

/// Room for any file with a listing of this length. A byte of it stands for three of the file at most: an element of an
/// array may be a tab and `-1`, which is nine bytes.
fn enough(length: usize) -> usize {
    FILE.min(3 * length)
}

/// A listing whose file has so many bytes: built with rooms of all sizes and with too short a table, and what is built is
/// listed again.
fn built<R: Reader>(
    comparison: &mut Comparison<'_, R>,
    origin: &str,
    text: &[u8],
    length: usize,
) -> Result<Vec<u8>, Mismatch> {
    let rooms = plan::build_rooms(length, &mut comparison.random);
    for room in rooms {
        let table = comparison.long_table();
        asked(comparison, origin, text, room, table)?;
    }
    asked(comparison, origin, text, length, TABLE - 1)?;
    let file = written(comparison, origin, text, &Call::Build { room: length })?;
    let call = Call::Listing { room: text.len() };
    let again = written(comparison, origin, &file, &call)?;
    same(origin, "the listing of what was built", &again, text)?;
    Ok(file)
}

fn asked<R: Reader>(
    comparison: &mut Comparison<'_, R>,
    origin: &str,
    text: &[u8],
    room: usize,
    table: usize,
) -> Result<i64, Mismatch> {
    comparison.ask(&Question {
        origin,
        input: text,
        call: &Call::Build { room },
        table,
    })
}

/// What a call writes.
fn written<R: Reader>(
    comparison: &mut Comparison<'_, R>,
    origin: &str,
    input: &[u8],
    call: &Call,
) -> Result<Vec<u8>, Mismatch> {
    let answer = comparison.ask(&Question {
        origin,
        input,
        call,
        table: TABLE,
    })?;
    Ok(comparison.written(answer).to_vec())
}

/// Both programs agree on each call; here one call has to undo the other.
fn same(origin: &str, what: &str, found: &[u8], expected: &[u8]) -> Result<(), Mismatch> {
    if found == expected {
        return Ok(());
    }
    let (found, expected) = (found.len(), expected.len());
    let text =
        format!("{what} has {found} bytes, not the {expected} that it should\ninput   {origin}");
    Err(Mismatch::new("way back", text))
}
