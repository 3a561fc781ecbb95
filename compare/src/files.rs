//! The run over all generated files: good, damaged, padded, extreme and large. Every accepted one is built again from its
//! listing.

use second::big;
use second::bounds::TABLE;
use second::generate::random::Random;
use second::generate::{self, Case, SEED};
use second::reader;

use crate::builds;
use crate::comparison::{Comparison, Mismatch};
use crate::plan::{self, Calls};
use crate::question::Call;
use crate::reader::Reader;

/// Holds a reader to the second program on all files of its generator, and on its large ones.
pub fn compare_all<R: Reader>(comparison: &mut Comparison<'_, R>) -> Result<(), Mismatch> {
    let generated = generate::files(SEED, generate::FILES);
    compare(comparison, "`second generate`", &generated)?;
    compare(comparison, "`second::big::files`", &big::files())
}

/// Holds a reader to the second program on these files. `source` says where they come from, in this order.
pub fn compare<R: Reader>(
    comparison: &mut Comparison<'_, R>,
    source: &str,
    cases: &[Case],
) -> Result<(), Mismatch> {
    for (number, case) in cases.iter().enumerate() {
        let origin = format!("{number} of {source} ({})", case.label);
        of_file(comparison, &origin, &case.bytes)?;
    }
    Ok(())
}

fn of_file<R: Reader>(
    comparison: &mut Comparison<'_, R>,
    origin: &str,
    file: &[u8],
) -> Result<(), Mismatch> {
    let tables = tables(comparison);
    comparison.ask_tables(origin, file, &Call::Check, &tables)?;
    let (listings, calls) = calls(file, &mut comparison.random);
    comparison.ask_tables(origin, file, &listings[0], &tables)?;
    let affordable = calls.iter().take(affordable(file.len()));
    for call in listings[1..].iter().chain(affordable) {
        comparison.ask_call(origin, file, call)?;
    }
    match reader::read(file) {
        Ok(_) => builds::of_file(comparison, origin, file),
        Err(_) => Ok(()),
    }
}

/// What to ask beyond a check: listings, and names and kinds, the more telling ones first. A refused file gets few of
/// each.
fn calls(file: &[u8], random: &mut Random) -> (Vec<Call>, Vec<Call>) {
    match reader::read(file) {
        Ok(ledger) => {
            let Calls { right, wrong } = plan::calls(file, &ledger, random);
            (plan::listings(file, random), [right, wrong].concat())
        }
        Err(_) => (plan::any_listings(random), plan::any_calls(random)),
    }
}

/// The lengths of the table that every file is checked and listed with.
fn tables<R: Reader>(comparison: &mut Comparison<'_, R>) -> [usize; 7] {
    let short = comparison.short_table();
    let long = comparison.long_table();
    [0, 1, TABLE - 1, TABLE, TABLE + 1, short, long]
}

/// How many calls a file of this length is asked, so that a few large ones do not take all the time. Each count among them
/// brings a fill with it.
fn affordable(length: usize) -> usize {
    14 + 1_900_000 / (length + 5_000)
}
