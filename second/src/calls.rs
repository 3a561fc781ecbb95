//! The six calls over lent memory.

use crate::bounds;
use crate::builder;
use crate::column::{self as columns, Column};
use crate::ledger::Ledger;
use crate::listing as listings;
use crate::reader;
use crate::refusal::*;
use crate::sink::Nothing;

/// Checks a file.
pub fn check(file: &[u8], work: &mut [u32]) -> Result<(), Refusal> {
    with_table(work, || reader::read_into(file, &mut Nothing).map(|_| ()))
}

/// How many objects a named type has, those of its subtypes included.
pub fn objects(file: &[u8], type_name: &[u8], work: &mut [u32]) -> Result<usize, Refusal> {
    with_table(work, || {
        let ledger = reader::read_into(file, &mut Nothing)?;
        let index = named_type(&ledger, type_name)?;
        Ok(ledger.types[index].objects as usize)
    })
}

/// How many values a field has: one for each object of its type.
pub fn count_values(
    file: &[u8],
    type_name: &[u8],
    field_name: &[u8],
    kind: u64,
    work: &mut [u32],
) -> Result<usize, Refusal> {
    with_table(work, || {
        let ledger = reader::read_into(file, &mut Nothing)?;
        let (_, count) = asked_field(&ledger, type_name, field_name, kind)?;
        Ok(count)
    })
}

/// Writes a field's values to the front of `out`; answers how many, which is
/// what [`count_values`] answers.
pub fn fill_values(
    file: &[u8],
    type_name: &[u8],
    field_name: &[u8],
    kind: u64,
    work: &mut [u32],
    out: &mut [i64],
) -> Result<usize, Refusal> {
    with_table(work, || {
        let mut values = Column::new(type_name, field_name, kind);
        let ledger = reader::read_into(file, &mut values)?;
        let (field, count) = asked_field(&ledger, type_name, field_name, kind)?;
        let front = out.get_mut(..count).ok_or(Refusal::of_call(ROOM))?;
        values.fill(&ledger, field, front);
        Ok(count)
    })
}

/// Writes a file's listing to the front of `out`; answers its length.
pub fn listing(file: &[u8], work: &mut [u32], out: &mut [u8]) -> Result<usize, Refusal> {
    with_table(work, || {
        let text = listings::print(file, out.len())?;
        let text = text.ok_or(Refusal::of_call(ROOM))?;
        put(&text, out)
    })
}

/// Writes the file that has the listing `text` to the front of `out`; answers
/// its length.
pub fn build(text: &[u8], work: &mut [u32], out: &mut [u8]) -> Result<usize, Refusal> {
    with_table(work, || {
        let file = builder::candidate(text)
            .filter(|file| reader::read_into(file, &mut Nothing).is_ok())
            .ok_or(Refusal::of_call(LISTING))?;
        put(&file, out)
    })
}

/// Copies the whole output to the front of the lent one, or nothing.
fn put(output: &[u8], out: &mut [u8]) -> Result<usize, Refusal> {
    let front = out.get_mut(..output.len()).ok_or(Refusal::of_call(ROOM))?;
    front.copy_from_slice(output);
    Ok(output.len())
}

/// The field that is asked for, and how many values it has.
fn asked_field(
    ledger: &Ledger<'_>,
    type_name: &[u8],
    field_name: &[u8],
    kind: u64,
) -> Result<(usize, usize), Refusal> {
    let index = named_type(ledger, type_name)?;
    let field = ledger
        .find_field(index, field_name)
        .ok_or(Refusal::of_call(NO_FIELD))?;
    if !columns::answers(ledger.fields[field].kind, kind) {
        return Err(Refusal::of_call(OTHER_KIND));
    }
    Ok((field, ledger.types[index].objects as usize))
}

fn named_type(ledger: &Ledger<'_>, name: &[u8]) -> Result<usize, Refusal> {
    ledger.find_type(name).ok_or(Refusal::of_call(NO_TYPE))
}

/// Refuses too short a table, leaving it alone; leaves a long enough one with
/// its first numbers 0. The memory this program works in is its own.
fn with_table<T>(
    work: &mut [u32],
    call: impl FnOnce() -> Result<T, Refusal>,
) -> Result<T, Refusal> {
    let table = work
        .get_mut(..bounds::TABLE)
        .ok_or(Refusal::of_call(TABLE))?;
    let answer = call();
    table.fill(0);
    answer
}
