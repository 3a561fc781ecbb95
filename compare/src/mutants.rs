//! Small accepted files, changed at random: many of them, each asked little.

use second::bounds::TABLE;
use second::generate::random::Random;
use second::generate::{self, SEED};
use second::reader;

use crate::comparison::{Comparison, Mismatch};
use crate::plan::{self, Calls};
use crate::question::{Call, Question};
use crate::reader::Reader;

/// The longest file to change. In a longer one a change is likely to hit nothing but a value.
const LONGEST: usize = 300;

/// An accepted file, and what is asked of its mutants.
struct Base {
    file: Vec<u8>,
    calls: Calls,
}

/// Holds a reader to the second program on so many mutants.
pub fn compare<R: Reader>(comparison: &mut Comparison<'_, R>, count: u64) -> Result<(), Mismatch> {
    let bases = bases(&mut comparison.random);
    for number in 0..count {
        let base = &bases[comparison.random.index(bases.len())];
        let file = mutant(&mut comparison.random, base, &bases);
        of_mutant(comparison, &format!("mutant {number}"), &file, &base.calls)?;
    }
    Ok(())
}

/// A check of every mutant, and other calls mostly of those that are accepted.
fn of_mutant<R: Reader>(
    comparison: &mut Comparison<'_, R>,
    origin: &str,
    file: &[u8],
    calls: &Calls,
) -> Result<(), Mismatch> {
    let answer = comparison.ask(&Question {
        origin,
        input: file,
        call: &Call::Check,
        table: TABLE,
    })?;
    if answer == 0 || comparison.random.once_in(16) {
        for list in [&calls.right, &calls.right, &calls.wrong] {
            if !list.is_empty() {
                let call = comparison.random.pick(list);
                comparison.ask_call(origin, file, call)?;
            }
        }
        let listing = a_listing(file, answer == 0, &mut comparison.random);
        comparison.ask_call(origin, file, &listing)?;
    }
    Ok(())
}

/// A listing with one of its rooms.
fn a_listing(file: &[u8], accepted: bool, random: &mut Random) -> Call {
    let listings = match accepted {
        true => plan::listings(file, random),
        false => plan::any_listings(random),
    };
    random.pick(&listings).clone()
}

fn bases(random: &mut Random) -> Vec<Base> {
    let mut bases = Vec::new();
    for case in generate::files(SEED, generate::FILES) {
        if (1..=LONGEST).contains(&case.bytes.len()) {
            if let Ok(ledger) = reader::read(&case.bytes) {
                let calls = plan::calls(&case.bytes, &ledger, random);
                bases.push(Base {
                    calls,
                    file: case.bytes.clone(),
                });
            }
        }
    }
    bases
}

/// A file with one to three changes.
fn mutant(random: &mut Random, base: &Base, bases: &[Base]) -> Vec<u8> {
    let mut file = base.file.clone();
    for _ in 0..random.between(1, 3) {
        change(random, &mut file);
    }
    if random.once_in(8) {
        let other = &random.pick(bases).file;
        splice(random, &mut file, other);
    }
    file
}

/// Flips, replaces, puts in or takes out a byte, doubles a few, or pads the number that ends here.
pub fn change(random: &mut Random, file: &mut Vec<u8>) {
    if file.is_empty() {
        file.push(random.byte());
    }
    let at = random.index(file.len());
    let any = random.byte();
    let special = *random.pick(&[0x00, 0x01, 0x02, 0x7F, 0x80, 0xFF]);
    match random.below(9) {
        0 => file[at] ^= 1 << random.below(8),
        1 => file[at] = file[at].wrapping_add(1),
        2 => file[at] = file[at].wrapping_sub(1),
        3 => file[at] = any,
        4 => file[at] = special,
        5 => file.insert(at, special),
        6 => drop(file.remove(at)),
        7 => pad(random, file, at),
        _ => double(random, file, at),
    }
}

/// A few bytes once more behind themselves.
fn double(random: &mut Random, file: &mut Vec<u8>, at: usize) {
    let end = file.len().min(at + 1 + random.index(12));
    let again = file[at..end].to_vec();
    file.splice(end..end, again);
}

/// The last byte of a number gets padding behind it, if that is what stands there. Outside of chunks nothing else changes.
fn pad(random: &mut Random, file: &mut Vec<u8>, at: usize) {
    let mut padding = vec![0x80; random.index(8)];
    padding.push(0);
    file[at] |= 0x80;
    file.splice(at + 1..at + 1, padding);
}

/// The front of one file with the back of another.
fn splice(random: &mut Random, file: &mut Vec<u8>, other: &[u8]) {
    file.truncate(random.index(file.len() + 1));
    file.extend_from_slice(&other[random.index(other.len())..]);
}
