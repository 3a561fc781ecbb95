//! Damage to good files: of bytes, of numbers, and of the ledger's parts.

use super::random::Random;
use super::spelling::padded;
use crate::draft::{EntryDraft, Mark, PairDraft, Role, Written};
use crate::v64;

/// One more chance damage to a file's bytes; answers what was done.
pub fn of_bytes(random: &mut Random, file: &mut Vec<u8>) -> String {
    if file.is_empty() {
        file.push(random.byte());
        return "one byte".to_string();
    }
    let at = random.index(file.len());
    match random.below(7) {
        0 => {
            file[at] ^= 1 << random.below(8);
            format!("bit flipped at {at}")
        }
        1 => {
            file[at] = random.byte();
            format!("byte changed at {at}")
        }
        2 => {
            file[at] = *random.pick(&[0x00, 0x01, 0x7F, 0x80, 0xFF]);
            format!("byte made special at {at}")
        }
        3 => {
            file.truncate(at);
            format!("cut at {at}")
        }
        4 => {
            let byte = random.byte();
            file.insert(at, byte);
            format!("byte put in at {at}")
        }
        5 => {
            file.remove(at);
            format!("byte taken out at {at}")
        }
        _ => {
            let more = random.between(1, 4);
            file.extend((0..more).map(|_| random.byte()));
            format!("{more} bytes behind")
        }
    }
}

/// Changes one number of a written file and nothing else.
pub fn of_number(random: &mut Random, written: &Written) -> (String, Vec<u8>) {
    let mark = *random.pick(&written.marks);
    let old = &written.bytes[mark.start..mark.end];
    let new = match mark.role {
        Role::StringEnd => string_end(random, old),
        _ => number(random, mark.role, old),
    };
    let label = format!("{:?} at {} changed", mark.role, mark.start);
    (label, replaced(&written.bytes, mark, &new))
}

/// The bytes with a mark's bytes replaced.
pub fn replaced(bytes: &[u8], mark: Mark, new: &[u8]) -> Vec<u8> {
    [&bytes[..mark.start], new, &bytes[mark.end..]].concat()
}

fn string_end(random: &mut Random, old: &[u8]) -> Vec<u8> {
    let value = old.iter().fold(0u32, |v, &byte| v << 8 | u32::from(byte));
    let new = match random.below(5) {
        0 => 0,
        1 => u32::MAX,
        2 => value.wrapping_sub(1),
        3 => value.wrapping_add(1),
        _ => value.wrapping_add(random.below(300) as u32),
    };
    new.to_be_bytes().to_vec()
}

fn number(random: &mut Random, role: Role, old: &[u8]) -> Vec<u8> {
    // A kind's coding can have several numbers, of which one is changed.
    let start = *random.pick(&starts(old));
    let (value, next) = v64::read(old, start).unwrap_or((0, old.len()));
    let new = match random.below(10) {
        0 => v64::coded(value.wrapping_add(1)),
        1 => v64::coded(value.wrapping_sub(1)),
        2 => v64::coded(0),
        3 => v64::coded(random.bits()),
        4 => v64::coded(*random.pick(&[31, 32, 33, 64, 127, 128, 65_535, 65_536])),
        5 => padded(value, 1),
        6 => v64::coded(u64::MAX),
        7 => v64::coded(random.below(34)),
        8 if role == Role::Restrictions => v64::coded(1),
        8 => v64::coded(value ^ 1),
        _ => v64::coded(random.below(6)),
    };
    [&old[..start], &new, &old[next..]].concat()
}

/// Where the numbers of a coding begin, the first one at least.
fn starts(coded: &[u8]) -> Vec<usize> {
    let mut starts = vec![0];
    while let Some(Ok((_, next))) = starts.last().map(|&start| v64::read(coded, start)) {
        if next == coded.len() {
            break;
        }
        starts.push(next);
    }
    starts
}

/// Changes the parts of a ledger; lengths and ends are worked out from what
/// is left, so that the damage is met late.
pub fn of_parts(random: &mut Random, pairs: &mut Vec<PairDraft>) -> String {
    if pairs.is_empty() {
        return "nothing to damage".to_string();
    }
    let index = random.index(pairs.len());
    match random.below(12) {
        0 => {
            let other = random.index(pairs.len());
            pairs.swap(index, other);
            format!("pairs {index} and {other} swapped")
        }
        1 => {
            pairs.remove(index);
            format!("pair {index} taken out")
        }
        2 => {
            let again = pairs[index].clone();
            pairs.push(again);
            format!("pair {index} once more at the end")
        }
        3 => {
            let strings = &mut pairs[index].strings;
            match strings.len() {
                0 => strings.push(Vec::new()),
                length => drop(strings.remove(random.index(length))),
            }
            format!("strings of pair {index} changed")
        }
        _ if pairs[index].entries.is_empty() => format!("no entries in pair {index}"),
        choice => {
            let entries = &mut pairs[index].entries;
            let at = random.index(entries.len());
            let what = match choice {
                4 => {
                    let other = random.index(entries.len());
                    entries.swap(at, other);
                    "swapped".to_string()
                }
                5 => {
                    entries.remove(at);
                    "taken out".to_string()
                }
                6 => {
                    let again = entries[at].clone();
                    entries.push(again);
                    "doubled".to_string()
                }
                _ => of_entry(random, &mut entries[at]),
            };
            format!("entry {at} of pair {index} {what}")
        }
    }
}

fn of_entry(random: &mut Random, entry: &mut EntryDraft) -> String {
    let choice = random.below(9);
    match choice {
        0 => entry.count = near(random, entry.count),
        1 => entry.start = entry.start.map(|start| near(random, start)),
        2 => entry.name = near(random, entry.name),
        3 => entry.super_name = entry.super_name.map(|_| random.below(9)),
        4 => entry.start = Some(random.below(4)),
        _ if entry.fields.is_empty() => return "has no fields".to_string(),
        _ => {
            let at = random.index(entry.fields.len());
            let field = &mut entry.fields[at];
            match choice {
                5 => drop(entry.fields.remove(at)),
                6 => {
                    if let Some((kind, _)) = &mut field.new {
                        *kind = any_kind(random);
                    }
                }
                7 => {
                    if let Some((_, name)) = &mut field.new {
                        *name = near(random, *name);
                    }
                }
                _ => of_chunk(random, &mut field.chunk),
            }
        }
    }
    format!("changed in way {choice}")
}

fn of_chunk(random: &mut Random, chunk: &mut Vec<u8>) {
    let length = chunk.len();
    match random.below(4) {
        0 => chunk.push(random.byte()),
        1 => drop(chunk.pop()),
        2 if length > 0 => chunk[random.index(length)] = random.byte(),
        _ if length > 0 => chunk[random.index(length)] ^= 1 << random.below(8),
        _ => chunk.push(0),
    }
}

/// The bytes of a kind that may be any.
fn any_kind(random: &mut Random) -> Vec<u8> {
    if random.once_in(4) {
        return any_map(random);
    }
    let mut kind = v64::coded(random.below(40));
    if random.once_in(2) {
        kind.extend(v64::coded(random.below(40)));
    }
    kind
}

/// The bytes of a map's kind, mostly with as many element kinds as it says.
fn any_map(random: &mut Random) -> Vec<u8> {
    let number = random.between(1, 9);
    let kinds = match random.below(6) {
        0 => random.below(10),
        _ => number,
    };
    let mut kind = [v64::coded(20), v64::coded(number)].concat();
    for _ in 0..kinds {
        kind.extend(v64::coded(random.between(4, 15)));
    }
    kind
}

fn near(random: &mut Random, value: u64) -> u64 {
    match random.below(4) {
        0 => value.wrapping_add(1),
        1 => value.wrapping_sub(1),
        2 => value.wrapping_add(random.below(5)),
        _ => random.below(8),
    }
}

/// A file cut at every place.
pub fn cuts(file: &[u8]) -> Vec<(String, Vec<u8>)> {
    (0..file.len())
        .map(|at| (format!("cut at {at}"), file[..at].to_vec()))
        .collect()
}

/// A file with every bit flipped, one at a time.
pub fn flips(file: &[u8]) -> Vec<(String, Vec<u8>)> {
    let mut out = Vec::new();
    for at in 0..file.len() {
        for bit in 0..8 {
            let mut flipped = file.to_vec();
            flipped[at] ^= 1 << bit;
            out.push((format!("bit {bit} flipped at {at}"), flipped));
        }
    }
    out
}

/// A file with some byte put in, or taken out, at every place.
pub fn shifts(file: &[u8]) -> Vec<(String, Vec<u8>)> {
    let mut out = Vec::new();
    for at in 0..file.len() {
        let mut shorter = file.to_vec();
        shorter.remove(at);
        out.push((format!("byte taken out at {at}"), shorter));
        for byte in [0x00, 0x01, 0x80, 0xFF] {
            let mut longer = file.to_vec();
            longer.insert(at, byte);
            out.push((format!("{byte:02X} put in at {at}"), longer));
        }
    }
    out
}
