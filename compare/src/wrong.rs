//! Wrong readers. The comparison has to notice each of them, and by what it does wrong.

use second::bounds::TABLE;
use second::generate::{self, Case, SEED};

use crate::builds;
use crate::comparison::Comparison;
use crate::files;
use crate::mutants;
use crate::reader::{Asked, Reader, Second};

/// What the second program has answered and left, for a fault to be put in.
struct Left<'a> {
    file: &'a [u8],
    type_name: &'a [u8],
    answer: i64,
    table: &'a mut [u32],
    /// The output of a field's values.
    out: &'a mut [i64],
    /// The same as it was lent.
    lent: Vec<i64>,
    /// The output of a listing.
    text: &'a mut [u8],
    /// The same as it was lent.
    lent_text: Vec<u8>,
}

impl<'a> Left<'a> {
    /// What a call without names and output leaves.
    fn of(file: &'a [u8], answer: i64, table: &'a mut [u32]) -> Self {
        Left {
            file,
            type_name: &[],
            answer,
            table,
            out: &mut [],
            lent: Vec::new(),
            text: &mut [],
            lent_text: Vec::new(),
        }
    }
}

/// A reader that spoils what the second program leaves, and answers what the fault says.
struct Spoiled(fn(Left<'_>) -> i64);

impl Reader for Spoiled {
    fn check(&self, file: &[u8], table: &mut [u32]) -> i64 {
        let answer = Second.check(file, table);
        (self.0)(Left::of(file, answer, table))
    }

    fn objects(&self, file: &[u8], type_name: &[u8], table: &mut [u32]) -> i64 {
        let answer = Second.objects(file, type_name, table);
        (self.0)(Left {
            type_name,
            ..Left::of(file, answer, table)
        })
    }

    fn count_values(&self, file: &[u8], asked: Asked<'_>, table: &mut [u32]) -> i64 {
        let answer = Second.count_values(file, asked, table);
        (self.0)(Left {
            type_name: asked.type_name,
            ..Left::of(file, answer, table)
        })
    }

    fn fill_values(
        &self,
        file: &[u8],
        asked: Asked<'_>,
        table: &mut [u32],
        out: &mut [i64],
    ) -> i64 {
        let lent = out.to_vec();
        let answer = Second.fill_values(file, asked, table, out);
        (self.0)(Left {
            type_name: asked.type_name,
            out,
            lent,
            ..Left::of(file, answer, table)
        })
    }

    fn listing(&self, file: &[u8], table: &mut [u32], text: &mut [u8]) -> i64 {
        let lent_text = text.to_vec();
        let answer = Second.listing(file, table, text);
        (self.0)(Left {
            text,
            lent_text,
            ..Left::of(file, answer, table)
        })
    }

    /// Wrong builders have a page of their own.
    fn build(&self, text: &[u8], table: &mut [u32], file: &mut [u8]) -> i64 {
        Second.build(text, table, file)
    }
}

/// Generated files that are quick to ask about.
pub fn quick() -> Vec<Case> {
    let mut cases = generate::files(SEED, 200);
    cases.retain(|case| case.bytes.len() <= 600);
    cases
}

/// What of a reader with this fault was noticed.
fn noticed(cases: &[Case], fault: fn(Left<'_>) -> i64) -> Option<&'static str> {
    let reader = Spoiled(fault);
    let mut comparison = Comparison::new(&reader, SEED);
    let outcome = files::compare(&mut comparison, "a test", cases);
    outcome.err().map(|mismatch| mismatch.part)
}

/// A fault is noticed, by the part that it is in.
fn caught(part: &str, fault: fn(Left<'_>) -> i64) {
    assert_eq!(noticed(&quick(), fault), Some(part));
}

#[test]
fn the_second_program_agrees_with_itself_and_meets_everything() {
    let mut comparison = Comparison::new(&Second, SEED);
    assert!(files::compare(&mut comparison, "a test", &quick()).is_ok());
    assert!(builds::damaged(&mut comparison, &builds::sheets(200), 5).is_ok());
    assert_eq!(comparison.met.missing(), Vec::<String>::new());
    assert!(comparison.met.calls() > 10_000);
    assert!(mutants::compare(&mut comparison, 2_000).is_ok());
    assert_eq!(comparison.met.impossible(), Vec::<String>::new());
}

#[test]
fn an_idle_comparison_is_noticed() {
    let accepted = [Case::ruled("empty", 0, Vec::new())];
    let mut comparison = Comparison::new(&Second, SEED);
    assert!(files::compare(&mut comparison, "a test", &accepted).is_ok());
    let missing = comparison.met.missing();
    #[rustfmt::skip]
    let never = [
        "check #1", "objects #21",
        "count_values done", "count_values #17", "count_values #18",
        "fill_values done", "fill_values #17", "fill_values #18", "fill_values #19",
        "listing #14", "listing #19", "build #19", "build #20",
    ];
    for answer in never {
        assert!(missing.iter().any(|said| said == answer), "{answer}");
    }
    #[rustfmt::skip]
    let met = [
        "check done", "count_values #16", "fill_values #16",
        "listing done", "listing #15", "build done", "build #15",
    ];
    #[rustfmt::skip]
    let impossible = [
        "check #2", "check #8", "count_values #19", "fill_values #20",
        "listing #16", "listing #20", "build #1", "build #16",
    ];
    for answer in met.into_iter().chain(impossible) {
        assert!(missing.iter().all(|said| said != answer), "{answer}");
    }
}

#[test]
fn refuses_everything() {
    for fault in [|_: Left<'_>| -1, |_: Left<'_>| -15] {
        caught("answer", fault);
    }
}

#[test]
fn fixed_answer() {
    for fault in [|_: Left<'_>| 0, |_: Left<'_>| 3] {
        caught("answer", fault);
    }
}

#[test]
fn writes_nothing() {
    caught("output", |left| {
        left.out.copy_from_slice(&left.lent);
        left.answer
    });
}

/// The front of a file that is its first pair.
fn first_pair(file: &[u8]) -> &[u8] {
    let mut fronts = (1..=file.len()).map(|end| &file[..end]);
    let accepted = |front: &&[u8]| Second.check(front, &mut vec![0; TABLE]) == 0;
    fronts.find(accepted).unwrap_or(file)
}

#[test]
fn reads_the_first_pair_and_takes_it_for_the_whole() {
    let fault = |left: Left<'_>| match left.answer {
        -15 => -15,
        _ => Second.check(first_pair(left.file), left.table),
    };
    assert_eq!(noticed(&generate::small(), fault), Some("answer"));
}

#[test]
fn reads_the_first_pair_and_pretends_for_the_values_of_the_rest() {
    let fault = |left: Left<'_>| {
        if left.answer > 0 && !left.out.is_empty() {
            let first = first_pair(left.file);
            let read = Second.objects(first, left.type_name, left.table);
            let end = left.answer as usize;
            left.out[read.max(0) as usize..end].fill(0);
        }
        left.answer
    };
    assert_eq!(noticed(&generate::small(), fault), Some("output"));
}

#[test]
fn invented_number_of_objects() {
    caught("answer", |left| match left.answer {
        2.. if left.text.is_empty() => left.answer + 1,
        other => other,
    });
}

#[test]
fn table_not_cleared() {
    caught("table", |left| {
        if let Some(last) = left.table.get_mut(TABLE - 1) {
            *last = 1;
        }
        left.answer
    });
}

#[test]
fn table_cleared_too_far() {
    caught("table", |left| {
        if let Some(behind) = left.table.get_mut(TABLE) {
            *behind = 0;
        }
        left.answer
    });
}

#[test]
fn short_table_touched() {
    caught("table", |left| {
        if left.answer == -15 {
            left.table.fill(0);
        }
        left.answer
    });
}

#[test]
fn writes_on_a_refusal() {
    // By each refusal of the call itself, and one of a file.
    let faults: [fn(Left<'_>) -> i64; 5] = [
        |left| written_on(-14, left),
        |left| written_on(-16, left),
        |left| written_on(-17, left),
        |left| written_on(-18, left),
        |left| written_on(-19, left),
    ];
    for fault in faults {
        caught("output", fault);
    }
}

fn written_on(refusal: i64, left: Left<'_>) -> i64 {
    if left.answer == refusal {
        left.out.fill(0);
    }
    left.answer
}

#[test]
fn writes_one_number_too_many() {
    caught("output", |left| {
        let behind = usize::try_from(left.answer).ok();
        if let Some(slot) = behind.and_then(|at| left.out.get_mut(at)) {
            *slot = 0;
        }
        left.answer
    });
}

#[test]
fn last_value_wrong() {
    caught("output", |left| {
        let last = usize::try_from(left.answer - 1).ok();
        if let Some(slot) = last.and_then(|at| left.out.get_mut(at)) {
            *slot ^= 1 << 62;
        }
        left.answer
    });
}

#[test]
fn one_refusal_for_another() {
    let faults: [fn(Left<'_>) -> i64; 4] = [
        |left| swapped(left, -12, -13),
        |left| swapped(left, -4, -2),
        |left| swapped(left, -21, -3),
        |left| swapped(left, -18, -19),
    ];
    for fault in faults {
        caught("answer", fault);
    }
}

/// Whether the file of a file's listing is shorter.
fn is_padded(file: &[u8]) -> bool {
    let mut text = vec![0; 64 * file.len() + 64];
    let mut built = vec![0; file.len()];
    let mut table = vec![0; TABLE];
    let length = Second.listing(file, &mut table, &mut text);
    let length = usize::try_from(length).unwrap_or(0);
    let again = Second.build(&text[..length], &mut table, &mut built);
    length > 0 && (0..file.len() as i64).contains(&again)
}

#[test]
fn refuses_padded_numbers() {
    caught("answer", |left| match left.answer {
        0.. if is_padded(left.file) => -2,
        other => other,
    });
}

/// Of a file with padding the first value is wrong, those of other files are right.
#[test]
fn a_padded_value_wrong() {
    caught("output", |left| {
        if left.answer > 0 && !left.out.is_empty() && is_padded(left.file) {
            left.out[0] ^= 1;
        }
        left.answer
    });
}

fn swapped(left: Left<'_>, from: i64, to: i64) -> i64 {
    match left.answer {
        refusal if refusal == from => to,
        other => other,
    }
}

#[test]
fn prints_nothing() {
    caught("bytes", |left| {
        left.text.copy_from_slice(&left.lent_text);
        left.answer
    });
}

#[test]
fn prints_one_byte_too_many() {
    caught("bytes", |left| {
        let behind = usize::try_from(left.answer).ok();
        if let Some(byte) = behind.and_then(|at| left.text.get_mut(at)) {
            *byte = byte.wrapping_add(1);
        }
        left.answer
    });
}

#[test]
fn prints_on_a_refusal() {
    let faults: [fn(Left<'_>) -> i64; 4] = [
        |left| printed_on(-1, left),
        |left| printed_on(-14, left),
        |left| printed_on(-15, left),
        |left| printed_on(-19, left),
    ];
    for fault in faults {
        caught("bytes", fault);
    }
}

fn printed_on(refusal: i64, left: Left<'_>) -> i64 {
    if left.answer == refusal {
        left.text.fill(b'\n');
    }
    left.answer
}

/// The room is asked for before the file is read.
#[test]
fn room_before_the_file() {
    caught("answer", |left| match left.answer {
        -14..=-1 if left.text.len() < left.file.len() => -19,
        other => other,
    });
}

/// A listing with other lines, in the room of the right one.
fn relined(left: Left<'_>, line: fn(&str) -> String) -> i64 {
    let Ok(length) = usize::try_from(left.answer) else {
        return left.answer;
    };
    if left.text.is_empty() {
        return left.answer;
    }
    let right = String::from_utf8_lossy(&left.text[..length]).into_owned();
    let wrong: String = right.split_inclusive('\n').map(line).collect();
    left.text.copy_from_slice(&left.lent_text);
    let Some(front) = left.text.get_mut(..wrong.len()) else {
        return -19;
    };
    front.copy_from_slice(wrong.as_bytes());
    wrong.len() as i64
}

/// A line of a single value from -99 to -10 as one from 157 to 246: the length stays.
fn unsigned(line: &str) -> String {
    let value = line.strip_prefix("val\t").map(str::trim_end);
    match value.and_then(|value| value.parse().ok()) {
        Some(value @ -99..=-10i64) => format!("val\t{}\n", 256 + value),
        _ => line.to_string(),
    }
}

#[test]
fn prints_a_value_unsigned() {
    caught("bytes", |left| relined(left, unsigned));
}

#[test]
fn prints_minus_one_unsigned() {
    let fault = |left: Left<'_>| relined(left, |line| line.replace("\t-1\n", "\t255\n"));
    caught("answer", fault);
}

#[test]
fn prints_other_words() {
    let faults: [fn(Left<'_>) -> i64; 4] = [
        |left| relined(left, |line| line.replace("old", "new")),
        |left| relined(left, |line| line.replace('-', "0")),
        |left| relined(left, |line| line.replace('\t', " ")),
        |left| relined(left, |line| line.replace('f', "F")),
    ];
    for fault in faults {
        caught("bytes", fault);
    }
}

#[test]
fn invented_length_of_a_listing() {
    caught("answer", |left| match left.answer {
        2.. if !left.text.is_empty() => left.answer + 1,
        other => other,
    });
}

#[test]
fn prints_the_first_pair_and_pretends_for_the_rest() {
    let fault = |left: Left<'_>| {
        if left.answer > 0 && !left.text.is_empty() {
            let first = first_pair(left.file);
            let printed = Second.listing(first, left.table, left.text) as usize;
            left.text[printed..].copy_from_slice(&left.lent_text[printed..]);
        }
        left.answer
    };
    assert_eq!(noticed(&generate::small(), fault), Some("bytes"));
}
