//! Wrong ways to count a field's values, and to write them. The comparison has to notice each of them, and by what it does
//! wrong.

use second::bounds::{OBJECTS, TABLE};
use second::generate::SEED;
use second::reader;

use crate::comparison::Comparison;
use crate::files;
use crate::reader::{Asked, Reader, Second};
use crate::wrong::quick;

/// A count that answers this, of a file and over a table.
type Count = fn(&[u8], Asked<'_>, &mut [u32]) -> i64;

/// A fill that answers and writes what this says, to an output besides.
type Fill = fn(&[u8], Asked<'_>, &mut [u32], &mut [i64]) -> i64;

/// A wrong count or a wrong fill, and the other calls as they should be.
struct Wrong {
    count: Count,
    fill: Fill,
}

impl Reader for Wrong {
    fn check(&self, file: &[u8], table: &mut [u32]) -> i64 {
        Second.check(file, table)
    }

    fn objects(&self, file: &[u8], type_name: &[u8], table: &mut [u32]) -> i64 {
        Second.objects(file, type_name, table)
    }

    fn count_values(&self, file: &[u8], asked: Asked<'_>, table: &mut [u32]) -> i64 {
        (self.count)(file, asked, table)
    }

    fn fill_values(
        &self,
        file: &[u8],
        asked: Asked<'_>,
        table: &mut [u32],
        out: &mut [i64],
    ) -> i64 {
        (self.fill)(file, asked, table, out)
    }

    fn listing(&self, file: &[u8], table: &mut [u32], text: &mut [u8]) -> i64 {
        Second.listing(file, table, text)
    }

    fn build(&self, text: &[u8], table: &mut [u32], file: &mut [u8]) -> i64 {
        Second.build(text, table, file)
    }
}

/// It is noticed, by the part that the fault is in.
fn caught(part: &str, wrong: Wrong) {
    let mut comparison = Comparison::new(&wrong, SEED);
    let outcome = files::compare(&mut comparison, "a test", &quick());
    assert_eq!(outcome.err().map(|mismatch| mismatch.part), Some(part));
}

fn caught_count(part: &str, count: Count) {
    let fill: Fill = |file, asked, table, out| Second.fill_values(file, asked, table, out);
    caught(part, Wrong { count, fill });
}

fn caught_fill(part: &str, fill: Fill) {
    let count: Count = |file, asked, table| Second.count_values(file, asked, table);
    caught(part, Wrong { count, fill });
}

// Counts.

/// The room that is enough for any field.
#[test]
fn counts_all_that_there_may_be() {
    caught_count("answer", |file, asked, table| {
        match Second.count_values(file, asked, table) {
            0.. => OBJECTS as i64,
            refusal => refusal,
        }
    });
}

/// The question about the super type of the type that is asked about, if it has one.
fn of_super<'a>(file: &'a [u8], asked: Asked<'a>) -> Option<Asked<'a>> {
    let ledger = reader::read(file).ok()?;
    let own = &ledger.types[ledger.find_type(asked.type_name)?];
    let type_name = ledger.names.bytes(ledger.types[own.super_type?].name);
    Some(Asked { type_name, ..asked })
}

/// The type has the field, and the objects of its super type are counted.
#[test]
fn counts_the_objects_of_the_super_type() {
    caught_count("answer", |file, asked, table| {
        let answer = Second.count_values(file, asked, table);
        match of_super(file, asked) {
            Some(above) if answer >= 0 => Second.objects(file, above.type_name, table),
            _ => answer,
        }
    });
}

/// A type has the fields of its super type too.
#[test]
fn counts_a_field_of_the_super_type() {
    caught_count("answer", |file, asked, table| {
        let answer = Second.count_values(file, asked, table);
        match of_super(file, asked) {
            Some(above) if answer == -17 => Second.count_values(file, above, table),
            _ => answer,
        }
    });
}

/// Nothing is lent to it, and it says that this is too little.
#[test]
fn counts_and_asks_for_room() {
    caught_count("answer", |file, asked, table| {
        match Second.count_values(file, asked, table) {
            1.. => -19,
            other => other,
        }
    });
}

/// A constant has no values in the file.
#[test]
fn counts_no_constants() {
    caught_count("answer", |file, asked, table| {
        match Second.count_values(file, asked, table) {
            1.. if asked.kind < 5 => 0,
            other => other,
        }
    });
}

#[test]
fn counts_one_too_many_or_too_few() {
    caught_count("answer", |file, asked, table| {
        match Second.count_values(file, asked, table) {
            count @ 2.. => count + 1,
            other => other,
        }
    });
    caught_count("answer", |file, asked, table| {
        match Second.count_values(file, asked, table) {
            count @ 2.. => count - 1,
            other => other,
        }
    });
}

/// Objects are counted, whatever kind is asked for.
#[test]
fn counts_without_a_look_at_the_kind() {
    caught_count("answer", |file, asked, table| {
        match Second.count_values(file, asked, table) {
            -18 => Second.objects(file, asked.type_name, table),
            other => other,
        }
    });
}

/// 18 before 16 and 17, where no field can have the kind.
#[test]
fn counts_with_the_kind_before_the_names() {
    let faults: [Count; 2] = [
        |file, asked, table| kind_before(-16, file, asked, table),
        |file, asked, table| kind_before(-17, file, asked, table),
    ];
    for fault in faults {
        caught_count("answer", fault);
    }
}

fn kind_before(refusal: i64, file: &[u8], asked: Asked<'_>, table: &mut [u32]) -> i64 {
    match Second.count_values(file, asked, table) {
        found if found == refusal && asked.kind == 5 => -18,
        other => other,
    }
}

#[test]
fn counts_and_leaves_the_table_as_lent() {
    caught_count("table", |file, asked, table| {
        Second.count_values(file, asked, &mut table.to_vec())
    });
}

#[test]
fn counts_and_clears_too_short_a_table() {
    caught_count("table", |file, asked, table| {
        let answer = Second.count_values(file, asked, table);
        if answer == -15 {
            table.fill(0);
        }
        answer
    });
}

#[test]
fn counts_over_too_short_a_table() {
    caught_count("answer", |file, asked, table| match table.len() < TABLE {
        true => Second.count_values(file, asked, &mut vec![0; TABLE]),
        false => Second.count_values(file, asked, table),
    });
}

/// The rules for values are not looked at, as they are none of a count's business.
#[test]
fn counts_in_a_file_with_a_wrong_value() {
    caught_count("answer", |file, asked, table| {
        match Second.count_values(file, asked, table) {
            -14 => 0,
            other => other,
        }
    });
}

// Fills.

/// The last value is neither written nor counted.
#[test]
fn fills_one_too_few() {
    caught_fill("answer", |file, asked, table, out| {
        let answer = all_but_the_last(file, asked, table, out);
        answer - i64::from(answer > 0)
    });
}

/// The last value is counted and not written.
#[test]
fn fills_all_but_the_last() {
    caught_fill("output", all_but_the_last);
}

fn all_but_the_last(file: &[u8], asked: Asked<'_>, table: &mut [u32], out: &mut [i64]) -> i64 {
    let lent = out.to_vec();
    let answer = Second.fill_values(file, asked, table, out);
    if answer > 0 {
        let last = answer as usize - 1;
        out[last] = lent[last];
    }
    answer
}

#[test]
fn fills_and_answers_the_room() {
    caught_fill("answer", |file, asked, table, out| {
        match Second.fill_values(file, asked, table, out) {
            0.. => out.len() as i64,
            refusal => refusal,
        }
    });
}

/// Exactly as much room as there are values does not do.
#[test]
fn fills_no_exact_room() {
    caught_fill("answer", |file, asked, table, out| {
        let lent = out.to_vec();
        let answer = Second.fill_values(file, asked, table, out);
        if answer > 0 && answer == out.len() as i64 {
            out.copy_from_slice(&lent);
            return -19;
        }
        answer
    });
}

/// One place too few is taken, and the last value is not written.
#[test]
fn fills_one_place_too_few() {
    caught_fill("answer", |file, asked, table, out| {
        let mut more = [&out[..], &[0]].concat();
        let answer = Second.fill_values(file, asked, table, &mut more);
        if answer == more.len() as i64 {
            out.copy_from_slice(&more[..out.len()]);
            return answer;
        }
        Second.fill_values(file, asked, table, out)
    });
}

/// As many values as there is room for are written, and then 19 is answered.
#[test]
fn fills_what_fits() {
    caught_fill("output", |file, asked, table, out| {
        let answer = Second.fill_values(file, asked, table, out);
        if answer == -19 {
            let mut all = vec![0; OBJECTS as usize];
            Second.fill_values(file, asked, table, &mut all);
            out.copy_from_slice(&all[..out.len()]);
        }
        answer
    });
}

/// 19 before each of the others that the call itself gives, and before one of a file.
#[test]
fn fills_with_the_room_first() {
    let faults: [Fill; 5] = [
        |file, asked, table, out| room_before(-14, file, asked, table, out),
        |file, asked, table, out| room_before(-15, file, asked, table, out),
        |file, asked, table, out| room_before(-16, file, asked, table, out),
        |file, asked, table, out| room_before(-17, file, asked, table, out),
        |file, asked, table, out| room_before(-18, file, asked, table, out),
    ];
    for fault in faults {
        caught_fill("answer", fault);
    }
}

fn room_before(
    refusal: i64,
    file: &[u8],
    asked: Asked<'_>,
    table: &mut [u32],
    out: &mut [i64],
) -> i64 {
    match Second.fill_values(file, asked, table, out) {
        found if found == refusal && out.is_empty() => -19,
        other => other,
    }
}
