//! How many values there are, and then the values: what the two calls say of
//! each other.

mod common;

use common::{build, e, e_with, table, D, END, SEVERAL};
use tidehinge::{Refusal, OBJECTS, WORK};

const SLOTS: &[u8] = include_bytes!("../../../examples/slots.skill");

/// What both calls are asked.
#[derive(Clone, Copy)]
struct Asked<'a> {
    file: &'a [u8],
    type_name: &'a str,
    field: &'a str,
    kind: u64,
}

impl Asked<'_> {
    fn count_in(self, work: &mut [u32]) -> Result<usize, Refusal> {
        let (type_name, field) = (self.type_name.as_bytes(), self.field.as_bytes());
        tidehinge::count_values(self.file, type_name, field, self.kind, work)
    }

    fn fill_in(self, work: &mut [u32], out: &mut [i64]) -> Result<usize, Refusal> {
        let (type_name, field) = (self.type_name.as_bytes(), self.field.as_bytes());
        tidehinge::fill_values(self.file, type_name, field, self.kind, work, out)
    }

    fn count(self) -> Result<usize, Refusal> {
        self.count_in(&mut table())
    }

    fn fill(self, out: &mut [i64]) -> Result<usize, Refusal> {
        self.fill_in(&mut table(), out)
    }
}

fn asked<'a>(file: &'a [u8], type_name: &'a str, field: &'a str, kind: u64) -> Asked<'a> {
    Asked {
        file,
        type_name,
        field,
        kind,
    }
}

/// The number that is counted is the number that is written: into exactly so
/// much room, and into more, whose rest is left. Into less nothing is written,
/// and there are as many values as before.
fn assert_values(asked: Asked<'_>, values: &[i64]) {
    let count = values.len();
    assert_eq!(asked.count(), Ok(count));
    for room in [count, count + 1, count + 70, OBJECTS] {
        let mut out = vec![-5; room];
        assert_eq!(asked.fill(&mut out), Ok(count), "room {room}");
        assert_eq!(out[..count], *values);
        assert!(out[count..].iter().all(|&number| number == -5));
    }
    for room in 0..count {
        let mut out = vec![-5; room];
        assert_eq!(asked.fill(&mut out), Err(Refusal::Room), "room {room}");
        assert_eq!(out, vec![-5; room]);
        assert_eq!(asked.count(), Ok(count));
    }
}

#[test]
fn as_many_are_written_as_were_counted() {
    assert_values(asked(&D, "date", "date", 11), &[1, -1]);
    assert_values(asked(&e(), "date", "date", 11), &[1, -1, 256]);
    let wear = asked(SLOTS, "drive", "wear", 11);
    assert_values(wear, &[118, 127, 255, 402, 93, 0]);
}

/// A subtype has values for its own objects alone.
#[test]
fn of_a_type_and_of_its_subtype() {
    assert_values(asked(&SEVERAL, "a", "b", 0), &[3, 3]);
    assert_values(asked(&SEVERAL, "a", "c", 6), &[1, 0]);
    assert_values(asked(&SEVERAL, "b", "a", 32), &[2]);
    assert_values(asked(&SEVERAL, "b", "b", 14), &[3]);
}

/// A type `a` of so many objects with a field for each kind of constant, `b` to
/// `f`.
fn constants(objects: usize) -> Vec<u8> {
    let strings = "str\t61\nstr\t62\nstr\t63\nstr\t64\nstr\t65\nstr\t66\n";
    let fields = [
        "new\t0,-128\t2\n",
        "new\t1,300\t3\n",
        "new\t2,-70000\t4\n",
        "new\t3,5000000000\t5\n",
        "new\t4,-1\t6\n",
    ];
    let fields = fields.concat();
    let text = format!("pair\t6\t1\n{strings}type\t1\t0\t-\t{objects}\t5\n{fields}");
    build(&text).expect("the text is a listing")
}

/// A constant has a value for each object, though none stands in the file.
#[test]
fn constants_are_counted_too() {
    for objects in [0, 1, 3] {
        let file = constants(objects);
        let values = [-128, 300, -70_000, 5_000_000_000, -1];
        let fields = ["b", "c", "d", "e", "f"];
        for (kind, (field, value)) in (0..).zip(fields.into_iter().zip(values)) {
            assert_values(asked(&file, "a", field, kind), &vec![value; objects]);
        }
        let as_a_value = asked(&file, "a", "f", 11);
        assert_eq!(as_a_value.count(), Err(Refusal::OtherKind));
    }
}

/// As many objects as there may be have as many constants.
#[test]
fn as_many_as_there_may_be() {
    let file = constants(OBJECTS);
    let last = asked(&file, "a", "f", 4);
    assert_eq!(last.count(), Ok(OBJECTS));
    let mut out = vec![5; OBJECTS];
    assert_eq!(last.fill(&mut out[1..]), Err(Refusal::Room));
    assert!(out.iter().all(|&number| number == 5));
    assert_eq!(last.fill(&mut out), Ok(OBJECTS));
    assert!(out.iter().all(|&number| number == -1));
}

/// A type without objects has no values, and they need no room.
#[test]
fn no_values() {
    let file = [
        0x01, 0x00, 0x00, 0x00, 0x01, b'a', // one string
        0x01, 0x01, 0x00, 0x00, 0x00, 0x01, // one type, no objects, one field
        0x00, 0x0B, 0x01, 0x00, // v64, ends at 0
    ];
    assert_values(asked(&file, "a", "a", 11), &[]);
}

/// What the two calls answer, where two numbers can be written.
fn both(asked: Asked<'_>, work: usize) -> [Result<usize, Refusal>; 2] {
    let counted = asked.count_in(&mut vec![1; work]);
    let filled = asked.fill_in(&mut vec![1; work], &mut [0; 2]);
    [counted, filled]
}

/// Both are asked with everything wrong, then with one thing less each time.
/// In the end only the room is, of which the first call knows nothing.
#[test]
fn refusals_in_their_order() {
    let (good, damaged) = (e(), e_with(END, 1));
    let too_long = vec![0; tidehinge::FILE + 1];
    let wrong = [
        (asked(&damaged, "day", "day", 10), WORK - 1, Refusal::Table),
        (asked(&too_long, "day", "day", 10), WORK - 1, Refusal::Table),
        (asked(&damaged, "day", "day", 10), WORK, Refusal::Chunk),
        (asked(&too_long, "day", "day", 10), WORK, Refusal::Limit),
        (asked(&good, "day", "day", 10), WORK, Refusal::NoType),
        (asked(&good, "date", "day", 10), WORK, Refusal::NoField),
        (asked(&good, "date", "date", 10), WORK, Refusal::OtherKind),
    ];
    for (asked, work, refusal) in wrong {
        assert_eq!(both(asked, work), [Err(refusal); 2]);
    }
    let right = asked(&good, "date", "date", 11);
    assert_eq!(both(right, WORK), [Ok(3), Err(Refusal::Room)]);
}

/// A week was added, or taken away, after the first call: the second answers
/// for the file that it gets, within the room that it is lent.
#[test]
fn another_file_in_between() {
    let (before, after) = (D, e());
    let before = asked(&before, "date", "date", 11);
    let after = asked(&after, "date", "date", 11);
    let mut out = vec![-5; before.count().unwrap()];
    assert_eq!(after.fill(&mut out), Err(Refusal::Room));
    assert_eq!(out, [-5, -5]);
    let mut out = vec![-5; after.count().unwrap()];
    assert_eq!(before.fill(&mut out), Ok(2));
    assert_eq!(out, [1, -1, -5]);
}
