//! Numbers in more bytes than they need, wherever a v64 can stand.
//!
//! A padded number has its value: a file gets the answer that its shortest
//! spelling gets, and the file of its listing is that spelling.

use super::notation::bytes;
use super::spelling::{self, padded, Parts, MOST};
use super::Case;
use crate::bounds;
use crate::draft::{self, EntryDraft, FieldDraft, PairDraft, Spell};
use crate::v64;

/// A file with padding, and its shortest spelling.
pub struct Twin {
    pub padded: Case,
    pub shortest: Vec<u8>,
}

/// All of them.
pub fn cases() -> Vec<Case> {
    let mut cases: Vec<Case> = twins().into_iter().map(|twin| twin.padded).collect();
    cases.extend(codings());
    cases.extend(cut_by_the_chunk());
    cases.extend(cut_by_the_file());
    cases.extend(ends_of_the_shortest());
    cases.extend(past_the_bound());
    cases
}

/// Those whose shortest spelling is known.
pub fn twins() -> Vec<Twin> {
    let mut twins = Vec::new();
    for base in BASES {
        twins.extend(base.twins());
    }
    twins.extend(RIGHT.iter().flat_map(|&(name, text)| marked(name, 0, text)));
    let wrong = WRONG.iter();
    twins.extend(wrong.flat_map(|&(name, refusal, text)| marked(name, refusal, text)));
    twins.push(at_the_bound());
    twins
}

/// A file with v64 numbers in many places.
struct Base {
    name: &'static str,
    text: &'static str,
    /// How much padding each of its numbers gets, one at a time.
    padding: &'static [usize],
}

/// Every length that a number can have.
const EVERY: &[usize] = &[1, 2, 3, 4, 5, 6, 7, MOST];
const LEAST_AND_MOST: &[usize] = &[1, MOST];

const BASES: &[Base] = &[
    Base {
        name: "E",
        text: "1 =00000004 'date 1 1 0 2 0 1 0 B 1 ^ [ 1 FFFFFFFFFFFFFFFF ] 0 1 1 1 1 ^ [ 100 ]",
        padding: EVERY,
    },
    // A type and one below it, in two blocks.
    Base {
        name: "tree",
        text: "P 2 1 0 3 0 0 2 1 1 2 0 1 0 E 3 ^ [ 5 0 ] 0 2 1 1 0 2 0 1 1 ^ [ 4 ]",
        padding: EVERY,
    },
    // A constant, a fixed array, arrays of strings and references, a set of
    // annotations, a map of three types, another constant.
    Base {
        name: "kinds",
        text: "7 =00000001 =00000002 =00000003 =00000004 =00000005 =00000006 =00000007 'abcdefg \
            1 1 0 1 0 7 0 4 80 1 ^ 0 F 2 B 2 ^ 0 11 E 3 ^ 0 12 20 4 ^ 0 13 5 5 ^ 0 14 3 B 20 5 6 ^ \
            0 0 =80 7 ^ \
            [ ] [ 7F 80 ] [ 2 7 0 ] [ 1 1 ] [ 2 1 1 0 0 ] [ 1 3E8 2 1 1 1 0 0 0 ] [ ]",
        padding: LEAST_AND_MOST,
    },
    // Known fields, of which one is a constant, and a late one.
    Base {
        name: "late",
        text: "Q 1 1 0 1 0 2 0 B 1 ^ 0 4 5 2 ^ [ 7 ] [ ] \
            1 =00000001 'c 1 1 2 3 ^ ^ 0 20 3 ^ [ 8 9 ] [ ] [ 1 0 3 ]",
        padding: LEAST_AND_MOST,
    },
];

impl Base {
    /// All numbers padded, half of them, and one at a time.
    fn twins(&self) -> Vec<Twin> {
        let parts = Parts::of(self.text);
        let twin = |what: &str, file: Vec<u8>| Twin {
            padded: Case::ruled(&format!("{}, padded: {what}", self.name), 0, file),
            shortest: parts.shortest(),
        };
        let mut twins = vec![
            twin("all in nine bytes", parts.nine()),
            twin("all by one", parts.spelt(|_| 1)),
            twin("every other by one", parts.spelt(|place| place % 2)),
        ];
        for place in 0..parts.numbers() {
            let mut before = parts.shortest();
            for &padding in self.padding {
                let file = parts.with(place, padding);
                // Nine bytes are the most, and then nothing changes any more.
                if file != before {
                    twins.push(twin(&format!("number {place} by {padding}"), file.clone()));
                }
                before = file;
            }
        }
        twins
    }
}

/// The marked number with least and most padding, and all numbers with most.
fn marked(name: &str, answer: u8, text: &str) -> Vec<Twin> {
    let parts = Parts::of(text);
    let twin = |what: &str, file: Vec<u8>| Twin {
        padded: Case::ruled(&format!("{name}, {what}"), answer, file),
        shortest: parts.shortest(),
    };
    vec![
        twin("padded by one", parts.with_marked(1)),
        twin("in nine bytes", parts.with_marked(MOST)),
        twin("all in nine bytes", parts.nine()),
    ]
}

/// Numbers that just keep a rule.
const RIGHT: &[(&str, &str)] = &[
    ("the last string", "P 1 1 0 1 0 1 0 E 1 ^ [ ~5 ]"),
    ("the last object", "P 1 1 0 3 0 1 0 20 1 ^ [ ~3 0 1 ]"),
    ("the last name", "P 1 ~5 0 1 0 0"),
    ("the last type", "P 2 1 0 1 0 1 0 ~21 1 ^ 2 0 0 0 0 [ 0 ]"),
    ("a local start", "P 2 1 0 3 0 0 2 1 ~2 1 0 0"),
    ("a count that fills its range", "P 2 1 0 3 0 0 2 1 0 ~3 0 0"),
    ("65535 objects", "P 1 1 0 ~FFFF 0 0"),
    ("no fields", "P 1 1 0 1 0 ~0"),
    (
        "eight types",
        "P 1 1 0 1 0 1 0 14 ~8 6 6 6 6 6 6 6 6 1 ^ [ 0 ]",
    ),
    ("a length of 65535", "P 1 1 0 0 0 1 0 F ~FFFF 8 1 ^ [ ]"),
    ("an annotated object", "P 1 1 0 2 0 1 0 5 1 ^ [ 1 ~2 0 0 ]"),
    ("a null annotation", "P 1 1 0 1 0 1 0 5 1 ^ [ 0 ~0 ]"),
    (
        "2^56 - 1",
        "P 1 1 0 2 0 1 0 B 1 ^ [ ~FFFFFFFFFFFFFF FFFFFFFFFFFFFFFF ]",
    ),
    ("no strings", "~0 0"),
    ("no entries", "0 ~0"),
];

/// Numbers that break a rule: what is wrong, the refusal, the file.
const WRONG: &[(&str, u8, &str)] = &[
    ("1025 strings", 3, "~401"),
    ("65536 entries", 3, "P ~10000"),
    ("one entry, its name due", 1, "P ~1"),
    ("name 0", 5, "P 1 ~0"),
    ("name 6 of 5", 5, "P 1 ~6"),
    ("a second entry", 6, "P 2 1 0 0 0 0 ~1"),
    ("super name 6 of 5", 5, "P 1 1 ~6"),
    ("a super name that is no type", 7, "P 1 1 ~2"),
    ("a super name that is its own", 7, "P 1 1 ~1"),
    ("a local start of 65536", 3, "P 2 1 0 1 0 0 2 1 ~10000"),
    ("a local start past the range", 21, "P 2 1 0 1 0 0 2 1 ~1 1"),
    ("a local start, count 0", 21, "P 2 1 0 1 0 0 2 1 ~1 0"),
    ("65536 objects", 3, "P 1 1 0 ~10000"),
    ("65536 objects of two types", 3, "P 2 1 0 FFFF 0 0 2 0 ~1"),
    ("a count past the range", 21, "P 2 1 0 1 0 0 2 1 0 ~2"),
    ("a restriction of a type", 9, "P 1 1 0 1 ~1"),
    ("129 fields", 3, "P 1 1 0 1 0 ~81"),
    (
        "fewer fields than known",
        11,
        "Q 1 1 0 1 0 1 0 B 1 ^ [ 7 ] 0 1 1 1 ~0",
    ),
    ("a restriction of a field", 9, "P 1 1 0 1 0 1 ~1"),
    ("kind 16", 10, "P 1 1 0 1 0 1 0 ~10"),
    ("kind 21", 10, "P 1 1 0 1 0 1 0 ~15"),
    ("kind 31", 10, "P 1 1 0 1 0 1 0 ~1F"),
    ("kind 33 of one type", 10, "P 1 1 0 1 0 1 0 ~21 1 ^ [ 0 ]"),
    ("a length of 65536", 3, "P 1 1 0 1 0 1 0 F ~10000"),
    ("element kind 4", 10, "P 1 1 0 1 0 1 0 11 ~4"),
    ("element kind 15", 10, "P 1 1 0 1 0 1 0 F 2 ~F"),
    ("one type of a map", 10, "P 1 1 0 1 0 1 0 14 ~1"),
    ("nine types of a map", 10, "P 1 1 0 1 0 1 0 14 ~9"),
    ("a map's element kind 20", 10, "P 1 1 0 1 0 1 0 14 2 6 ~14"),
    ("field name 0", 5, "P 1 1 0 1 0 1 0 B ~0"),
    ("field name 6 of 5", 5, "P 1 1 0 1 0 1 0 B ~6"),
    (
        "a field name that is used",
        6,
        "P 1 1 0 1 0 2 0 B 2 0 0 B ~2",
    ),
    ("an end that falls", 4, "P 1 1 0 1 0 2 0 7 2 1 0 7 3 ~0 =05"),
    ("an end past the file", 1, "P 1 1 0 1 0 1 0 7 1 ~2 =05"),
    (
        "an end, one byte left over",
        12,
        "P 1 1 0 1 0 1 0 7 1 ~2 =0506",
    ),
    (
        "an end, one byte missing",
        12,
        "P 1 1 0 1 0 1 0 8 1 ~1 =0506",
    ),
    (
        "a count, one value missing",
        12,
        "P 1 1 0 ~2 0 1 0 7 1 ^ [ =05 ]",
    ),
    ("string 6 of 5", 14, "P 1 1 0 1 0 1 0 E 1 ^ [ ~6 ]"),
    ("object 2 of 1", 14, "P 1 1 0 1 0 1 0 20 1 ^ [ ~2 ]"),
    (
        "an annotation by string 6 of 5",
        14,
        "P 1 1 0 1 0 1 0 5 1 ^ [ ~6 1 ]",
    ),
    (
        "an annotation by no type",
        14,
        "P 1 1 0 1 0 1 0 5 1 ^ [ ~2 1 ]",
    ),
    (
        "an annotation, object 2 of 1",
        14,
        "P 1 1 0 1 0 1 0 5 1 ^ [ 1 ~2 ]",
    ),
    ("half-null, first", 14, "P 1 1 0 1 0 1 0 5 1 ^ [ ~0 1 ]"),
    ("half-null, second", 14, "P 1 1 0 1 0 1 0 5 1 ^ [ 1 ~0 ]"),
    (
        "an array of 65536",
        3,
        "P 1 1 0 1 0 1 0 11 6 1 ^ [ ~10000 ]",
    ),
    (
        "an array with a wrong bool",
        13,
        "P 1 1 0 1 0 1 0 11 6 1 ^ [ ~2 =FF01 ]",
    ),
    (
        "a list, one missing",
        12,
        "P 1 1 0 1 0 1 0 12 6 1 ^ [ ~3 =FF00 ]",
    ),
    (
        "a set, one left over",
        12,
        "P 1 1 0 1 0 1 0 13 6 1 ^ [ ~1 =FF00 ]",
    ),
    (
        "a map of 65536",
        3,
        "P 1 1 0 1 0 1 0 14 2 6 6 1 ^ [ ~10000 ]",
    ),
    (
        "a map with a wrong key",
        13,
        "P 1 1 0 1 0 1 0 14 2 6 6 1 ^ [ ~1 =01FF ]",
    ),
    (
        "a map, one key missing",
        12,
        "P 1 1 0 1 0 1 0 14 2 6 6 1 ^ [ ~2 =FF00 ]",
    ),
    (
        "an inner map of 65536",
        3,
        "P 1 1 0 1 0 1 0 14 3 6 6 6 1 ^ [ 1 =FF ~10000 ]",
    ),
    (
        "a key, string 6 of 5",
        14,
        "P 1 1 0 1 0 1 0 14 2 E B 1 ^ [ 1 ~6 0 ]",
    ),
    (
        "a map's value, object 2 of 1",
        14,
        "P 1 1 0 1 0 1 0 14 2 B 20 1 ^ [ 1 0 ~2 ]",
    ),
];

/// Codings of nine bytes by their last one, and what is behind them. The
/// answer and the file; in its chunk the bytes stand as they are.
const CODINGS: &[(&str, u8, &str)] = &[
    ("80 and 00", 0, "P 01 01 00 01 00 01 00 0B 01 [ 80 00 ]"),
    (
        "ninth byte 00",
        0,
        "P 01 01 00 01 00 01 00 0B 01 [ 80*8 00 ]",
    ),
    (
        "ninth byte 01",
        0,
        "P 01 01 00 01 00 01 00 0B 01 [ 80*8 01 ]",
    ),
    (
        "ninth byte 7F",
        0,
        "P 01 01 00 01 00 01 00 0B 01 [ FF*8 7F ]",
    ),
    (
        "ninth byte 80",
        0,
        "P 01 01 00 01 00 01 00 0B 01 [ 85 80*7 80 ]",
    ),
    (
        "ninth byte 81",
        0,
        "P 01 01 00 01 00 01 00 0B 01 [ 85 80*7 81 ]",
    ),
    (
        "ninth byte FE",
        0,
        "P 01 01 00 01 00 01 00 0B 01 [ FF*8 FE ]",
    ),
    (
        "FF eight times and 00",
        0,
        "P 01 01 00 01 00 01 00 0B 01 [ FF*8 00 ]",
    ),
    (
        "bits in every byte, 00 last",
        0,
        "P 01 01 00 01 00 01 00 0B 01 [ 81 82 84 88 90 A0 C0 81 00 ]",
    ),
    (
        "bits before the padding",
        0,
        "P 01 01 00 01 00 01 00 0B 01 [ 81 82 80 80 80 00 ]",
    ),
    (
        "all lengths of 5",
        0,
        "P 01 01 00 09 00 01 00 0B 01 [ 05 8500 858000 85808000 8580808000 \
        85 80*4 00 85 80*5 00 85 80*6 00 85 80*7 00 ]",
    ),
    (
        "all lengths of 256",
        0,
        "P 01 01 00 08 00 01 00 0B 01 [ 8002 808200 80828000 8082808000 \
        8082 80*3 00 8082 80*4 00 8082 80*5 00 8082 80*6 00 ]",
    ),
    (
        "nine bytes, then 00: two values",
        0,
        "P 01 01 00 02 00 01 00 0B 01 [ 80*9 00 ]",
    ),
    (
        "nine bytes, then 00: one left over",
        12,
        "P 01 01 00 01 00 01 00 0B 01 [ 80*9 00 ]",
    ),
    (
        "nine bytes, then 80: one cut",
        12,
        "P 01 01 00 02 00 01 00 0B 01 [ 80*9 80 ]",
    ),
    (
        "nine bytes of padding, then 00",
        12,
        "P 01 01 00 01 00 01 00 0B 01 [ 85 80*7 00 00 ]",
    ),
    (
        "a constant in nine bytes",
        0,
        "P 01 01 00 01 00 01 00 04 FF*8 00 01 00",
    ),
    (
        "a constant, ninth byte FF",
        0,
        "P 01 01 00 01 00 01 00 04 80*8 FF 01 00",
    ),
    ("2^63 strings", 3, "80*9"),
    ("2^56 strings", 3, "80*8 01"),
    ("2^63 + 1 strings", 3, "81 80*8"),
    ("a name of 2^63 + 1", 5, "P 01 81 80*8 00 00 00 00"),
    ("a name of 2^56 + 1", 5, "P 01 81 80*7 01 00 00 00 00"),
    ("a count of 2^63 + 1", 3, "P 01 01 00 81 80*8 00 00"),
    (
        "a kind of 2^63 + 11",
        10,
        "P 01 01 00 01 00 01 00 8B 80*8 01 00",
    ),
    (
        "a kind of 2^56 + 11",
        10,
        "P 01 01 00 01 00 01 00 8B 80*7 01 01 00",
    ),
    (
        "an end of 2^63 + 1",
        1,
        "P 01 01 00 01 00 01 00 07 01 81 80*8 05",
    ),
    (
        "string 2^63 + 1",
        14,
        "P 01 01 00 01 00 01 00 0E 01 [ 81 80*8 ]",
    ),
    (
        "object 2^63 + 1",
        14,
        "P 01 01 00 01 00 01 00 20 01 [ 81 80*8 ]",
    ),
    (
        "an array of 2^63 + 1",
        3,
        "P 01 01 00 01 00 01 00 11 06 01 [ 81 80*8 FF ]",
    ),
    (
        "a map of 2^63 + 1",
        3,
        "P 01 01 00 01 00 01 00 14 02 06 06 01 [ 81 80*8 FFFF ]",
    ),
];

fn codings() -> impl Iterator<Item = Case> {
    let rows = CODINGS.iter();
    rows.map(|&(name, answer, text)| Case::ruled(&format!("coding: {name}"), answer, bytes(text)))
}

/// Where a number stands in a chunk: the field's kind, and what is before it.
const IN_CHUNKS: &[(&str, &str)] = &[
    ("0B", ""),
    ("0E", ""),
    ("20", ""),
    ("05", ""),
    ("05", "01"),
    ("0F 02 0E", "01"),
    ("11 0B", ""),
    ("12 0B", "02 05"),
    ("13 05", "01 01"),
    ("14 02 0B 0B", ""),
    ("14 02 0B 0B", "01"),
    ("14 02 0B 0B", "01 05"),
    ("14 03 07 07 0B", "01 05"),
    ("14 03 07 07 0B", "01 05 01 06"),
];

/// The chunk ends in the padding of a 1, whose other bytes stand behind it.
fn cut_by_the_chunk() -> Vec<Case> {
    let mut cases = Vec::new();
    for (kind, before) in IN_CHUNKS {
        let chunk = [bytes(before), padded(1, MOST)].concat();
        for cut in 1..=MOST {
            let end = chunk.len() - cut;
            let front = bytes(&format!("P 01 01 00 01 00 01 00 {kind} 01 {end:02X}"));
            let label = format!("kind {kind}, {cut} bytes of a padded 1 behind the chunk");
            cases.push(Case::ruled(&label, 12, [front, chunk.clone()].concat()));
        }
    }
    cases
}

/// File E with all numbers in nine bytes, cut at every place. Nothing but the
/// end of its first pair is the end of a file.
fn cut_by_the_file() -> Vec<Case> {
    let file = Parts::of(BASES[0].text).nine();
    let first_pair =
        Parts::of("1 =00000004 'date 1 1 0 2 0 1 0 B 1 ^ [ 1 FFFFFFFFFFFFFFFF ]").nine();
    let cut = |end: usize| {
        let answer = match end {
            0 => 0,
            _ if end == first_pair.len() => 0,
            _ => 1,
        };
        let label = format!("E in nine bytes, cut at {end}");
        Case::ruled(&label, answer, file[..end].to_vec())
    };
    (0..file.len()).map(cut).collect()
}

/// Chunks that are padded while their ends are those of the shortest ones, and
/// the other way round.
fn ends_of_the_shortest() -> Vec<Case> {
    let rows: &[(&str, u8, &str)] = &[
        (
            "a value crosses",
            12,
            "P 01 01 00 01 00 01 00 0B 01 01 85 00",
        ),
        (
            "the second value is missing",
            12,
            "P 01 01 00 02 00 01 00 0B 01 02 85 00 05",
        ),
        (
            "the first chunk takes one",
            12,
            "P 01 01 00 01 00 02 00 0B 01 01 00 0B 02 02 85 00 05",
        ),
        (
            "the second chunk's end too",
            12,
            "P 01 01 00 01 00 02 00 0B 01 02 00 0B 02 03 85 00 86 00",
        ),
        (
            "one byte left over",
            12,
            "P 01 01 00 01 00 01 00 0B 01 03 85 00 00",
        ),
        (
            "ends of the padded ones",
            0,
            "P 01 01 00 01 00 02 00 0B 01 02 00 0B 02 04 85 00 86 00",
        ),
        (
            "ends padded, chunks not",
            0,
            "P 01 01 00 01 00 02 00 0B 01 8100 00 0B 02 8200 05 06",
        ),
        (
            "an end of nine bytes for all",
            1,
            "P 01 01 00 01 00 01 00 0B 01 89 80*7 00 05",
        ),
    ];
    let rows = rows.iter();
    rows.map(|&(name, answer, text)| {
        let label = format!("padded chunks, {name}");
        Case::ruled(&label, answer, bytes(text))
    })
    .collect()
}

/// A file of this length whose shortest spelling is far below the bound: two
/// columns in nine bytes, and a string that fills it up.
fn long(length: usize) -> [Vec<u8>; 2] {
    let spelt = |fill: usize, spell: Spell| {
        let field = |name: u64| {
            let mut chunk = Vec::new();
            (0..OBJECTS).for_each(|object| spell(&mut chunk, object % 300));
            FieldDraft {
                new: Some((v64::coded(11), name)),
                chunk,
            }
        };
        let entry = EntryDraft {
            name: 1,
            super_name: Some(0),
            start: None,
            count: OBJECTS,
            fields: vec![field(1), field(2)],
        };
        let pair = PairDraft {
            strings: vec![b"a".to_vec(), vec![b'x'; fill]],
            entries: vec![entry],
        };
        draft::write_spelt(&[pair], spell)
    };
    let fill = length - spelt(0, spelling::nine).len();
    [spelling::nine, v64::write].map(|spell| spelt(fill, spell))
}

/// So many values in two columns take nearly all bytes that a file can have.
const OBJECTS: u64 = 58_000;

fn at_the_bound() -> Twin {
    let [file, shortest] = long(bounds::FILE);
    Twin {
        padded: Case::ruled("1048576 bytes of padded numbers", 0, file),
        shortest,
    }
}

/// The bound is the file's as it is spelt.
fn past_the_bound() -> Vec<Case> {
    let [file, _] = long(bounds::FILE + 1);
    vec![Case::ruled("1048577 bytes of padded numbers", 3, file)]
}
