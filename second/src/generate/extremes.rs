//! Files at each bound of the paper and one beyond it.

use super::notation::bytes;
use super::Case;
use crate::bounds;
use crate::draft::{self, EntryDraft, FieldDraft, PairDraft, Written};
use crate::v64;

/// All of them; some have a megabyte.
pub fn cases() -> Vec<Case> {
    let mut cases = Vec::new();
    cases.extend(file_length());
    cases.extend(pairs());
    cases.extend(strings());
    cases.extend(types());
    cases.extend(fields());
    cases.extend(objects());
    cases.extend(starts());
    cases.extend(fixed_lengths());
    cases.extend(array_lengths());
    cases.extend(map_sizes());
    cases.extend(reaches());
    cases
}

fn case(label: &str, answer: u8, pairs: &[PairDraft]) -> Case {
    Case::ruled(label, answer, draft::write(pairs))
}

/// Names of two bytes, all different.
fn names(count: usize) -> Vec<Vec<u8>> {
    (0..count)
        .map(|index| vec![b'A' + (index / 64) as u8, b'0' + (index % 64) as u8])
        .collect()
}

fn pair(strings: Vec<Vec<u8>>, entries: Vec<EntryDraft>) -> PairDraft {
    PairDraft { strings, entries }
}

/// A new base type.
fn base(name: u64, count: u64, fields: Vec<FieldDraft>) -> EntryDraft {
    EntryDraft {
        name,
        super_name: Some(0),
        start: None,
        count,
        fields,
    }
}

/// A new type under another.
fn sub(name: u64, above: u64, start: u64, count: u64) -> EntryDraft {
    EntryDraft {
        name,
        super_name: Some(above),
        start: Some(start),
        count,
        fields: Vec::new(),
    }
}

/// A known base type.
fn known(name: u64, count: u64, fields: Vec<FieldDraft>) -> EntryDraft {
    EntryDraft {
        name,
        super_name: None,
        start: None,
        count,
        fields,
    }
}

/// A new field by its kind's bytes.
fn new(kind: &str, name: u64, chunk: Vec<u8>) -> FieldDraft {
    FieldDraft {
        new: Some((bytes(kind), name)),
        chunk,
    }
}

fn old(chunk: Vec<u8>) -> FieldDraft {
    FieldDraft { new: None, chunk }
}

/// New constant fields with the names `first` upwards.
fn constants(first: u64, count: u64) -> Vec<FieldDraft> {
    (first..first + count)
        .map(|name| new("00 05", name, Vec::new()))
        .collect()
}

/// Known constant fields.
fn old_constants(count: usize) -> Vec<FieldDraft> {
    (0..count).map(|_| old(Vec::new())).collect()
}

fn file_length() -> Vec<Case> {
    // A number of strings, one end, the string, a number of entries.
    let filling = |length: usize| {
        let text = vec![b'x'; length - 6];
        draft::write(&[pair(vec![text], Vec::new())])
    };
    // Nearly a megabyte of values, the rest filled by a string.
    let region = |length: usize| {
        let values = new("0F 0F 07", 1, vec![0x80; 15 * 65_535]);
        let first = pair(names(1), vec![base(1, 65_535, vec![values])]);
        let mut file = draft::write(&[first]);
        let rest = vec![b'y'; length - file.len() - 6];
        file.extend(draft::write(&[pair(vec![rest], Vec::new())]));
        file
    };
    let mut cut = filling(bounds::FILE);
    cut.pop();
    vec![
        Case::ruled("file of 1048576 bytes", 0, filling(bounds::FILE)),
        Case::ruled("file of 1048577 bytes", 3, filling(bounds::FILE + 1)),
        Case::ruled("file of 1048576 bytes, cut by one", 1, cut),
        Case::ruled("file of 1048576 bytes with values", 0, region(bounds::FILE)),
        Case::ruled("1048576 bytes of 00", 3, vec![0; bounds::FILE]),
        Case::ruled("1048577 bytes of 00", 3, vec![0; bounds::FILE + 1]),
    ]
}

fn pairs() -> Vec<Case> {
    let first = pair(names(2), vec![base(1, 1, vec![new("0B", 2, vec![1])])]);
    let more = pair(Vec::new(), vec![known(1, 1, vec![old(vec![2])])]);
    let many = |count: usize| {
        let mut list = vec![first.clone()];
        list.resize(count, more.clone());
        list
    };
    vec![
        case("32 pairs with objects", 0, &many(32)),
        case("33 pairs with objects", 3, &many(33)),
        case("40 pairs with objects", 3, &many(40)),
    ]
}

fn strings() -> Vec<Case> {
    let blocks = |count: usize, each: usize, last: usize| {
        let mut list = vec![pair(names(each), Vec::new()); count];
        list.push(pair(names(last), Vec::new()));
        list
    };
    vec![
        case("1024 strings in one block", 0, &blocks(0, 0, 1024)),
        case("1025 strings in one block", 3, &blocks(0, 0, 1025)),
        case("1024 strings in 32 blocks", 0, &blocks(31, 33, 1)),
        case("1025 strings in 32 blocks", 3, &blocks(31, 33, 2)),
        case("1024 strings in two blocks", 0, &blocks(1, 1023, 1)),
        case("1025 strings in two blocks", 3, &blocks(1, 1023, 2)),
        case("no string after 1024", 0, &blocks(1, 1024, 0)),
        case("a string after 1024", 3, &blocks(1, 1024, 1)),
    ]
}

fn types() -> Vec<Case> {
    let bases = |from: u64, to: u64| (from..=to).map(|name| base(name, 1, Vec::new())).collect();
    let all: Vec<EntryDraft> = bases(1, 32);
    let full = pair(names(40), all.clone());
    let with = |entry: EntryDraft| {
        let mut entries = all.clone();
        entries.push(entry);
        vec![pair(names(40), entries)]
    };
    let after = |entry: EntryDraft| vec![full.clone(), pair(Vec::new(), vec![entry])];
    let every: Vec<EntryDraft> = (1..=32).map(|name| known(name, 1, Vec::new())).collect();
    let chain = |last: u64| {
        let mut entries = vec![base(1, 1, Vec::new())];
        entries.extend((2..=last).map(|name| sub(name, name - 1, 0, 1)));
        vec![pair(names(40), entries)]
    };
    vec![
        case("32 types in one block", 0, std::slice::from_ref(&full)),
        case("33 types in one block", 3, &with(base(33, 1, Vec::new()))),
        case(
            "name 0 where 32 types are there",
            5,
            &with(base(0, 1, Vec::new())),
        ),
        case(
            "name too large where 32 types are there",
            5,
            &with(base(41, 1, Vec::new())),
        ),
        case(
            "second entry where 32 types are there",
            6,
            &with(known(7, 1, Vec::new())),
        ),
        case(
            "33rd type in a later block",
            3,
            &after(base(33, 0, Vec::new())),
        ),
        case(
            "33rd type in a later block, name 0",
            5,
            &after(base(0, 0, Vec::new())),
        ),
        case(
            "known type in a later block after 32",
            0,
            &after(known(32, 3, Vec::new())),
        ),
        case(
            "all 32 types in a later block",
            0,
            &[full.clone(), pair(Vec::new(), every)],
        ),
        case(
            "32 types in two blocks",
            0,
            &[
                pair(names(40), bases(1, 16)),
                pair(Vec::new(), bases(17, 32)),
            ],
        ),
        case(
            "33 types in two blocks",
            3,
            &[
                pair(names(40), bases(1, 16)),
                pair(Vec::new(), bases(17, 33)),
            ],
        ),
        case("chain of 32 types", 0, &chain(32)),
        case("chain of 33 types", 3, &chain(33)),
    ]
}

fn fields() -> Vec<Case> {
    let one = |count| vec![pair(names(140), vec![base(1, 1, constants(1, count))])];
    let two = |first, second| {
        let entries = vec![
            base(1, 1, constants(1, first)),
            base(2, 1, constants(1, second)),
        ];
        vec![pair(names(140), entries)]
    };
    let later = |count: u64, given: usize, added: u64| {
        let mut fields = old_constants(given);
        fields.extend(constants(101, added));
        let mut pairs = one(100);
        pairs.push(pair(Vec::new(), vec![known(1, count, fields)]));
        pairs
    };
    vec![
        case("128 fields of one type", 0, &one(128)),
        case("129 fields of one type", 3, &one(129)),
        case("128 fields of two types", 0, &two(64, 64)),
        case("129 fields of two types", 3, &two(64, 65)),
        case("128 fields, then none", 0, &two(128, 0)),
        case("128 fields, then one", 3, &two(128, 1)),
        case("100 known and 28 new fields", 0, &later(1, 100, 28)),
        case("100 known and 29 new fields", 3, &later(1, 100, 29)),
        case("28 new fields after 100, count 0", 0, &later(0, 0, 28)),
        case("29 new fields after 100, count 0", 3, &later(0, 0, 29)),
        case("99 of 100 known fields", 11, &later(1, 99, 0)),
        case("128 fields given after 100, count 0", 3, &later(0, 0, 128)),
    ]
}

fn objects() -> Vec<Case> {
    let count = |numbers: &[u64]| {
        let entries = numbers.iter().zip(1..);
        let entries = entries.map(|(&count, name)| base(name, count, Vec::new()));
        vec![pair(names(4), entries.collect())]
    };
    let then = |first: &[u64], name: u64, more: u64| {
        let mut pairs = count(first);
        pairs.push(pair(Vec::new(), vec![known(name, more, Vec::new())]));
        pairs
    };
    let under = |start: u64, subs: u64| {
        let entries = vec![base(1, 65_535, Vec::new()), sub(2, 1, start, subs)];
        vec![pair(names(4), entries)]
    };
    let column = |kind: &str, value: &[u8]| {
        let values = value.repeat(65_535);
        vec![pair(
            names(4),
            vec![base(1, 65_535, vec![new(kind, 2, values)])],
        )]
    };
    let empties: Vec<FieldDraft> = (1..=4)
        .map(|name| new("0F 00 06", name, Vec::new()))
        .collect();
    vec![
        case("65535 objects", 0, &count(&[65_535])),
        case("65536 objects", 3, &count(&[65_536])),
        case(
            "65535 objects of two base types",
            0,
            &count(&[32_768, 32_767]),
        ),
        case(
            "65536 objects of two base types",
            3,
            &count(&[32_768, 32_768]),
        ),
        case("65535 objects, then none", 0, &count(&[65_535, 0])),
        case(
            "65535 objects, then one of another base type",
            3,
            &count(&[65_535, 1]),
        ),
        case("65535 objects in two blocks", 0, &then(&[65_534], 1, 1)),
        case("65536 objects in two blocks", 3, &then(&[65_534], 1, 2)),
        case(
            "65536 objects of two base types in two blocks",
            3,
            &then(&[65_534, 1], 2, 1),
        ),
        case(
            "65535 objects, count 0 in a later block",
            0,
            &then(&[65_535], 1, 0),
        ),
        case("65535 objects of a subtype", 0, &under(0, 65_535)),
        case("65536 objects of a subtype", 3, &under(0, 65_536)),
        case("subtypes' objects are not added up", 0, &under(1, 65_534)),
        case("65535 values of i8", 0, &column("07", &[0x80])),
        case(
            "65535 values of v64 of two bytes",
            0,
            &column("0B", &[0x80, 0x02]),
        ),
        case("65535 bools", 0, &column("06", &[0xFF])),
        case("65535 constants", 0, &column("00 FD", &[])),
        case("65535 empty arrays", 0, &column("11 0B", &[0x00])),
        case(
            "65535 references to the first object",
            0,
            &column("20", &[0x01]),
        ),
        case("65535 annotations", 0, &column("05", &[0x01, 0x01])),
        case("65535 null annotations", 0, &column("05", &[0x00, 0x00])),
        case(
            "65535 objects with fixed arrays of length 0",
            0,
            &[pair(names(4), vec![base(1, 65_535, empties)])],
        ),
    ]
}

fn starts() -> Vec<Case> {
    let under = |start: u64, subs: u64| {
        let entries = vec![base(1, 65_535, Vec::new()), sub(2, 1, start, subs)];
        vec![pair(names(4), entries)]
    };
    vec![
        case("local start 65534, count 1", 0, &under(65_534, 1)),
        case("local start 65534, count 2", 21, &under(65_534, 2)),
        case("local start 65535, count 0", 21, &under(65_535, 0)),
        case("local start 65535, count 1", 21, &under(65_535, 1)),
        case("local start 65535, count 65535", 21, &under(65_535, 65_535)),
        case("local start 65536, count 0", 3, &under(65_536, 0)),
        case("local start 65536, count 1", 3, &under(65_536, 1)),
        case("local start 2^64-1, count 1", 3, &under(u64::MAX, 1)),
    ]
}

fn fixed_lengths() -> Vec<Case> {
    let fixed = |length: u64, count: u64, kind: u8, chunk: Vec<u8>| {
        let coded = [vec![0x0F], v64::coded(length), vec![kind]].concat();
        let field = FieldDraft {
            new: Some((coded, 2)),
            chunk,
        };
        vec![pair(names(4), vec![base(1, count, vec![field])])]
    };
    vec![
        case(
            "fixed array of 65535 bools",
            0,
            &fixed(65_535, 1, 6, vec![0xFF; 65_535]),
        ),
        case(
            "fixed array of 65536 bools",
            3,
            &fixed(65_536, 1, 6, vec![0xFF; 65_536]),
        ),
        case(
            "fixed array of 65535 v64",
            0,
            &fixed(65_535, 2, 11, vec![0x01; 131_070]),
        ),
        case(
            "fixed array of 65535 v64, one missing",
            12,
            &fixed(65_535, 2, 11, vec![1; 131_069]),
        ),
        case(
            "fixed array of 65535 v64, one left over",
            12,
            &fixed(65_535, 2, 11, vec![1; 131_071]),
        ),
        case(
            "fixed array of 65535, no objects",
            0,
            &fixed(65_535, 0, 8, Vec::new()),
        ),
        case(
            "fixed array of 65536, no objects",
            3,
            &fixed(65_536, 0, 8, Vec::new()),
        ),
        case(
            "65535 fixed arrays of 65535 i64, all missing",
            12,
            &fixed(65_535, 65_535, 10, Vec::new()),
        ),
        case(
            "65535 fixed arrays of 65535 v64, most missing",
            12,
            &fixed(65_535, 65_535, 11, vec![0; 1_000]),
        ),
    ]
}

fn array_lengths() -> Vec<Case> {
    let mut cases = Vec::new();
    for kind in ["11", "12", "13"] {
        let array = |length: u64, elements: usize| {
            let mut chunk = v64::coded(length);
            chunk.resize(chunk.len() + elements, 0);
            let field = new(&format!("{kind} 06"), 2, chunk);
            vec![pair(names(4), vec![base(1, 1, vec![field])])]
        };
        for (length, elements, answer) in [
            (65_535, 65_535, 0),
            (65_535, 65_534, 12),
            (65_535, 65_536, 12),
            (65_536, 65_536, 3),
            (65_536, 0, 3),
        ] {
            let label = format!("kind {kind}, length {length}, {elements} elements");
            cases.push(case(&label, answer, &array(length, elements)));
        }
    }
    cases
}

/// Sizes of maps at the bound and one beyond, at every depth.
fn map_sizes() -> Vec<Case> {
    // One key each down to a depth, there a size, and so many keys, each with
    // a 00: an empty map, or an i8 where there is no type left.
    let map = |depth: usize, size: u64, keys: usize| {
        let mut chunk = [1, 5].repeat(depth);
        v64::write(&mut chunk, size);
        chunk.extend([6, 0].repeat(keys));
        chunk
    };
    let file = |types: usize, objects: u64, chunk: Vec<u8>| {
        let kind = [vec![20, types as u8], vec![7; types]].concat();
        let field = FieldDraft {
            new: Some((kind, 2)),
            chunk,
        };
        vec![pair(names(4), vec![base(1, objects, vec![field])])]
    };
    let mut cases = Vec::new();
    for (types, depth) in [(2, 0), (3, 0), (3, 1), (8, 0), (8, 3), (8, 6)] {
        for (size, keys, answer) in [
            (65_535, 65_535, 0),
            (65_535, 65_534, 12),
            (65_535, 65_536, 12),
            (65_536, 65_536, 3),
            (65_536, 0, 3),
        ] {
            let label = format!("map of {types} types, size {size} at depth {depth}, {keys} keys");
            let chunk = map(depth, size, keys);
            cases.push(case(&label, answer, &file(types, 1, chunk)));
        }
    }
    // Sizes are bounded one by one.
    let inner = [
        vec![3],
        [vec![5], map(0, 30_000, 30_000)].concat().repeat(3),
    ]
    .concat();
    cases.push(case("map of 90000 inner keys", 0, &file(3, 1, inner)));
    let many = map(0, 40_000, 40_000).repeat(2);
    cases.push(case("two maps of 40000 keys", 0, &file(2, 2, many)));
    cases.push(case(
        "65535 empty maps",
        0,
        &file(8, 65_535, vec![0; 65_535]),
    ));
    cases.push(case(
        "65535 empty maps, one missing",
        12,
        &file(8, 65_535, vec![0; 65_534]),
    ));
    cases
}

/// How far string numbers, object numbers and reference kinds reach.
fn reaches() -> Vec<Case> {
    let text = |number: u64| {
        let field = new("0E", 1, v64::coded(number));
        vec![pair(names(1024), vec![base(1, 1, vec![field])])]
    };
    let object = |number: u64| {
        let field = new("20", 2, v64::coded(number));
        let far = known(1, 0, Vec::new());
        vec![
            pair(names(4), vec![base(1, 65_534, Vec::new())]),
            pair(Vec::new(), vec![far, base(3, 1, vec![field])]),
        ]
    };
    // By the last string that can be there, which is the type's name again.
    let annotation = |text: u64, object: u64| {
        let mut strings = names(1023);
        strings.push(strings[0].clone());
        let chunk = [v64::coded(text), v64::coded(object)].concat();
        vec![
            pair(strings, vec![base(1, 65_534, Vec::new())]),
            pair(Vec::new(), vec![base(3, 1, vec![new("05", 2, chunk)])]),
        ]
    };
    let kind = |number: u64| {
        let mut entries: Vec<EntryDraft> = (1..=32).map(|name| base(name, 1, Vec::new())).collect();
        entries[0].fields.push(FieldDraft {
            new: Some((v64::coded(number), 1)),
            chunk: vec![1],
        });
        vec![pair(names(40), entries)]
    };
    let name = |number: u64| vec![pair(names(1024), vec![base(number, 1, Vec::new())])];
    vec![
        case("string 1024 of 1024", 0, &text(1024)),
        case("string 1025 of 1024", 14, &text(1025)),
        case("object 65534 of 65534", 0, &object(65_534)),
        case("object 65535 of 65534", 14, &object(65_535)),
        case(
            "annotation by string 1024 to object 65534",
            0,
            &annotation(1024, 65_534),
        ),
        case(
            "annotation by string 1024 to object 65535",
            14,
            &annotation(1024, 65_535),
        ),
        case(
            "annotation by string 1025 to object 65534",
            14,
            &annotation(1025, 65_534),
        ),
        case("reference to the last of 32 types", 0, &kind(63)),
        case("reference past the last of 32 types", 10, &kind(64)),
        case("name 1024 of 1024", 0, &name(1024)),
        case("name 1025 of 1024", 5, &name(1025)),
        wide_ends(),
    ]
}

/// A region of some twenty thousand bytes, so that ends take one to three bytes.
fn wide_ends() -> Case {
    let fields = (1..=8).map(|name| {
        let length = 1usize << (2 * (name - 1));
        new(
            &format!("0F {} 07", hex(length as u64)),
            name,
            vec![7; length],
        )
    });
    let mut written = Written::default();
    written.pair(&pair(names(8), vec![base(1, 1, fields.collect())]));
    Case::ruled("ends of one to three bytes", 0, written.bytes)
}

fn hex(number: u64) -> String {
    let coded = v64::coded(number);
    coded.iter().map(|byte| format!("{byte:02X}")).collect()
}
