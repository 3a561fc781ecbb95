//! Maps of 2 to 8 types: every element kind in every place, sizes at every
//! depth, numbers of types, kinds that are none, and cuts.

use super::notation::bytes;
use super::Case;
use crate::draft::{self, EntryDraft, FieldDraft, PairDraft};
use crate::v64;

/// All of them.
pub fn cases() -> Vec<Case> {
    let mut cases = numbers_of_types();
    cases.extend(no_element_kinds());
    cases.extend(late_kinds());
    cases.extend(elements());
    cases.extend(sizes());
    cases.extend(cut());
    cases.extend(pairs());
    cases
}

/// Annotations and maps in two pairs.
pub const LINKED: &str = "P 02 01 00 02 00 04 \
    00 05 01 04  00 12 05 02 0A  00 14 02 0E 05 03 12  00 14 03 06 20 08 04 1E  02 00 01 00 00 \
    0201 0000  02 0101 0201 00  02 05 0102 00 0000 00  01 FF 02 01 0001 02 8000 01 00 00 \
    00 01 01 01 04 02 03 07 0D 0103 00 01 00 0201 01 FF 01 03 0001";

/// Numbers of types of which every place is looked at.
const LOOKED_AT: [usize; 3] = [2, 3, 8];

/// A map's kind with this number of types, up to its element kinds.
fn front(number: u64) -> Vec<u8> {
    [bytes("P 01 01 00 01 00 01 00 14"), v64::coded(number)].concat()
}

/// A type of one object with a field of this map kind, and its chunk.
fn file(kinds: &[Vec<u8>], chunk: &[u8]) -> Vec<u8> {
    ended(kinds, chunk.len(), chunk)
}

/// The same with another end of the chunk.
fn ended(kinds: &[Vec<u8>], end: usize, chunk: &[u8]) -> Vec<u8> {
    let end = v64::coded(end as u64);
    let front = front(kinds.len() as u64);
    [front, kinds.concat(), vec![1], end, chunk.to_vec()].concat()
}

/// Element kinds that are all i8 but for one.
fn kinds(number: usize, place: usize, kind: &[u8]) -> Vec<Vec<u8>> {
    let mut kinds = vec![vec![7]; number];
    kinds[place] = kind.to_vec();
    kinds
}

/// A map with one key at every depth: sizes of 1 before all but the last.
fn single(elements: &[Vec<u8>]) -> Vec<u8> {
    let (last, keys) = elements.split_last().expect("maps have types");
    let sized = keys.iter().flat_map(|key| [&[1], &key[..]].concat());
    sized.chain(last.iter().copied()).collect()
}

/// Of i8 elements all but for one.
fn elements_with(number: usize, place: usize, element: &[u8]) -> Vec<Vec<u8>> {
    let mut elements: Vec<Vec<u8>> = (0..number).map(|index| vec![0x40 + index as u8]).collect();
    elements[place] = element.to_vec();
    elements
}

/// Numbers of types from 0 to 9 and large ones, with nothing behind them and
/// with as many element kinds as they say.
fn numbers_of_types() -> Vec<Case> {
    let mut cases = Vec::new();
    for number in 0..=10 {
        let right = (2..=8).contains(&number);
        let alone = if right { 1 } else { 10 };
        let label = format!("map of {number} types");
        cases.push(Case::ruled(
            &format!("{label}, nothing behind"),
            alone,
            front(number),
        ));
        let kinds = vec![vec![6]; number as usize];
        let whole = if right { 0 } else { 10 };
        cases.push(Case::ruled(&label, whole, file(&kinds, &[0])));
        if right {
            let short = [front(number), vec![6; number as usize - 1]].concat();
            let label = format!("{label}, the last one is due");
            cases.push(Case::ruled(&label, 1, short));
        }
    }
    let large = [127, 128, 255, 256, 258, 65_538, (1 << 32) + 2, 1 << 63];
    for number in large.into_iter().chain([(1 << 63) + 2, u64::MAX]) {
        let file = [front(number), bytes("06 06 01 01 00")].concat();
        cases.push(Case::ruled(&format!("map of {number} types"), 10, file));
    }
    cases
}

/// Every number that is no element kind, in every place of a map.
fn no_element_kinds() -> Vec<Case> {
    let mut cases = Vec::new();
    for number in LOOKED_AT {
        for place in 0..number {
            for kind in (0..5).chain(15..32) {
                let kinds = kinds(number, place, &[kind]);
                let label = format!("map of {number} types, kind {kind} in place {place}");
                cases.push(Case::ruled(&label, 10, file(&kinds, &[0])));
                // Nothing behind it has to be there.
                let front = [front(number as u64), kinds[..=place].concat()].concat();
                let label = format!("{label}, nothing behind");
                cases.push(Case::ruled(&label, 10, front));
            }
        }
    }
    cases
}

/// Every kind from 32 upwards without a type, in every place of a map, and
/// the last type there is.
fn late_kinds() -> Vec<Case> {
    let wrong = [33, 34, 255, 256, 256 + 32, 1 << 32, (1 << 32) + 32];
    let large = [1 << 63, (1 << 63) + 32, u64::MAX];
    let mut cases = Vec::new();
    for number in LOOKED_AT {
        for place in 0..number {
            for kind in wrong.into_iter().chain(large) {
                let kinds = kinds(number, place, &v64::coded(kind));
                let label = format!("map of {number} types, kind {kind} in place {place}");
                cases.push(Case::ruled(&label, 10, file(&kinds, &[0])));
                let label = format!("{label}, region past the file");
                cases.push(Case::ruled(&label, 1, ended(&kinds, 2, &[0])));
            }
            let kinds = kinds(number, place, &[32]);
            let label = format!("map of {number} types, kind 32 in place {place}");
            cases.push(Case::ruled(&label, 0, file(&kinds, &[0])));
        }
    }
    cases
}

/// An element of each kind: its kind, a good one, another one, which is wrong
/// but for v64, and its answer.
const ELEMENTS: &[(&str, &str, &str, u8)] = &[
    ("05", "0101", "0102", 14),
    ("05", "0000", "0001", 14),
    ("05", "0101", "0201", 14),
    ("06", "FF", "01", 13),
    ("07", "80", "", 12),
    ("08", "8000", "80", 12),
    ("09", "80000001", "800000", 12),
    ("0A", "8000000000000001", "80000000000000", 12),
    ("0B", "808080808080808080", "8000", 0),
    ("0C", "7FC00001", "7FC000", 12),
    ("0D", "FFF0000000000001", "FFF00000000000", 12),
    ("0E", "05", "06", 14),
    ("20", "01", "02", 14),
];

/// Every element kind in every place: good, another one at the chunk's end,
/// and missing there.
fn elements() -> Vec<Case> {
    let mut cases = Vec::new();
    for &(kind, good, other, answer) in ELEMENTS {
        for number in LOOKED_AT {
            for place in 0..number {
                let kinds = kinds(number, place, &bytes(kind));
                let label = format!("map of {number} types, {kind} in place {place}");
                let whole = single(&elements_with(number, place, &bytes(good)));
                cases.push(Case::ruled(&label, 0, file(&kinds, &whole)));
                let ends = |element: &str| {
                    let elements = elements_with(number, place, &bytes(element));
                    let sizes = place + usize::from(place + 1 < number);
                    let length = sizes + elements[..=place].concat().len();
                    single(&elements)[..length].to_vec()
                };
                let other = file(&kinds, &ends(other));
                let (what, answer) = match answer {
                    // The rest of the map is due, if there is any.
                    0 if place + 1 < number => ("padded", 12),
                    0 => ("padded", 0),
                    refusal => ("wrong", refusal),
                };
                cases.push(Case::ruled(&format!("{label}, {what}"), answer, other));
                let missing = file(&kinds, &ends(""));
                cases.push(Case::ruled(&format!("{label}, missing"), 12, missing));
            }
        }
    }
    cases
}

/// Every size of maps of 2 to 8 types: the last number of a chunk, and its
/// answer.
fn sizes() -> Vec<Case> {
    let rows = [
        ("0", "00", 0),
        ("1", "01", 12),
        ("65535", "FFFF03", 12),
        ("65536", "808004", 3),
        ("2^32", "8080808010", 3),
        ("2^32 + 1", "8180808010", 3),
        ("2^63", "808080808080808080", 3),
        ("2^64 - 1", "FFFFFFFFFFFFFFFFFF", 3),
        ("0 padded", "8000", 0),
        ("65536 padded", "80808400", 3),
        ("cut", "80", 12),
    ];
    let mut cases = Vec::new();
    for number in 2..=8 {
        let kinds = vec![vec![7]; number];
        for depth in 0..number - 1 {
            for (name, size, answer) in rows {
                let chunk = [[1, 5].repeat(depth), bytes(size)].concat();
                let label = format!("map of {number} types, size {name} at depth {depth}");
                cases.push(Case::ruled(&label, answer, file(&kinds, &chunk)));
            }
        }
    }
    cases
}

/// Maps of several keys: the chunk ends at every place before its end, with
/// the other bytes behind it, and a byte behind its end.
fn cut() -> Vec<Case> {
    let rows = [
        ("two types", "0B 08", "03 80 01 0001 05 0002 80 01 0003"),
        ("keys and values null", "05 0E", "02 0000 00 0000 05"),
        (
            "three types",
            "06 0E 09",
            "02 FF 02 05 00000001 00 00000002 00 00",
        ),
        (
            "four types",
            "07 05 20 0B",
            "02 05 02 0101 01 01 80 01 0000 00 06 01 0000 02 00 05 01 80 02",
        ),
        (
            "eight types",
            "07 07 07 07 07 07 07 07",
            "02 01 01 02 01 03 01 04 02 05 00 06 01 07 01 08 09 0A 00",
        ),
    ];
    let mut cases = Vec::new();
    for (name, types, chunk) in rows {
        let kinds: Vec<Vec<u8>> = types.split(' ').map(bytes).collect();
        let chunk = bytes(chunk);
        cases.push(Case::ruled(name, 0, file(&kinds, &chunk)));
        for end in 0..chunk.len() {
            let label = format!("map, {name}, cut at {end}");
            cases.push(Case::ruled(&label, 12, ended(&kinds, end, &chunk)));
        }
        for more in [&[0x00][..], &[0x01], &[0x80], &[0x80, 0x00]] {
            let label = format!("map, {name}, and {more:02X?} behind it");
            let longer = [&chunk, more].concat();
            cases.push(Case::ruled(&label, 12, file(&kinds, &longer)));
        }
    }
    cases
}

/// Maps of 2 to 8 types in a known field and in a late one, over three pairs.
fn pairs() -> Vec<Case> {
    let mut cases = Vec::new();
    for number in 2..=8 {
        let values = |count: usize| {
            let map = single(&elements_with(number, 0, &[5]));
            let mut chunk = map.repeat(count - 1);
            chunk.push(0);
            chunk
        };
        let mut case = |label: &str, answer: u8, counts: [usize; 4]| {
            let label = format!("maps of {number} types, {label}");
            let file = three_pairs(number, counts.map(values));
            cases.push(Case::ruled(&label, answer, file));
        };
        case("a known and a late field", 0, [2, 1, 3, 6]);
        case("known values of all objects", 12, [2, 3, 3, 6]);
        case("known values missing", 12, [2, 1, 2, 6]);
        case("late values of the last pair alone", 12, [2, 1, 3, 3]);
        case("late values one too many", 12, [2, 1, 3, 7]);
    }
    cases
}

/// A type that adds 2, 1 and 3 objects; the first pair declares a field of
/// maps, the third another one.
fn three_pairs(number: usize, chunks: [Vec<u8>; 4]) -> Vec<u8> {
    let kind = [vec![20, number as u8], vec![7; number]].concat();
    let [first, second, third, late] = chunks;
    let new = |name, chunk| FieldDraft {
        new: Some((kind.clone(), name)),
        chunk,
    };
    let old = |chunk| FieldDraft { new: None, chunk };
    let entry = |super_name, count, fields| EntryDraft {
        name: 1,
        super_name,
        start: None,
        count,
        fields,
    };
    let pair = |strings: &[&str], entry| PairDraft {
        strings: strings
            .iter()
            .map(|name| name.as_bytes().to_vec())
            .collect(),
        entries: vec![entry],
    };
    draft::write(&[
        pair(&["a", "b"], entry(Some(0), 2, vec![new(1, first)])),
        pair(&[], entry(None, 1, vec![old(second)])),
        pair(&[], entry(None, 3, vec![old(third), new(2, late)])),
    ])
}
