//! Annotations wherever one can stand: as a value, in every array, as a key
//! and at the end of maps; right, wrong in every way, and cut.

use super::notation::bytes;
use super::Case;
use crate::v64;

/// All of them.
pub fn cases() -> Vec<Case> {
    let mut cases = Vec::new();
    for place in PLACES {
        cases.extend(pairs_of_numbers().map(|(label, answer, numbers)| {
            let label = format!("annotation {label}, kind {}", place.kind);
            place.case(&label, answer, &numbers)
        }));
        cases.extend(place.cut(&bytes("80 80 80 01 81 80 01")));
        cases.extend(place.cut(&bytes("FF*9 80*9")));
    }
    cases.extend(rows());
    cases
}

/// Where an annotation stands: the kind, and the value's bytes before it and
/// behind it.
struct Place {
    kind: &'static str,
    before: &'static str,
    behind: &'static str,
}

const fn place(kind: &'static str, before: &'static str, behind: &'static str) -> Place {
    Place {
        kind,
        before,
        behind,
    }
}

const PLACES: &[Place] = &[
    place("05", "", ""),
    place("0F 01 05", "", ""),
    place("0F 03 05", "0000 0101", ""),
    place("11 05", "01", ""),
    place("12 05", "02", "0102"),
    place("13 05", "03 0101 0101", ""),
    place("14 02 05 06", "01", "FF"),
    place("14 02 07 05", "01 05", ""),
    place("14 02 05 05", "02 0000 0101", "0102"),
    place("14 03 07 05 08", "02 05 00 06 01", "0007"),
    place("14 03 05 06 05", "01 0000 02 00 0101 FF", ""),
    place(
        "14 08 05*8",
        "01 0101 01 0000 01 0102 01 0101 01 0000 01 0101 01 0101",
        "",
    ),
];

impl Place {
    /// Strings a, b, c, d, e and a again; types a of two objects, b below it,
    /// and c of three objects in a later entry; e in the next pair. The first
    /// field of a, which stands in the second entry, has one value.
    fn file(&self, end: usize, chunk: &[u8]) -> Vec<u8> {
        let front = format!(
            "06 00000001 00000002 00000003 00000004 00000005 00000006 'abcdea \
                01 01 00 02 00 00 \
                00 03 02 01 00 00 00 00 04 00 01 00 01 00 {} 01",
            self.kind
        );
        let later = bytes("03 00 03 00 00");
        let next = bytes("00 01 05 00 01 00 00");
        let end = v64::coded(end as u64);
        [bytes(&front), end, later, chunk.to_vec(), next].concat()
    }

    fn case(&self, label: &str, answer: u8, annotation: &[u8]) -> Case {
        let chunk = [&bytes(self.before), annotation, &bytes(self.behind)].concat();
        Case::ruled(label, answer, self.file(chunk.len(), &chunk))
    }

    /// The chunk ends at every place up to the annotation's last byte, which
    /// would be wrong; its other bytes stand behind the chunk.
    fn cut(&self, annotation: &[u8]) -> Vec<Case> {
        let chunk = [&bytes(self.before), annotation].concat();
        let cut = (0..chunk.len()).map(|end| {
            let label = format!("kind {}, {annotation:02X?} cut at {end}", self.kind);
            Case::ruled(&label, 12, self.file(end, &chunk))
        });
        cut.collect()
    }
}

/// The two numbers of an annotation, what they are, and the answer.
fn pairs_of_numbers() -> impl Iterator<Item = (String, u8, Vec<u8>)> {
    let whole = NUMBERS.iter().map(|&(first, second, answer)| {
        let numbers = [v64::coded(first), v64::coded(second)].concat();
        (format!("{first} {second}"), answer, numbers)
    });
    let padded = PADDED
        .iter()
        .map(|&(text, answer)| (text.to_string(), answer, bytes(text)));
    whole.chain(padded)
}

const TOP: u64 = 1 << 63;
const WIDE: u64 = 1 << 32;

const NUMBERS: &[(u64, u64, u8)] = &[
    (0, 0, 0),
    (1, 1, 0),
    (1, 2, 0),
    (1, 3, 14),
    (6, 2, 0),
    (6, 3, 14),
    // A subtype's name, one without objects.
    (2, 1, 14),
    // A later entry's type.
    (3, 1, 0),
    (3, 3, 0),
    (3, 4, 14),
    // The field's own type.
    (4, 1, 0),
    (4, 2, 14),
    // A type of the next pair, and no string.
    (5, 1, 14),
    (7, 1, 14),
    (128, 1, 14),
    // Half-null.
    (0, 1, 14),
    (0, 2, 14),
    (0, 4, 14),
    (0, TOP, 14),
    (0, u64::MAX, 14),
    (1, 0, 14),
    (2, 0, 14),
    (3, 0, 14),
    (5, 0, 14),
    (7, 0, 14),
    (TOP, 0, 14),
    (u64::MAX, 0, 14),
    // Right in their low bits.
    (256 + 1, 1, 14),
    (1, 256 + 1, 14),
    (65_536 + 1, 1, 14),
    (1, 65_536 + 1, 14),
    (WIDE + 1, 1, 14),
    (1, WIDE + 1, 14),
    (WIDE, 0, 14),
    (0, WIDE, 14),
    (TOP, 1, 14),
    (1, TOP, 14),
    (TOP + 1, 1, 14),
    (1, TOP + 1, 14),
    (u64::MAX, 1, 14),
    (1, u64::MAX, 14),
    (u64::MAX, u64::MAX, 14),
];

/// Padded numbers have their values.
const PADDED: &[(&str, u8)] = &[
    ("80 00 00", 0),
    ("81 00 01", 0),
    ("87 00 01", 14),
    ("01 81 00", 0),
    ("01 83 00", 14),
    ("00 80 00", 0),
    ("07 81 00", 14),
    ("80 00 80 00", 0),
    ("01 80*8 00", 14),
];

/// Several pairs and several fields.
fn rows() -> Vec<Case> {
    let rows: &[(&str, u8, &str)] = &[
        ("annotations of a known field, each pair's objects reached", 0, "P 01 01 00 01 00 01 00 05 01 02 0101 \
            00 01 01 02 01 04 0103 0101 00 02 01 01 01 02 03 00 05 00 00 0305"),
        ("annotations of a known field, one past its own pair's objects", 14, "P 01 01 00 01 00 01 00 05 01 02 0101 \
            00 01 01 02 01 04 0104 0101 00 02 01 01 01 02 03 00 05 00 00 0305"),
        ("annotations of a late field, for all objects", 0, "P 02 01 00 02 00 00 02 01 00 01 00 00 \
            00 02 01 01 01 00 05 03 06 02 00 01 01 00 05 03 0A 0101 0102 0103 0103 0000"),
        ("annotations of a late field, one missing", 12, "P 02 01 00 02 00 00 02 01 00 01 00 00 \
            00 02 01 01 01 00 05 03 06 02 00 01 01 00 05 03 08 0101 0102 0103 0103"),
        ("annotations of a subtype's field", 0, "P 02 01 00 03 00 00 02 01 01 02 00 01 00 05 03 04 0101 0103"),
        ("annotations of a subtype's field, by its own name", 14, "P 02 01 00 03 00 00 02 01 01 02 00 01 00 05 03 04 0101 0203"),
        ("annotations of a type without objects", 0, "P 01 01 00 00 00 01 00 05 03 00"),
        ("annotations of a type without objects, a byte", 12, "P 01 01 00 00 00 01 00 05 03 01 00"),
        ("annotations before a wrong bool", 14, "P 01 01 00 01 00 02 00 05 01 02 00 06 02 03 0102 01"),
        ("a wrong bool before annotations", 13, "P 01 01 00 01 00 02 00 06 01 01 00 05 02 03 01 0102"),
        ("annotation goes on in the next chunk", 12, "P 01 01 00 01 00 02 00 05 01 01 00 05 02 04 01 01 0101"),
        ("annotation by a name of two bytes' number", 0, "81 01 00000000*128 00000001 61 01 81 01 00 01 00 01 00 05 01 03 81 01 01"),
        ("annotation by an empty name's many strings", 0, "81 01 00000000*128 00000001 61 01 01 00 01 00 01 00 05 81 01 03 80 01 01"),
        ("annotation to the last of 32 types", 0, "S33 20 01 00 01 00 00 02 00 01 00 00 03 00 01 00 00 04 00 01 00 00 \
            05 00 01 00 00 06 00 01 00 00 07 00 01 00 00 08 00 01 00 00 09 00 01 00 00 0A 00 01 00 00 0B 00 01 00 00 \
            0C 00 01 00 00 0D 00 01 00 00 0E 00 01 00 00 0F 00 01 00 00 10 00 01 00 00 11 00 01 00 00 12 00 01 00 00 \
            13 00 01 00 00 14 00 01 00 00 15 00 01 00 00 16 00 01 00 00 17 00 01 00 00 18 00 01 00 00 19 00 01 00 00 \
            1A 00 01 00 00 1B 00 01 00 00 1C 00 01 00 00 1D 00 01 00 00 1E 00 01 00 00 1F 00 01 00 00 \
            20 00 02 00 01 00 05 01 04 2002 0101"),
    ];
    let rows = rows.iter();
    rows.map(|&(label, answer, text)| Case::ruled(label, answer, bytes(text)))
        .collect()
}
