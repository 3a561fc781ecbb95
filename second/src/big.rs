//! Large files to measure speed with, the same every time.
//!
//! Each comes whole and at a quarter and a sixteenth of its size, to see that
//! time grows no faster than the file. Where many pairs are what makes a file
//! hard, they are what is divided: 2, 8 and 32.

use crate::draft::{self, kind_bytes, wide, EntryDraft, FieldDraft, PairDraft};
use crate::generate::random::Random;
use crate::generate::{spelling, Case, SEED};
use crate::kind::{Element, Form, Kind, MapTypes};
use crate::v64;

/// The parts of the full size that the files come in.
pub const PARTS: [u64; 3] = [16, 4, 1];

/// Name of the base type of every file here that has just one.
pub const TYPE: &[u8] = b"t";
/// Name of the subtype, where there is one.
pub const SUBTYPE: &[u8] = b"s";
/// Name of the first field of the base type.
pub const FIELD: &[u8] = b"f0";

/// Makes a file at a part of its full size.
type Maker = fn(u64) -> Vec<u8>;

/// All files at all sizes, the smallest of each first.
pub fn files() -> Vec<Case> {
    let makers: [(&str, Maker); 19] = [
        ("v64 values", v64_values),
        ("v64 values, every number in nine bytes", padded),
        ("mixed kinds", mixed_kinds),
        ("references to a subtype over 32 pairs", references),
        ("annotations under many names", annotations),
        ("maps of two types", |part| maps(2, part)),
        ("maps of three types", |part| maps(3, part)),
        ("maps of four types", |part| maps(4, part)),
        ("short arrays", short_arrays),
        ("bools", bools),
        ("types entered in many pairs", entered_types),
        ("long type names that differ at the end", |part| {
            long_types(Place::Last, part)
        }),
        ("long type names that differ in the middle", |part| {
            long_types(Place::Middle, part)
        }),
        ("long field names", long_fields),
        ("small chunks in many pairs", small_chunks),
        ("types entered by copies of their long names", copied_names),
        ("references between subtypes in many pairs", subtypes),
        (
            "references between subtypes in weeks that differ",
            other_weeks,
        ),
        (
            "annotations beside many strings in many pairs",
            few_annotations,
        ),
    ];
    let mut cases = Vec::new();
    for (label, make) in makers {
        at_all_parts(&mut cases, label, make);
    }
    for (label, kind) in COLUMNS {
        let label = format!("a column of kind {label}");
        at_all_parts(&mut cases, &label, |part| column_of(kind, part));
    }
    cases
}

fn at_all_parts(cases: &mut Vec<Case>, label: &str, make: impl Fn(u64) -> Vec<u8>) {
    for part in PARTS {
        let label = match part {
            1 => label.to_string(),
            _ => format!("{label}, 1/{part}"),
        };
        cases.push(Case::ruled(&label, 0, make(part)));
    }
}

/// About a megabyte of v64 values of mixed lengths, divided by `part`.
pub fn v64_values(part: u64) -> Vec<u8> {
    one_pair(&[single(Element::V64); 3], 65_535 / part)
}

/// One column of 65,535 v64 values, divided by `part`.
pub fn column(part: u64) -> Vec<u8> {
    column_of(single(Element::V64), part)
}

/// The kinds that a column is made of, and what they are called. References
/// are to the subtype, so that each has a range to be looked for in.
pub const COLUMNS: [(&str, Kind); 11] = [
    ("bool", single(Element::Bool)),
    ("i8", single(Element::I8)),
    ("i16", single(Element::I16)),
    ("i32", single(Element::I32)),
    ("i64", single(Element::I64)),
    ("v64", single(Element::V64)),
    ("f32", single(Element::F32)),
    ("f64", single(Element::F64)),
    ("string", single(Element::Text)),
    ("reference", single(Element::Object(1))),
    ("constant", CONSTANT),
];

const CONSTANT: Kind = Kind::Constant {
    number: 4,
    value: -1,
};

/// One column of 65,535 values of a kind, divided by `part`.
pub fn column_of(kind: Kind, part: u64) -> Vec<u8> {
    let mut random = Random::new(SEED);
    let kinds = [kind];
    let mut world = World::new(&mut random, &kinds);
    if kind == single(Element::Text) {
        // Enough of them that some numbers have one byte and some have two.
        world.serials = 1_000;
    }
    draft::write(&[world.pair(65_535 / part)])
}

fn one_pair(kinds: &[Kind], objects: u64) -> Vec<u8> {
    let mut random = Random::new(SEED);
    let mut world = World::new(&mut random, kinds);
    draft::write(&[world.pair(objects)])
}

/// About a megabyte of bools, divided by `part`.
pub fn bools(part: u64) -> Vec<u8> {
    one_pair(&[single(Element::Bool); 15], 65_535 / part)
}

/// About a megabyte of arrays, lists and sets of at most four elements, each
/// of which takes a byte or two, divided by `part`.
pub fn short_arrays(part: u64) -> Vec<u8> {
    let kinds = [
        (Form::Sized(17), Element::I8),
        (Form::Sized(17), Element::Bool),
        (Form::Sized(18), Element::I16),
        (Form::Sized(19), Element::Text),
        (Form::Fixed(2), Element::I8),
    ];
    let kinds = kinds.map(|(form, element)| Kind::Stored { form, element });
    one_pair(&kinds, 62_000 / part)
}

/// About a megabyte of v64 values in two fields, divided by `part`, as a
/// controller writes them that takes nine bytes for every number: the values
/// are of mixed lengths, their codings and those of the front are not.
pub fn padded(part: u64) -> Vec<u8> {
    let objects = PADDED_OBJECTS / part;
    let mut file = Vec::new();
    spelling::nine(&mut file, 3);
    file.extend([1u32, 3, 5].map(u32::to_be_bytes).concat());
    file.extend([TYPE, FIELD, b"f1"].concat());
    let entry = [1, 1, 0, objects, 0, 2];
    let fields = [[0, 11, 2, 9 * objects], [0, 11, 3, 18 * objects]];
    for number in entry.into_iter().chain(fields.concat()) {
        spelling::nine(&mut file, number);
    }
    let mut random = Random::new(SEED);
    for _ in 0..2 * objects {
        spelling::nine(&mut file, random.bits());
    }
    file
}

/// As many objects as the file of padded numbers has at full size.
pub const PADDED_OBJECTS: u64 = 58_000;

/// About a megabyte of values of all kinds but annotations and maps over
/// eight pairs, divided by `part`.
pub fn mixed_kinds(part: u64) -> Vec<u8> {
    let mut random = Random::new(SEED);
    let plain = (6..=14).filter_map(Element::of).map(single);
    let mut kinds: Vec<Kind> = plain.collect();
    let arrays = [
        (Form::Fixed(3), Element::I16),
        (Form::Sized(17), Element::V64),
        (Form::Sized(18), Element::Text),
        (Form::Sized(19), Element::Object(1)),
        (Form::Single, Element::Object(0)),
    ];
    kinds.extend(arrays.map(|(form, element)| Kind::Stored { form, element }));
    kinds.push(CONSTANT);
    let mut world = World::new(&mut random, &kinds);
    let pairs: Vec<PairDraft> = (0..8).map(|_| world.pair(2_000 / part)).collect();
    draft::write(&pairs)
}

/// About a megabyte of references to a subtype whose objects lie in 32
/// ranges, divided by `part`.
pub fn references(part: u64) -> Vec<u8> {
    let mut random = Random::new(SEED);
    let kinds = vec![single(Element::Object(1)); 6];
    let mut world = World::new(&mut random, &kinds);
    let pairs: Vec<PairDraft> = (0..32).map(|_| world.pair(2_047 / part)).collect();
    draft::write(&pairs)
}

/// About a megabyte of annotations, of which each names the base type by
/// another string than the one before it, divided by `part`.
pub fn annotations(part: u64) -> Vec<u8> {
    let mut random = Random::new(SEED);
    let kinds = vec![single(Element::Annotation); 4];
    let mut world = World::new(&mut random, &kinds);
    let mut pair = world.pair(65_535 / part);
    let again = NAMES - 1;
    pair.strings.extend(vec![TYPE.to_vec(); again as usize]);
    draft::write(&[pair])
}

/// By how many strings the base type is named where annotations are.
const NAMES: u64 = 100;

/// About a megabyte of maps of two to four types, divided by `part`. A map has
/// two keys in the mean, so one more type makes a value twice as long.
pub fn maps(types: usize, part: u64) -> Vec<u8> {
    let mut random = Random::new(SEED);
    let number = types as u32;
    let types = MapTypes::new(&MAP[..types]);
    let kinds = [Kind::Map(types.expect("no map has one type"))];
    let mut world = World::new(&mut random, &kinds);
    draft::write(&[world.pair(130_000 / 2u64.pow(number - 1) / part)])
}

/// The types of the maps, from the first on.
const MAP: [Element; 4] = [Element::Text, Element::V64, Element::I8, Element::Object(1)];

/// 32 types without objects, each entered in each of 32 pairs, divided by
/// `part`.
pub fn entered_types(part: u64) -> Vec<u8> {
    let digit = |index| char::from_digit(index, 32).expect("one of 32 digits");
    let names = (0..32).map(|index| format!("t{}", digit(index)).into_bytes());
    entered(names.collect(), 32 / part)
}

/// 32 types without objects, each entered in each of 32 pairs, divided by
/// `part`, and under names that fill a megabyte and differ in one byte. So a
/// name that is looked for has to be read as far as that byte.
pub fn long_types(place: Place, part: u64) -> Vec<u8> {
    entered(alike(32, 32_501, place), 32 / part)
}

/// One type without objects, and 128 fields, divided by `part`, under names
/// that fill a megabyte and differ in the last byte.
pub fn long_fields(part: u64) -> Vec<u8> {
    let fields = 128 / part;
    let mut strings = vec![TYPE.to_vec()];
    strings.extend(alike(fields as usize, 8_000, Place::Last));
    let v64 = kind_bytes(single(Element::V64));
    let fields = (0..fields).map(|index| FieldDraft {
        new: Some((v64.clone(), 2 + index)),
        chunk: Vec::new(),
    });
    let entry = EntryDraft {
        name: 1,
        super_name: Some(0),
        start: None,
        count: 0,
        fields: fields.collect(),
    };
    let entries = vec![entry];
    draft::write(&[PairDraft { strings, entries }])
}

/// Which byte names differ in.
#[derive(Clone, Copy, Debug, PartialEq, Eq)]
pub enum Place {
    Middle,
    Last,
}

/// So many names of one length that differ in one byte.
fn alike(count: usize, length: usize, place: Place) -> Vec<Vec<u8>> {
    let place = match place {
        Place::Middle => length / 2,
        Place::Last => length - 1,
    };
    let name = |index| {
        let mut name = vec![b'n'; length];
        name[place] = index as u8;
        name
    };
    (0..count).map(name).collect()
}

/// Types of these names without objects, each entered in each of some pairs.
fn entered(names: Vec<Vec<u8>>, pairs: u64) -> Vec<u8> {
    entered_by(names, 1, pairs)
}

/// The same where the names come in so many copies, all names before they
/// come again, and each pair names the types by the next copy.
fn entered_by(strings: Vec<Vec<u8>>, copies: u64, pairs: u64) -> Vec<u8> {
    let types = strings.len() as u64 / copies;
    let block = |pair: u64| {
        let before = pair % copies * types;
        let entries = (1..=types).map(|number| EntryDraft {
            name: before + number,
            super_name: (pair == 0).then_some(0),
            start: None,
            count: 0,
            fields: Vec::new(),
        });
        PairDraft {
            strings: Vec::new(),
            entries: entries.collect(),
        }
    };
    let mut drafts: Vec<PairDraft> = (0..pairs).map(block).collect();
    drafts[0].strings = strings;
    draft::write(&drafts)
}

/// 32 types without objects, each entered in each of 32 pairs, divided by
/// `part`, by one copy of its name and by the other in turn. The names fill a
/// megabyte, and differ in the last byte.
pub fn copied_names(part: u64) -> Vec<u8> {
    let names = alike(32, 16_250, Place::Last);
    entered_by([names.clone(), names].concat(), 2, 32 / part)
}

/// A base type and 31 types right below it, each entered in each of 32 pairs,
/// divided by `part`. A subtype has one object a pair, which refers to an
/// object of the next subtype: no two ranges of a type join, and there is a
/// chunk to be held to them at nearly every entry.
pub fn subtypes(part: u64) -> Vec<u8> {
    let weeks = Weeks {
        objects: 1,
        place: |_, index| index,
    };
    weeks.write(32 / part)
}

/// The same with four objects, and each pair enters the subtypes in another
/// order: where the ranges of a type stand in one pair says nothing of the
/// others.
pub fn other_weeks(part: u64) -> Vec<u8> {
    let weeks = Weeks {
        objects: 4,
        place: |pair, index| index * (1 + pair % 30) % BELOW,
    };
    weeks.write(32 / part)
}

/// How many types are right below the base type.
const BELOW: u64 = 31;

/// How many objects a subtype has in a pair, and which of the subtypes of a
/// pair it is.
struct Weeks {
    objects: u64,
    place: fn(u64, u64) -> u64,
}

impl Weeks {
    fn write(&self, pairs: u64) -> Vec<u8> {
        let mut random = Random::new(SEED);
        let mut pairs: Vec<PairDraft> = (0..pairs)
            .map(|pair| self.pair(&mut random, pair))
            .collect();
        let types = (0..=BELOW).map(|index| format!("type {index}").into_bytes());
        pairs[0].strings = types.chain([FIELD.to_vec()]).collect();
        draft::write(&pairs)
    }

    fn pair(&self, random: &mut Random, pair: u64) -> PairDraft {
        let base = EntryDraft {
            name: 1,
            super_name: (pair == 0).then_some(0),
            start: None,
            count: BELOW * self.objects,
            fields: Vec::new(),
        };
        let mut indices: Vec<u64> = (0..BELOW).collect();
        indices.sort_by_key(|&index| (self.place)(pair, index));
        let below = indices
            .into_iter()
            .map(|index| self.subtype(random, pair, index));
        PairDraft {
            strings: Vec::new(),
            entries: [base].into_iter().chain(below).collect(),
        }
    }

    fn subtype(&self, random: &mut Random, pair: u64, index: u64) -> EntryDraft {
        let next = (index + 1) % BELOW;
        let mut chunk = Vec::new();
        for _ in 0..self.objects {
            v64::write(&mut chunk, self.object(random, pair, next));
        }
        let kind = || kind_bytes(single(Element::Object(1 + next)));
        EntryDraft {
            name: 2 + index,
            super_name: (pair == 0).then_some(1),
            start: Some(self.objects * (self.place)(pair, index)),
            count: self.objects,
            fields: vec![FieldDraft {
                new: (pair == 0).then(|| (kind(), BELOW + 2)),
                chunk,
            }],
        }
    }

    /// An object of this subtype, from a pair up to this one.
    fn object(&self, random: &mut Random, pair: u64, index: u64) -> u64 {
        let from = random.between(0, pair);
        let range = BELOW * from + (self.place)(from, index);
        self.objects * range + random.between(1, self.objects)
    }
}

/// 32 types of one field, each entered in each of 32 pairs, divided by `part`,
/// with one object and so one annotation. Beside the names there are as many
/// strings as a file can have, as long as a name and no name of a type.
pub fn few_annotations(part: u64) -> Vec<u8> {
    let mut random = Random::new(SEED);
    let mut pairs: Vec<PairDraft> = (1..=32 / part)
        .map(|pair| annotated_pair(&mut random, pair))
        .collect();
    let types = (0..32).map(|index| format!("t{index:03}").into_bytes());
    let others = (33..1_024).map(|index| format!("{index:04}").into_bytes());
    pairs[0].strings = types.chain([FIELD.to_vec()]).chain(others).collect();
    draft::write(&pairs)
}

/// The pair of this number, from 1, which is also how many objects a type has.
fn annotated_pair(random: &mut Random, pair: u64) -> PairDraft {
    let entries = (1..=32).map(|name| {
        let mut chunk = v64::coded(random.between(1, 32));
        v64::write(&mut chunk, random.between(1, pair));
        let kind = || kind_bytes(single(Element::Annotation));
        EntryDraft {
            name,
            super_name: (pair == 1).then_some(0),
            start: None,
            count: 1,
            fields: vec![FieldDraft {
                new: (pair == 1).then(|| (kind(), 33)),
                chunk,
            }],
        }
    });
    PairDraft {
        strings: Vec::new(),
        entries: entries.collect(),
    }
}

/// 32 types of four fields, each entered in each of 32 pairs, divided by
/// `part`, with one object: as many chunks as a file can have, and a value in
/// each of them.
pub fn small_chunks(part: u64) -> Vec<u8> {
    let mut random = Random::new(SEED);
    let mut pairs: Vec<PairDraft> = (1..=32 / part)
        .map(|pair| small_pair(&mut random, pair))
        .collect();
    let types = (0..32).map(|index| format!("type {index}").into_bytes());
    let fields = (0..4).map(|index| format!("f{index}").into_bytes());
    pairs[0].strings = types.chain(fields).collect();
    draft::write(&pairs)
}

/// The pair of this number, from 1, which is also how many objects a type has.
fn small_pair(random: &mut Random, pair: u64) -> PairDraft {
    let entries = (0..32).map(|index| {
        let number = random.below(37);
        let object = random.between(0, pair);
        let chunks = [
            (Element::Text, v64::coded(number)),
            (Element::I8, vec![random.byte()]),
            (Element::V64, v64::coded(random.bits())),
            (Element::Object(index), v64::coded(object)),
        ];
        let fields = chunks.into_iter().zip(33..);
        let fields = fields.map(|((element, chunk), name)| FieldDraft {
            new: (pair == 1).then(|| (kind_bytes(single(element)), name)),
            chunk,
        });
        EntryDraft {
            name: 1 + index,
            super_name: (pair == 1).then_some(0),
            start: None,
            count: 1,
            fields: fields.collect(),
        }
    });
    PairDraft {
        strings: Vec::new(),
        entries: entries.collect(),
    }
}

const fn single(element: Element) -> Kind {
    Kind::Stored {
        form: Form::Single,
        element,
    }
}

/// A base type with fields, and a subtype over the middle of each block.
struct World<'a> {
    random: &'a mut Random,
    kinds: &'a [Kind],
    /// Objects of the base type so far.
    objects: u64,
    /// Where the subtype's objects lie: first number and count.
    ranges: Vec<(u64, u64)>,
    /// Strings that name neither a type nor a field.
    serials: u64,
    strings: u64,
    /// How many annotations there are so far.
    annotations: u64,
}

impl<'a> World<'a> {
    fn new(random: &'a mut Random, kinds: &'a [Kind]) -> Self {
        World {
            random,
            kinds,
            objects: 0,
            ranges: Vec::new(),
            serials: 0,
            strings: 0,
            annotations: 0,
        }
    }

    fn pair(&mut self, objects: u64) -> PairDraft {
        let first = self.objects == 0;
        let mut strings = Vec::new();
        if first {
            strings = vec![TYPE.to_vec(), SUBTYPE.to_vec()];
            let names = (0..self.kinds.len()).map(|index| format!("f{index}").into_bytes());
            strings.extend(names);
            let serials = (0..self.serials).map(|number| format!("{number}").into_bytes());
            strings.extend(serials);
            self.strings = strings.len() as u64;
        }
        let (start, count) = (objects / 4, objects / 2);
        self.ranges.push((self.objects + start + 1, count));
        self.objects += objects;
        let fields = (0..self.kinds.len()).map(|index| FieldDraft {
            new: first.then(|| (kind_bytes(self.kinds[index]), 3 + index as u64)),
            chunk: self.chunk(self.kinds[index], objects),
        });
        let base = EntryDraft {
            name: 1,
            super_name: first.then_some(0),
            start: None,
            count: objects,
            fields: fields.collect(),
        };
        let sub = EntryDraft {
            name: 2,
            super_name: first.then_some(1),
            start: Some(start),
            count,
            fields: Vec::new(),
        };
        PairDraft {
            strings,
            entries: vec![base, sub],
        }
    }

    fn chunk(&mut self, kind: Kind, values: u64) -> Vec<u8> {
        let mut chunk = Vec::new();
        for _ in 0..values {
            match kind {
                Kind::Constant { .. } => {}
                Kind::Stored { form, element } => self.stored(form, element, &mut chunk),
                Kind::Map(types) => self.map(types.elements(), &mut chunk),
            }
        }
        chunk
    }

    fn stored(&mut self, form: Form, element: Element, out: &mut Vec<u8>) {
        let length = match form {
            Form::Single => 1,
            Form::Fixed(length) => length,
            Form::Sized(_) => self.size(out),
        };
        for _ in 0..length {
            self.element(element, out);
        }
    }

    /// What stands for the types that are left.
    fn map(&mut self, types: &[Element], out: &mut Vec<u8>) {
        match *types {
            [] => {}
            [last] => self.element(last, out),
            [key, ref rest @ ..] => {
                for _ in 0..self.size(out) {
                    self.element(key, out);
                    self.map(rest, out);
                }
            }
        }
    }

    fn size(&mut self, out: &mut Vec<u8>) -> u64 {
        let size = self.random.below(5);
        v64::write(out, size);
        size
    }

    fn element(&mut self, element: Element, out: &mut Vec<u8>) {
        let bits = self.random.word();
        match element {
            Element::Bool => out.push(if bits & 1 == 0 { 0x00 } else { 0xFF }),
            Element::I8 => wide(out, bits, 1),
            Element::I16 => wide(out, bits, 2),
            Element::I32 | Element::F32 => wide(out, bits, 4),
            Element::I64 | Element::F64 => wide(out, bits, 8),
            Element::V64 => {
                let value = self.random.bits();
                v64::write(out, value);
            }
            Element::Text => v64::write(out, bits % (self.strings + 1)),
            Element::Annotation => {
                // The other names stand behind those of the fields.
                let name = match self.annotations % NAMES {
                    0 => 1,
                    again => self.strings + again,
                };
                self.annotations += 1;
                v64::write(out, name);
                v64::write(out, 1 + bits % self.objects);
            }
            Element::Object(0) => v64::write(out, bits % (self.objects + 1)),
            Element::Object(_) => {
                let &(first, count) = self.random.pick(&self.ranges);
                v64::write(out, first + bits % count);
            }
        }
    }
}
