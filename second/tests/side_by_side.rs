//! What is read, printed and built several bytes at a time, at all lengths and
//! in all places: a word that begins anywhere has the same numbers in it.

mod common;

use common::{build, check, listing, values_of};
use second::draft::{self, kind_bytes, EntryDraft, FieldDraft, PairDraft};
use second::generate::random::Random;
use second::generate::{spelling, SEED};
use second::kind::{Element, Form, Kind};
use second::{v64, Refusal};

fn single(element: Element) -> Kind {
    Kind::Stored {
        form: Form::Single,
        element,
    }
}

/// A type `t` of one field `f`, with so many objects.
fn file(kind: Kind, objects: u64, chunk: Vec<u8>) -> Vec<u8> {
    draft::write(&[PairDraft {
        strings: vec![b"t".to_vec(), b"f".to_vec()],
        entries: vec![EntryDraft {
            name: 1,
            super_name: Some(0),
            start: None,
            count: objects,
            fields: vec![FieldDraft {
                new: Some((kind_bytes(kind), 2)),
                chunk,
            }],
        }],
    }])
}

/// The lines of a file's values.
fn lines(file: &[u8]) -> Vec<String> {
    let text = String::from_utf8(listing(file).unwrap()).unwrap();
    let values = text.lines().filter_map(|line| line.strip_prefix("val\t"));
    values.map(str::to_string).collect()
}

/// Numbers of every length and near every bound of one.
fn numbers() -> Vec<u64> {
    let mut all = vec![0, u64::MAX, i64::MAX as u64, i64::MIN as u64];
    let bits = (0..64).map(|bit| 1u64 << bit);
    let tens = (0..20).map(|power| 10u64.pow(power));
    for bound in bits.chain(tens) {
        all.extend([bound - 1, bound, bound + 1, bound.wrapping_neg()]);
    }
    let mut random = Random::new(SEED);
    all.extend((0..2_000).map(|_| random.bits()));
    all
}

#[test]
fn numbers_of_every_length_stand_side_by_side() {
    let all = numbers();
    for way in [v64::write, spelling::nine] {
        let mut chunk = Vec::new();
        all.iter().for_each(|&number| way(&mut chunk, number));
        let file = file(single(Element::V64), all.len() as u64, chunk);
        assert_eq!(check(&file), Ok(()));
        let signed: Vec<i64> = all.iter().map(|&number| number as i64).collect();
        assert_eq!(values_of(&file, b"t", b"f", 11), Ok(signed.clone()));
        let printed: Vec<String> = signed.iter().map(i64::to_string).collect();
        assert_eq!(lines(&file), printed);
    }
}

#[test]
fn what_was_printed_is_built_again() {
    let all = numbers();
    let kinds = [Element::I64, Element::V64, Element::F32, Element::F64];
    for element in kinds {
        let mut chunk = Vec::new();
        for &number in &all {
            match element {
                Element::V64 => v64::write(&mut chunk, number),
                Element::F32 => draft::wide(&mut chunk, number, 4),
                _ => draft::wide(&mut chunk, number, 8),
            }
        }
        let file = file(single(element), all.len() as u64, chunk);
        assert_eq!(build(&listing(&file).unwrap()).as_ref(), Ok(&file));
    }
}

/// A chunk is cut anywhere: the number that crosses its end is the place, or
/// the end itself if the next one would begin there.
#[test]
fn the_number_that_is_cut_is_the_place() {
    let mut all = numbers();
    all.truncate(120);
    let mut starts = Vec::new();
    let mut chunk = Vec::new();
    for &number in &all {
        starts.push(chunk.len());
        v64::write(&mut chunk, number);
    }
    for cut in 0..chunk.len() {
        let file = file(
            single(Element::V64),
            all.len() as u64,
            chunk[..cut].to_vec(),
        );
        let crosses = starts.iter().rev().find(|&&start| start <= cut).unwrap();
        let place = (file.len() - cut + crosses) as u64;
        assert_eq!(check(&file), Err(Refusal { number: 12, place }));
    }
}

/// Any byte of a long chunk of bools.
#[test]
fn the_first_wrong_bool_is_the_place() {
    let right: Vec<u8> = (0..300).map(|index| [0x00, 0xFF][index % 2]).collect();
    for wrong in 0..right.len() {
        let mut chunk = right.clone();
        chunk[wrong] = 0x7F;
        chunk[299] = 0x01;
        let file = file(single(Element::Bool), 300, chunk);
        let place = (file.len() - 300 + wrong) as u64;
        assert_eq!(check(&file), Err(Refusal { number: 13, place }));
    }
}

/// Blocks of 200 objects; of each block a range belongs to the subtype. A
/// reference to any object of any block is taken if it is in one of them.
#[test]
fn an_object_is_looked_for_in_all_ranges() {
    let ranges = [
        (3, 190),
        (0, 1),
        (70, 130),
        (0, 200),
        (0, 64),
        (199, 1),
        (1, 128),
    ];
    let is_one = |object: u64| {
        let (block, index) = ((object - 1) / 200, (object - 1) % 200);
        let (start, count) = ranges[block as usize];
        (start..start + count).contains(&index)
    };
    let heads = |object: u64| {
        let pairs = ranges.iter().enumerate().map(|(index, &(start, count))| {
            let first = index == 0;
            let last = index + 1 == ranges.len();
            // One more type, whose only object refers to the object.
            let mut chunk = Vec::new();
            v64::write(&mut chunk, object);
            let field = FieldDraft {
                new: Some((kind_bytes(single(Element::Object(1))), 3)),
                chunk,
            };
            let entry = |name, super_name: Option<u64>, start, count, fields| EntryDraft {
                name,
                super_name,
                start,
                count,
                fields,
            };
            let mut entries = vec![
                entry(1, first.then_some(0), None, 200, vec![]),
                entry(2, first.then_some(1), Some(start), count, vec![]),
            ];
            if last {
                entries.push(entry(3, Some(0), None, 1, vec![field]));
            }
            let names = [b"t", b"s", b"r"].map(|name| name.to_vec());
            PairDraft {
                strings: if first { names.to_vec() } else { vec![] },
                entries,
            }
        });
        draft::write(&pairs.collect::<Vec<_>>())
    };
    for object in 1..=1_400 {
        let answer = check(&heads(object)).map_err(|refusal| refusal.number);
        assert_eq!(
            answer.is_ok(),
            is_one(object),
            "object {object}: {answer:?}"
        );
    }
    assert_eq!(check(&heads(0)), Ok(()));
    assert_eq!(
        check(&heads(1_401)).map_err(|refusal| refusal.number),
        Err(14)
    );
}

/// Names that differ in any one byte are two names.
#[test]
fn long_names_differ_in_any_byte() {
    for length in [1, 7, 8, 9, 31, 32, 33, 64, 100] {
        let mut strings = vec![b"t".to_vec(), vec![b'x'; length]];
        strings.extend((0..length.min(126)).map(|index| {
            let mut name = vec![b'x'; length];
            name[index] = b'y';
            name
        }));
        let field = |name| FieldDraft {
            new: Some((kind_bytes(single(Element::V64)), name)),
            chunk: vec![],
        };
        let names = 2..=strings.len() as u64;
        let entry = |fields| EntryDraft {
            name: 1,
            super_name: Some(0),
            start: None,
            count: 0,
            fields,
        };
        let pair = |again: Option<u64>| PairDraft {
            strings: [&strings[..], &strings[1..]].concat(),
            entries: vec![entry(names.clone().chain(again).map(field).collect())],
        };
        assert_eq!(check(&draft::write(&[pair(None)])), Ok(()));
        for again in names.clone() {
            let equal = again + strings.len() as u64 - 1;
            let answer = check(&draft::write(&[pair(Some(equal))]));
            assert_eq!(answer.map_err(|refusal| refusal.number), Err(6));
        }
    }
}
