//! The generator makes what it promises.

mod common;

use common::number;
use second::big::Place;
use second::generate::{self, FILES, LISTINGS, SEED};
use second::kind::REFERENCE;
use second::{big, bounds, tally};

/// The refusals a file can get.
const OF_FILES: [usize; 13] = [1, 3, 4, 5, 6, 7, 9, 10, 11, 12, 13, 14, 21];

#[test]
fn every_refusal_of_a_file_comes_up() {
    for (seed, count) in [(SEED, FILES), (1, 500)] {
        let tally = tally::of_files(&generate::files(seed, count));
        for number in OF_FILES {
            assert!(tally.refused[number] > 0, "refusal {number} never came up");
        }
        // 2 and 8 are never given, and 15 to 20 are not of files.
        for number in [2, 8, 15, 16, 17, 18, 19, 20] {
            assert_eq!(tally.refused[number], 0);
        }
        assert!(tally.accepted > 500);
        for feature in [
            "hierarchies",
            "late fields",
            "count-0 entries",
            "references forward",
            "references to subtypes",
            "annotations that lead somewhere",
            "maps that have keys",
            "maps of maps",
        ] {
            let count = tally.features.get(&format!("with {feature}"));
            assert!(count.is_some_and(|&count| count > 20), "{feature}");
        }
        for kind in (0..=15).chain(17..=20).chain([32]) {
            let count = tally.features.get(&format!("with kind {kind:02}"));
            assert!(count.is_some_and(|&count| count > 5), "kind {kind}");
        }
    }
}

#[test]
fn chance_alone_gives_most_refusals() {
    let fixed = generate::fixed_files().len();
    let tally = tally::of_files(&generate::files(SEED, FILES)[fixed..]);
    for number in OF_FILES {
        assert!(tally.refused[number] > 0, "refusal {number} never came up");
    }
}

#[test]
fn listings_are_accepted_or_twenty() {
    let tally = tally::of_listings(&generate::listings(SEED, LISTINGS));
    assert_eq!(tally.accepted + tally.refused[20], tally.cases);
    assert!(tally.accepted > 500 && tally.refused[20] > 500);
}

#[test]
fn a_seed_gives_the_same_cases_every_time() {
    let bytes = |seed| {
        let cases = generate::files(seed, 200).into_iter();
        cases.map(|case| case.bytes).collect::<Vec<_>>()
    };
    assert_eq!(bytes(5), bytes(5));
    assert_ne!(bytes(5), bytes(6));
}

/// A file labelled good is.
#[test]
fn good_files_are_accepted() {
    for seed in 0..3 {
        let fixed = generate::fixed_files().len();
        for case in &generate::files(seed, 1_000)[fixed..] {
            if case.label.ends_with(", good") {
                assert_eq!(number(&case.bytes), 0, "{}", case.label);
            }
        }
    }
}

#[test]
fn small_files_are_small_and_give_all_refusals_twice() {
    let cases = generate::small();
    assert!((60..=85).contains(&cases.len()), "{}", cases.len());
    let mut given = [0; 22];
    for case in &cases {
        assert!(
            case.bytes.len() <= 64,
            "{}: {}",
            case.label,
            case.bytes.len()
        );
        assert_eq!(Some(number(&case.bytes)), case.expected, "{}", case.label);
        given[usize::from(number(&case.bytes))] += 1;
    }
    assert!(given[0] >= 20);
    for number in OF_FILES {
        assert!(
            given[number] >= 2,
            "refusal {number} comes {} times",
            given[number]
        );
    }
}

#[test]
fn few_files_are_large() {
    let cases = generate::files(SEED, FILES);
    let large = cases
        .iter()
        .filter(|case| case.bytes.len() > 200_000)
        .count();
    assert!(large < 10, "{large}");
    assert!(cases.iter().any(|case| case.bytes.len() == bounds::FILE));
    assert!(cases
        .iter()
        .any(|case| case.bytes.len() == bounds::FILE + 1));
}

#[test]
fn big_files_are_accepted_and_as_large_as_they_should_be() {
    for case in big::files() {
        assert_eq!(number(&case.bytes), 0, "{}", case.label);
    }
    let lengths = [
        big::v64_values(1).len(),
        big::mixed_kinds(1).len(),
        big::references(1).len(),
        big::annotations(1).len(),
        big::maps(2, 1).len(),
        big::maps(3, 1).len(),
        big::maps(4, 1).len(),
        big::short_arrays(1).len(),
        big::bools(1).len(),
        big::long_types(Place::Last, 1).len(),
        big::long_types(Place::Middle, 1).len(),
        big::long_fields(1).len(),
        big::copied_names(1).len(),
    ];
    for length in lengths {
        assert!(length > 800_000, "{length}");
    }
    assert_eq!(big::entered_types(1).len(), 3_392);
    let file = big::subtypes(1);
    assert_eq!(common::objects(&file, b"type 0"), Ok(32 * 31));
    assert_eq!(common::objects(&file, b"type 31"), Ok(32));
    assert!(common::values_of(&file, b"type 31", big::FIELD, 32).is_ok());
    let file = big::few_annotations(1);
    assert_eq!(common::objects(&file, b"t031"), Ok(32));
    let file = big::column(1);
    let values = common::values_of(&file, big::TYPE, big::FIELD, 11).unwrap();
    assert_eq!(values.len(), 65_535);
    let file = big::references(1);
    assert_eq!(common::objects(&file, big::TYPE), Ok(32 * 2_047));
    assert_eq!(common::objects(&file, big::SUBTYPE), Ok(32 * 1_023));
    assert!(common::values_of(&file, big::TYPE, big::FIELD, 32).is_ok());
    for (name, kind) in big::COLUMNS {
        let file = big::column_of(kind, 1);
        // A reference is asked for as one to any type.
        let asked = kind.number().min(REFERENCE);
        let values = common::values_of(&file, big::TYPE, big::FIELD, asked).unwrap();
        assert_eq!(values.len(), 65_535, "{name}");
    }
    let file = big::small_chunks(1);
    assert_eq!(common::objects(&file, b"type 31"), Ok(32));
}
