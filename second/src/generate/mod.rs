//! Files and listings to compare two programs with: good, damaged and extreme.
//!
//! Everything is made from a seed and comes out the same every time. Cases
//! made for a rule carry the answer the paper gives; they come first, the ones
//! made by chance behind them.

mod annotations;
mod damage;
mod extremes;
mod good;
mod maps;
mod neighbours;
pub mod notation;
mod padded;
pub mod random;
mod rules;
pub mod sentences;
mod small;
pub mod spelling;
mod texts;

use crate::draft::{Spell, Written};
use crate::v64;
use random::Random;

pub use padded::{twins, Twin};
pub use texts::LISTING_E;

/// The seed everything is made from unless another is asked for.
pub const SEED: u64 = 0x71DE_0001;
/// How many files are made by chance unless another number is asked for.
pub const FILES: usize = 5_000;
/// How many listings are made by chance unless another number is asked for.
pub const LISTINGS: usize = 2_500;

/// A file or a listing.
#[derive(Clone, Debug)]
pub struct Case {
    /// What it is for.
    pub label: String,
    pub bytes: Vec<u8>,
    /// The refusal number the paper gives, 0 for none, where the case was
    /// made for a rule; none where chance made it.
    pub expected: Option<u8>,
}

impl Case {
    /// A case with a known answer.
    pub fn ruled(label: &str, answer: u8, bytes: Vec<u8>) -> Self {
        Case {
            label: label.to_string(),
            bytes,
            expected: Some(answer),
        }
    }

    /// A case whose answer has to be worked out.
    pub fn chance(label: String, bytes: Vec<u8>) -> Self {
        Case {
            label,
            bytes,
            expected: None,
        }
    }
}

/// All files made for rules and bounds, then `count` made by chance.
pub fn files(seed: u64, count: usize) -> Vec<Case> {
    let mut cases = fixed_files();
    let mut random = Random::new(seed);
    cases.extend((0..count).map(|index| chance_file(&mut random, index)));
    cases
}

/// The files that do not depend on the seed.
pub fn fixed_files() -> Vec<Case> {
    let mut cases = small();
    cases.extend(
        sentences::sections()
            .into_iter()
            .flat_map(|section| section.cases),
    );
    cases.extend(rules::cases());
    cases.extend(annotations::cases());
    cases.extend(maps::cases());
    cases.extend(neighbours::cases());
    cases.extend(extremes::cases());
    cases.extend(padded::cases());
    cases.extend(thorough());
    cases
}

/// All listings made for rules and bounds, then `count` made by chance.
pub fn listings(seed: u64, count: usize) -> Vec<Case> {
    let mut cases = texts::fixed();
    cases.extend(texts::by_chance(&mut Random::new(seed), count));
    cases
}

/// Some 80 small files that even a slow interpreter reads quickly.
pub fn small() -> Vec<Case> {
    small::cases()
}

/// A few good files damaged at every single place.
fn thorough() -> Vec<Case> {
    let mut cases = Vec::new();
    let named = [
        ("D", "D"),
        ("E", "E"),
        ("all plain kinds", rules::ALL_PLAIN),
        ("all array kinds", rules::ALL_ARRAYS),
        ("tree", rules::TREE),
        ("late fields", rules::LATE),
        ("annotations and maps", maps::LINKED),
    ];
    for (name, text) in named {
        let file = notation::bytes(text);
        let mut damaged = damage::cuts(&file);
        if matches!(name, "E" | "tree" | "late fields" | "annotations and maps") {
            damaged.extend(damage::flips(&file));
            damaged.extend(damage::shifts(&file));
        }
        let labelled = damaged.into_iter();
        cases.extend(labelled.map(|(what, bytes)| Case::chance(format!("{name}, {what}"), bytes)));
    }
    cases
}

fn chance_file(random: &mut Random, index: usize) -> Case {
    let size = match random.below(20) {
        0 => good::WIDE,
        1 | 2 => good::LONG,
        _ => good::SMALL,
    };
    let way = index % 10;
    // The last way of damage has padded numbers too: lengths and ends are those
    // of its chunks as they are spelt.
    let is_padded = matches!(way, 3 | 9);
    let spell: Spell = if is_padded {
        spelling::mixed
    } else {
        v64::write
    };
    let mut pairs = good::ledger(random, size, spell);
    let mut labels = Vec::new();
    if way >= 7 {
        labels.push(damage::of_parts(random, &mut pairs));
    }
    let mut written = Written::spelt(spell);
    for pair in &pairs {
        written.pair(pair);
    }
    if way == 5 || way == 6 {
        let (label, bytes) = damage::of_number(random, &written);
        labels.push(label);
        written.bytes = bytes;
    }
    if way == 4 {
        for _ in 0..random.between(1, 2) {
            labels.push(damage::of_bytes(random, &mut written.bytes));
        }
    }
    if labels.is_empty() {
        labels.push("good".to_string());
    }
    if is_padded {
        labels.insert(0, "padded".to_string());
    }
    let label = format!("chance file {index}, {}", labels.join(", "));
    Case::chance(label, written.bytes)
}
