//! Counting what a list of cases comes to.

use std::collections::BTreeMap;

use crate::bounds;
use crate::calls;
use crate::generate::Case;
use crate::kind::{Element, Form, Kind, REFERENCE};
use crate::ledger::{Chunk, Ledger, Pair};
use crate::reader;
use crate::refusal::Refusal;
use crate::v64;

/// How many cases had each answer, and how many accepted files have each
/// thing worth having.
#[derive(Default)]
pub struct Tally {
    pub cases: usize,
    pub accepted: usize,
    /// By refusal number.
    pub refused: [usize; 22],
    pub features: BTreeMap<String, usize>,
}

/// What a list of files comes to.
pub fn of_files(cases: &[Case]) -> Tally {
    let mut tally = Tally::default();
    for case in cases {
        let ledger = reader::read(&case.bytes);
        tally.add(ledger.as_ref().map(|_| ()).map_err(|&refusal| refusal));
        if let Ok(ledger) = ledger {
            for feature in features(&ledger) {
                *tally.features.entry(feature).or_default() += 1;
            }
        }
    }
    tally
}

/// What a list of listings comes to.
pub fn of_listings(cases: &[Case]) -> Tally {
    let mut tally = Tally::default();
    let mut work = vec![0; bounds::TABLE];
    let mut out = vec![0; bounds::FILE];
    for case in cases {
        tally.add(calls::build(&case.bytes, &mut work, &mut out).map(|_| ()));
    }
    tally
}

impl Tally {
    fn add(&mut self, answer: Result<(), Refusal>) {
        self.cases += 1;
        match answer {
            Ok(()) => self.accepted += 1,
            Err(refusal) => self.refused[usize::from(refusal.number)] += 1,
        }
    }

    /// A table, one line a number.
    pub fn lines(&self, what: &str) -> String {
        let mut text = format!("{what}\t{}\n", self.cases);
        text += &format!("accepted\t{}\n", self.accepted);
        for (number, count) in self.refused.iter().enumerate().skip(1) {
            text += &format!("refused {number}\t{count}\n");
        }
        for (feature, count) in &self.features {
            text += &format!("{feature}\t{count}\n");
        }
        text
    }
}

/// What an accepted file has, each thing once.
fn features(ledger: &Ledger<'_>) -> Vec<String> {
    let mut found = Vec::new();
    let mut has = |name: &str, there: bool| {
        if there {
            found.push(format!("with {name}"));
        }
    };
    has(
        "hierarchies",
        ledger.types.iter().any(|t| t.super_type.is_some()),
    );
    has("several pairs", ledger.pairs.len() > 1);
    has(
        "count-0 entries",
        ledger.entries.iter().any(|e| e.count == 0),
    );
    has(
        "late fields",
        ledger.entries.iter().any(|e| late(ledger, e)),
    );
    let links = links(ledger);
    has("references forward", links.iter().any(|link| link.forward));
    has("references to subtypes", links.iter().any(|link| link.sub));
    let kinds = || {
        ledger
            .chunks
            .iter()
            .map(|c| (ledger.fields[c.field].kind, c))
    };
    has(
        "annotations that lead somewhere",
        kinds().any(|(kind, chunk)| leads(ledger, kind, chunk)),
    );
    has(
        "maps that have keys",
        kinds().any(|(kind, chunk)| {
            matches!(kind, Kind::Map(_)) && begins_above_0(ledger.part(chunk))
        }),
    );
    has(
        "maps of maps",
        kinds().any(|(kind, _)| matches!(kind, Kind::Map(types) if types.elements().len() > 2)),
    );
    for number in (0..=20).chain([REFERENCE]) {
        let there = ledger.fields.iter().any(|field| {
            let kind = field.kind.number().min(REFERENCE);
            kind == number
        });
        has(&format!("kind {number:02}"), there);
    }
    found
}

/// Whether a chunk of single annotations has one that is not null.
fn leads(ledger: &Ledger<'_>, kind: Kind, chunk: &Chunk) -> bool {
    let annotations = Kind::Stored {
        form: Form::Single,
        element: Element::Annotation,
    };
    kind == annotations && begins_above_0(ledger.part(chunk))
}

/// Whether a chunk that begins with a v64, and goes on with others as long as
/// they are 0, has one that is not.
fn begins_above_0(part: &[u8]) -> bool {
    let mut at = 0;
    while let Ok((value, next)) = v64::read(part, at) {
        if value != 0 {
            return true;
        }
        at = next;
    }
    false
}

/// Whether an entry gives a known type with objects a new field.
fn late(ledger: &Ledger<'_>, entry: &crate::ledger::Entry) -> bool {
    let chunks = &ledger.chunks[entry.chunks.clone()];
    entry.super_name.is_none() && chunks.iter().any(|c| c.new && c.values > entry.count)
}

/// A chunk with references of which one is not null.
struct Link {
    /// The type's entry stands later in the block than the field's.
    forward: bool,
    /// The type has a super type.
    sub: bool,
}

fn links(ledger: &Ledger<'_>) -> Vec<Link> {
    let mut links = Vec::new();
    for pair in &ledger.pairs {
        for index in pair.entries.clone() {
            for chunk in &ledger.chunks[ledger.entries[index].chunks.clone()] {
                links.extend(link(ledger, pair, index, chunk));
            }
        }
    }
    links
}

fn link(ledger: &Ledger<'_>, pair: &Pair, index: usize, chunk: &Chunk) -> Option<Link> {
    let Kind::Stored {
        form,
        element: Element::Object(wanted),
    } = ledger.fields[chunk.field].kind
    else {
        return None;
    };
    let wanted = wanted as usize;
    let mut later = index + 1..pair.entries.end;
    any_object(ledger, form, chunk).then(|| Link {
        forward: later.any(|entry| ledger.entries[entry].type_index == wanted),
        sub: ledger.types[wanted].super_type.is_some(),
    })
}

/// Whether a chunk of references has one that is not null. Array lengths are
/// v64 numbers as well and are passed over.
fn any_object(ledger: &Ledger<'_>, form: Form, chunk: &Chunk) -> bool {
    let part = ledger.part(chunk);
    let mut at = 0;
    let mut elements = 0;
    while let Ok((value, next)) = v64::read(part, at) {
        at = next;
        match form {
            Form::Sized(_) if elements == 0 => elements = value,
            _ if value != 0 => return true,
            _ => elements = elements.saturating_sub(1),
        }
    }
    false
}
