//! Asks a copy of the second program, with each of its faults in turn, about
//! what the generator makes. It is compiled against the copy.
//!
//! The words are a file with the cases, as the test writes them, the number of
//! the last fault that is not about places, and the number of faults. For each
//! fault a line is printed: its number, a tab, and the first case that it
//! answers differently, or nothing.

use std::collections::BTreeSet;
use std::panic::{self, AssertUnwindSafe};

use second::bounds::{FILE, TABLE};
use second::kind::REFERENCE;
use second::ledger::{Field, Ledger};
use second::{planted, reader, Refusal};

/// A file or a listing.
struct Case {
    is_listing: bool,
    /// Whether it was made for a rule, and is asked more.
    is_ruled: bool,
    label: String,
    bytes: Vec<u8>,
}

/// A call on a file or a listing, with all that is lent.
struct Question<'a> {
    case: &'a Case,
    call: Call,
    table: usize,
}

impl Question<'_> {
    fn is_quick(&self) -> bool {
        self.case.bytes.len() <= 3_000
    }
}

enum Call {
    Check,
    Objects { type_name: Vec<u8> },
    CountValues { of: Asked },
    FillValues { of: Asked, room: usize },
    Listing { room: usize },
    Build { room: usize },
}

/// What is asked for of a field.
#[derive(Clone, PartialEq, Eq, PartialOrd, Ord)]
struct Asked {
    type_name: Vec<u8>,
    field_name: Vec<u8>,
    kind: u64,
}

impl Call {
    /// Quick calls come first.
    fn turn(&self) -> u8 {
        match self {
            Call::Check => 0,
            Call::Build { .. } => 1,
            Call::Listing { .. } | Call::Objects { .. } => 2,
            Call::FillValues { .. } => 3,
            Call::CountValues { .. } => 4,
        }
    }
}

/// What a call says and leaves, and the place of its refusal.
struct Answer {
    outcome: Outcome,
    place: u64,
}

impl Answer {
    /// The library that is held to this program does not tell places, so they
    /// only count for faults that are about them.
    fn differs(&self, other: &Answer, places: bool) -> bool {
        self.outcome != other.outcome || places && self.place != other.place
    }
}

/// What a call says and leaves. A call that panics says nothing.
#[derive(PartialEq, Eq)]
struct Outcome {
    said: Option<i64>,
    table: State,
    numbers: u64,
    bytes: u64,
}

#[derive(PartialEq, Eq)]
enum State {
    Untouched,
    Cleared,
    Other,
}

fn main() {
    let words: Vec<String> = std::env::args().skip(1).collect();
    let cases = cases(&std::fs::read(&words[0]).expect("a file with cases"));
    let [numbered, faults] = [1, 2].map(|word: usize| words[word].parse().expect("a number"));
    panic::set_hook(Box::new(|_| ()));
    let questions = questions(&cases);
    let mut lent = Lent::new();
    let right: Vec<Answer> = questions.iter().map(|one| lent.ask(one)).collect();
    // What showed a fault is likely to show another like it.
    let mut telling: Vec<usize> = Vec::new();
    for fault in 1..=faults {
        planted::set(fault);
        let places = fault > numbered;
        let mut shows =
            |&index: &usize| lent.ask(&questions[index]).differs(&right[index], places);
        let shown = telling.iter().rev().copied().find(&mut shows);
        let shown = shown.or_else(|| (0..questions.len()).find(&mut shows));
        let label = shown.map_or("", |index| &questions[index].case.label[..]);
        println!("{fault}\t{label}");
        telling.retain(|&index| shown != Some(index));
        telling.extend(shown.filter(|&index| questions[index].is_quick()));
    }
}

/// Each case is two flags, and label and bytes with their lengths before them.
fn cases(mut rest: &[u8]) -> Vec<Case> {
    let mut cases = Vec::new();
    while let [is_listing, is_ruled, behind @ ..] = rest {
        let (label, behind) = piece(behind);
        let (bytes, behind) = piece(behind);
        rest = behind;
        cases.push(Case {
            is_listing: *is_listing == 1,
            is_ruled: *is_ruled == 1,
            label: String::from_utf8_lossy(label).into_owned(),
            bytes: bytes.to_vec(),
        });
    }
    cases
}

fn piece(rest: &[u8]) -> (&[u8], &[u8]) {
    let (length, behind) = rest.split_at(4);
    let length = length
        .iter()
        .fold(0, |value, &byte| value << 8 | usize::from(byte));
    behind.split_at(length)
}

/// All questions, in an order in which most faults are soon seen.
fn questions(cases: &[Case]) -> Vec<Question<'_>> {
    let mut all = Vec::new();
    for case in cases {
        match case.is_listing {
            true => of_listing(case, &mut all),
            false => of_file(case, &mut all),
        }
    }
    all.sort_by_key(|one| (!one.is_quick(), one.call.turn(), one.case.bytes.len()));
    all
}

fn question(case: &Case, call: Call) -> Question<'_> {
    Question {
        case,
        call,
        table: TABLE + 1,
    }
}

/// Too short a table, for anything.
fn short(case: &Case, call: Call, table: usize) -> Question<'_> {
    Question { case, call, table }
}

/// A listing with no room, and with that of its file.
fn of_listing<'a>(case: &'a Case, all: &mut Vec<Question<'a>>) {
    let mut rooms = vec![0];
    if let Some(file) = built(&case.bytes) {
        rooms.extend(near_rooms(file.len()));
    }
    let rooms = rooms.into_iter().take(if case.is_ruled { 4 } else { 2 });
    all.extend(rooms.map(|room| question(case, Call::Build { room })));
    if case.is_ruled {
        all.push(short(case, Call::Build { room: 0 }, TABLE - 1));
    }
}

fn built(text: &[u8]) -> Option<Vec<u8>> {
    let mut out = vec![0; FILE.min(9 * text.len())];
    let length = second::build(text, &mut vec![0; TABLE], &mut out).ok()?;
    Some(out[..length].to_vec())
}

/// Room for so many, for one more, and for one fewer.
fn near_rooms(exact: usize) -> Vec<usize> {
    let mut rooms = vec![exact, exact + 1];
    rooms.extend(exact.checked_sub(1));
    rooms
}

/// A file's listing, names and values, right ones and wrong ones.
fn of_file<'a>(case: &'a Case, all: &mut Vec<Question<'a>>) {
    all.push(question(case, Call::Check));
    let mut calls = Vec::new();
    match reader::read(&case.bytes) {
        Ok(ledger) => of_ledger(&ledger, case.is_ruled, &mut calls),
        Err(_) if case.is_ruled => calls = wrong(),
        Err(_) => {}
    }
    calls.extend(counts(&calls));
    all.extend(calls.into_iter().map(|call| question(case, call)));
    if case.is_ruled {
        let tables = [TABLE, TABLE - 1, 0].into_iter();
        all.extend(tables.map(|table| short(case, Call::Check, table)));
        let mut calls = wrong();
        calls.extend(counts(&calls));
        all.extend(calls.into_iter().map(|call| short(case, call, TABLE - 1)));
    }
}

/// Wrong in all that a file or a table can be asked before.
fn wrong() -> Vec<Call> {
    let type_name = Vec::new();
    vec![
        Call::Listing { room: 0 },
        Call::Objects { type_name },
        fill(b"a", b"a", 5, 0),
    ]
}

/// Of a longer file no values are asked.
const LONGEST: usize = 400;

fn of_ledger(ledger: &Ledger<'_>, is_ruled: bool, calls: &mut Vec<Call>) {
    let mut text = vec![0; 9 * ledger.file.len() + 9_999];
    if let Ok(length) = second::listing(ledger.file, &mut vec![0; TABLE], &mut text) {
        let rooms = near_rooms(length).into_iter();
        let rooms = rooms.take(if is_ruled { 3 } else { 1 });
        calls.extend(rooms.map(|room| Call::Listing { room }));
    }
    if !is_ruled || ledger.file.len() > LONGEST {
        return;
    }
    calls.push(fill(b"no such name", b"", 5, 0));
    for own in &ledger.types {
        let type_name = ledger.names.bytes(own.name);
        for name in near(type_name).into_iter().chain([type_name.to_vec()]) {
            calls.push(fill(&name, b"no such name", 5, 0));
            calls.push(Call::Objects { type_name: name });
        }
        for &field in &own.fields {
            of_field(
                ledger,
                type_name,
                ledger.fields[field],
                own.objects as usize,
                calls,
            );
        }
    }
    for number in 1..=ledger.names.len().min(9) as u32 {
        calls.push(Call::Objects {
            type_name: ledger.names.bytes(number).to_vec(),
        });
    }
}

fn of_field(
    ledger: &Ledger<'_>,
    type_name: &[u8],
    field: Field,
    objects: usize,
    calls: &mut Vec<Call>,
) {
    let name = ledger.names.bytes(field.name);
    let own = field.kind.number();
    let kind = own.min(REFERENCE);
    for room in near_rooms(objects) {
        calls.push(fill(type_name, name, kind, room));
    }
    for other in (0..REFERENCE + 3).chain([own + (1 << 8), own + (1 << 32), u64::MAX]) {
        let room = if other % 3 == 0 { 0 } else { objects };
        calls.push(fill(type_name, name, other, room));
    }
    for other in near(name) {
        calls.push(fill(type_name, &other, kind, objects));
        calls.push(fill(type_name, &other, 5, 0));
    }
    for other in ledger.types.iter().take(4) {
        let other_name = ledger.names.bytes(other.name);
        let room = objects.max(other.objects as usize);
        calls.push(fill(other_name, name, kind, room));
    }
}

/// A question for a field's values.
fn fill(type_name: &[u8], field_name: &[u8], kind: u64, room: usize) -> Call {
    Call::FillValues {
        of: Asked {
            type_name: type_name.to_vec(),
            field_name: field_name.to_vec(),
            kind,
        },
        room,
    }
}

/// How many values there are, once for all rooms that they are asked for in.
fn counts(calls: &[Call]) -> Vec<Call> {
    let filled = calls.iter().filter_map(|call| match call {
        Call::FillValues { of, .. } => Some(of),
        _ => None,
    });
    let asked: BTreeSet<&Asked> = filled.collect();
    let asked = asked.into_iter().cloned();
    asked.map(|of| Call::CountValues { of }).collect()
}

/// Names that are nearly this one.
fn near(name: &[u8]) -> Vec<Vec<u8>> {
    let mut names = vec![[name, b"\0"].concat(), Vec::new()];
    if let Some((&last, front)) = name.split_last() {
        names.push(front.to_vec());
        names.push([front, &[last ^ 0x80]].concat());
        names.push([&[name[0] ^ 1], &name[1..]].concat());
    }
    names
}

/// What lent memory holds before a call.
const LENT_TABLE: u32 = 0xA5A5_A5A5;
const LENT_NUMBER: i64 = -0x0123_4567_89AB_CDEF;
const LENT_BYTE: u8 = 0xA5;

/// Lent memory.
struct Lent {
    table: Vec<u32>,
    numbers: Vec<i64>,
    bytes: Vec<u8>,
}

impl Lent {
    fn new() -> Self {
        Lent {
            table: Vec::new(),
            numbers: Vec::new(),
            bytes: Vec::new(),
        }
    }

    fn ask(&mut self, question: &Question<'_>) -> Answer {
        self.table.resize(question.table, LENT_TABLE);
        for place in probes(self.table.len()) {
            self.table[place] = LENT_TABLE;
        }
        self.numbers.clear();
        self.bytes.clear();
        let said = panic::catch_unwind(AssertUnwindSafe(|| self.said(question)));
        let numbers = self.numbers.iter().map(|&number| number as u64);
        let bytes = self.bytes.iter().map(|&byte| u64::from(byte));
        let (said, place) = said.map_or((None, 0), |(said, place)| (Some(said), place));
        let outcome = Outcome {
            said,
            table: state(&self.table),
            numbers: numbers.fold(0, mixed),
            bytes: bytes.fold(0, mixed),
        };
        Answer { outcome, place }
    }

    /// The answer as the C functions have it, minus the refusal or 0 and more,
    /// and the place of the refusal.
    fn said(&mut self, question: &Question<'_>) -> (i64, u64) {
        let input = &question.case.bytes;
        let table = &mut self.table[..];
        let done = |answer: Result<usize, Refusal>| match answer {
            Ok(count) => (count as i64, 0),
            Err(refusal) => (-i64::from(refusal.number), refusal.place),
        };
        match &question.call {
            Call::Check => done(second::check(input, table).map(|()| 0)),
            Call::Objects { type_name } => done(second::objects(input, type_name, table)),
            Call::CountValues { of } => done(second::count_values(
                input,
                &of.type_name,
                &of.field_name,
                of.kind,
                table,
            )),
            Call::FillValues { of, room } => {
                self.numbers.resize(*room, LENT_NUMBER);
                done(second::fill_values(
                    input,
                    &of.type_name,
                    &of.field_name,
                    of.kind,
                    table,
                    &mut self.numbers,
                ))
            }
            Call::Listing { room } => {
                self.bytes.resize(*room, LENT_BYTE);
                done(second::listing(input, table, &mut self.bytes))
            }
            Call::Build { room } => {
                self.bytes.resize(*room, LENT_BYTE);
                done(second::build(input, table, &mut self.bytes))
            }
        }
    }
}

/// The numbers of a table that are looked at. To fill and to see all of them
/// would take longer than most calls.
fn probes(length: usize) -> impl Iterator<Item = usize> + Clone {
    let places = [0, 1, TABLE / 2, TABLE - 2, TABLE - 1, TABLE];
    places.into_iter().filter(move |&place| place < length)
}

fn state(table: &[u32]) -> State {
    let mut probes = probes(table.len()).map(|place| (place, table[place]));
    if table.len() >= TABLE
        && probes
            .clone()
            .all(|(place, number)| number == cleared(place))
    {
        return State::Cleared;
    }
    match probes.all(|(_, number)| number == LENT_TABLE) {
        true => State::Untouched,
        false => State::Other,
    }
}

/// What a number of the table is after a call.
fn cleared(place: usize) -> u32 {
    match place {
        ..TABLE => 0,
        _ => LENT_TABLE,
    }
}

/// Numbers one by one into one that keeps their order.
fn mixed(sum: u64, number: u64) -> u64 {
    (sum ^ number)
        .wrapping_mul(0x9E37_79B9_7F4A_7C15)
        .rotate_left(23)
        + 1
}
