//! Damaged listings: the listing of an accepted file with something wrong, or nearly so.
//!
//! Each way has a name, so that what was tried can be counted. A way may happen to make a listing of another file; the
//! second program says which.

use std::ops::Range;

use second::generate::random::Random;
use second::kind::Element;

use crate::mutants;
use crate::sheet::{Role, Sheet};

/// A way to damage a listing.
pub struct Way {
    pub name: &'static str,
    /// Gives none where the listing has nothing to damage in this way.
    damage: fn(&mut Random, &Sheet) -> Option<Vec<u8>>,
}

impl Way {
    /// A listing damaged in this way: one of these, by chance. It differs from what it was.
    pub fn text(&self, random: &mut Random, sheets: &[Sheet]) -> Vec<u8> {
        let mut tries = (0..50_000).map(|_| {
            let sheet = &sheets[random.index(sheets.len())];
            let text = (self.damage)(random, sheet);
            text.filter(|text| *text != sheet.text)
        });
        let found = tries.find_map(|text| text);
        found.unwrap_or_else(|| panic!("no listing has anything for: {}", self.name))
    }
}

/// All ways but the byte by byte one.
#[rustfmt::skip]
pub const WAYS: &[Way] = &[
    Way { name: "leading zero", damage: leading_zero },
    Way { name: "minus zero", damage: minus_zero },
    Way { name: "plus", damage: plus },
    Way { name: "minus", damage: minus },
    Way { name: "past 64 bits", damage: past_64_bits },
    Way { name: "past 8, 16 or 32 bits", damage: past_fewer_bits },
    Way { name: "number at a bound", damage: number_at_a_bound },
    Way { name: "upper-case hex", damage: upper_case },
    Way { name: "odd hex digits", damage: odd_hex },
    Way { name: "hex digits too few or many", damage: hex_length },
    Way { name: "carriage return", damage: carriage_return },
    Way { name: "missing tab", damage: missing_tab },
    Way { name: "extra tab", damage: extra_tab },
    Way { name: "blank", damage: blank },
    Way { name: "missing word", damage: missing_word },
    Way { name: "extra word", damage: extra_word },
    Way { name: "misspelt word", damage: misspelt },
    Way { name: "missing newline", damage: missing_newline },
    Way { name: "extra newline", damage: extra_newline },
    Way { name: "no newline at the end", damage: no_last_newline },
    Way { name: "missing line", damage: missing_line },
    Way { name: "extra line", damage: extra_line },
    Way { name: "lines exchanged", damage: lines_exchanged },
    Way { name: "number of strings", damage: number_of_strings },
    Way { name: "number of entries", damage: number_of_entries },
    Way { name: "number of objects", damage: number_of_objects },
    Way { name: "number of fields", damage: number_of_fields },
    Way { name: "local start", damage: local_start },
    Way { name: "value past its kind", damage: value_past_its_kind },
    Way { name: "reference", damage: reference },
    Way { name: "array length", damage: array_length },
    Way { name: "map size", damage: map_size },
    Way { name: "old or new", damage: old_or_new },
    Way { name: "unknown kind", damage: unknown_kind },
    Way { name: "other kind", damage: other_kind },
    Way { name: "duplicate name", damage: duplicate_name },
    Way { name: "name out of range", damage: name_out_of_range },
    Way { name: "dash or none", damage: dash_or_none },
    Way { name: "32 to 34 pairs", damage: too_many_pairs },
    Way { name: "cut", damage: cut },
    Way { name: "cut at a line", damage: cut_at_a_line },
    Way { name: "twice over", damage: twice_over },
    Way { name: "non-ASCII", damage: non_ascii },
    Way { name: "zero byte", damage: zero_byte },
    Way { name: "bytes by chance", damage: by_chance },
];

/// One of these places, if there is any.
fn one(random: &mut Random, places: &[Range<usize>]) -> Option<Range<usize>> {
    match places.is_empty() {
        true => None,
        false => Some(random.pick(places).clone()),
    }
}

/// A word that says this.
fn a_word(random: &mut Random, sheet: &Sheet, wanted: fn(Role) -> bool) -> Option<Range<usize>> {
    one(random, &sheet.words_of(wanted))
}

fn a_line(random: &mut Random, sheet: &Sheet) -> Option<Range<usize>> {
    one(random, &sheet.lines)
}

fn a_number(random: &mut Random, sheet: &Sheet) -> Option<Range<usize>> {
    one(random, &sheet.numbers)
}

/// A place between two bytes, or at an end.
fn a_gap(random: &mut Random, sheet: &Sheet) -> Range<usize> {
    let at = random.index(sheet.text.len() + 1);
    at..at
}

/// A place where this byte stands.
fn a_byte(random: &mut Random, sheet: &Sheet, wanted: u8) -> Option<Range<usize>> {
    let bytes = sheet.text.iter().enumerate();
    let found = bytes.filter(|&(_, &byte)| byte == wanted);
    let places: Vec<Range<usize>> = found.map(|(at, _)| at..at + 1).collect();
    one(random, &places)
}

// Numbers.

fn leading_zero(random: &mut Random, sheet: &Sheet) -> Option<Vec<u8>> {
    let number = a_number(random, sheet)?;
    let minus = sheet.text[number.start] == b'-';
    let at = number.start + usize::from(minus);
    let zeros = *random.pick(&[&b"0"[..], b"0", b"00", b"0000000000000000000000"]);
    Some(sheet.with(at..at, zeros))
}

fn minus_zero(random: &mut Random, sheet: &Sheet) -> Option<Vec<u8>> {
    // Nearly all numbers may be 0, so that the minus is the only fault of some.
    let zeros = sheet.numbers.iter().filter(|at| sheet.bytes(at) == b"0");
    let zeros: Vec<Range<usize>> = zeros.cloned().collect();
    let number = match random.once_in(2) {
        true => one(random, &zeros)?,
        false => a_number(random, sheet)?,
    };
    Some(sheet.with(number, b"-0"))
}

fn plus(random: &mut Random, sheet: &Sheet) -> Option<Vec<u8>> {
    let at = a_number(random, sheet)?.start;
    Some(sheet.with(at..at, b"+"))
}

fn minus(random: &mut Random, sheet: &Sheet) -> Option<Vec<u8>> {
    let at = a_number(random, sheet)?.start;
    Some(sheet.with(at..at, b"-"))
}

/// The number and a multiple of 2 ^ `bits`, of the same sign.
fn wrapped(random: &mut Random, sheet: &Sheet, number: Range<usize>, bits: u32) -> Vec<u8> {
    let word = String::from_utf8_lossy(sheet.bytes(&number)).into_owned();
    let (minus, digits) = match word.strip_prefix('-') {
        Some(digits) => ("-", digits),
        None => ("", &word[..]),
    };
    let size: u128 = digits.parse().unwrap_or(0);
    let times: u128 = *random.pick(&[1, 1, 2, 3, 10, 1 << 20]);
    let more = size + (times << bits);
    sheet.with(number, format!("{minus}{more}").as_bytes())
}

fn past_64_bits(random: &mut Random, sheet: &Sheet) -> Option<Vec<u8>> {
    let number = a_number(random, sheet)?;
    if random.once_in(4) {
        let digit = b'1' + random.below(9) as u8;
        return Some(sheet.with(number, &vec![digit; 21 + random.index(30)]));
    }
    Some(wrapped(random, sheet, number, 64))
}

fn past_fewer_bits(random: &mut Random, sheet: &Sheet) -> Option<Vec<u8>> {
    let number = a_number(random, sheet)?;
    let bits = *random.pick(&[8, 16, 32, 32]);
    Some(wrapped(random, sheet, number, bits))
}

/// Where a bound of the paper or of a machine's numbers lies.
const BOUNDS: [u64; 22] = [
    0,
    1,
    31,
    32,
    33,
    127,
    128,
    255,
    256,
    1_023,
    1_024,
    1_025,
    32_768,
    65_535,
    65_536,
    1_048_576,
    1 << 31,
    u32::MAX as u64,
    1 << 32,
    i64::MAX as u64,
    1 << 63,
    u64::MAX,
];

fn number_at_a_bound(random: &mut Random, sheet: &Sheet) -> Option<Vec<u8>> {
    let number = a_number(random, sheet)?;
    let bound = random.pick(&BOUNDS).to_string();
    Some(sheet.with(number, bound.as_bytes()))
}

/// A number by another one: near it, at a bound, or small.
fn other_number(random: &mut Random, sheet: &Sheet, number: Range<usize>) -> Vec<u8> {
    let old = sheet.number(&number).unwrap_or(0);
    let new = match random.below(8) {
        0 | 1 => old.wrapping_add(1),
        2 | 3 => old.saturating_sub(1),
        4 => *random.pick(&BOUNDS),
        5 => old.wrapping_add(1 << 32),
        _ => random.below(9),
    };
    sheet.with(number, new.to_string().as_bytes())
}

// Hex digits.

fn is_hex(role: Role) -> bool {
    matches!(role, Role::Hex | Role::Element(Element::F32 | Element::F64))
}

fn upper_case(random: &mut Random, sheet: &Sheet) -> Option<Vec<u8>> {
    let word = a_word(random, sheet, is_hex)?;
    let letters = word.filter(|&at| sheet.text[at].is_ascii_lowercase());
    let letters: Vec<Range<usize>> = letters.map(|at| at..at + 1).collect();
    let at = one(random, &letters)?;
    let letter = sheet.text[at.start].to_ascii_uppercase();
    Some(sheet.with(at, &[letter]))
}

fn odd_hex(random: &mut Random, sheet: &Sheet) -> Option<Vec<u8>> {
    let word = a_word(random, sheet, |role| role == Role::Hex)?;
    let at = word.start + random.index(word.len() + 1);
    Some(match random.once_in(2) && at < word.end {
        true => sheet.with(at..at + 1, b""),
        false => sheet.with(at..at, b"0"),
    })
}

fn hex_length(random: &mut Random, sheet: &Sheet) -> Option<Vec<u8>> {
    let word = a_word(random, sheet, |role| is_hex(role) && role != Role::Hex)?;
    let length = *random.pick(&[0, 1, 7, 8, 9, 10, 15, 16, 17, 18, 32]);
    let digits: Vec<u8> = sheet
        .bytes(&word)
        .iter()
        .cycle()
        .take(length)
        .copied()
        .collect();
    (length != word.len()).then(|| sheet.with(word, &digits))
}

// Tabs, blanks and words.

fn carriage_return(random: &mut Random, sheet: &Sheet) -> Option<Vec<u8>> {
    if random.once_in(8) {
        let text = String::from_utf8_lossy(&sheet.text).replace('\n', "\r\n");
        return Some(text.into_bytes());
    }
    let end = a_line(random, sheet)?.end - 1;
    let by = *random.pick(&[&b"\r"[..], b"\r", b"\r\r"]);
    Some(match random.once_in(8) {
        true => sheet.with(end..end + 1, b"\r"),
        false => sheet.with(end..end, by),
    })
}

fn missing_tab(random: &mut Random, sheet: &Sheet) -> Option<Vec<u8>> {
    let tab = a_byte(random, sheet, b'\t')?;
    let by = *random.pick(&[&b""[..], b"", b" ", b",", b"\n", b"\x0B"]);
    Some(sheet.with(tab, by))
}

fn extra_tab(random: &mut Random, sheet: &Sheet) -> Option<Vec<u8>> {
    let at = match random.below(4) {
        0 => a_line(random, sheet)?.start,
        1 => a_line(random, sheet)?.end - 1,
        2 => a_byte(random, sheet, b'\t')?.end,
        _ => a_gap(random, sheet).start,
    };
    Some(sheet.with(at..at, b"\t"))
}

fn blank(random: &mut Random, sheet: &Sheet) -> Option<Vec<u8>> {
    let word = match random.once_in(3) {
        true => a_line(random, sheet).map(|line| line.start..line.end - 1)?,
        false => a_word(random, sheet, |_| true)?,
    };
    let at = *random.pick(&[word.start, word.end]);
    Some(sheet.with(at..at, b" "))
}

/// A word and the tab before it.
fn missing_word(random: &mut Random, sheet: &Sheet) -> Option<Vec<u8>> {
    let word = a_word(random, sheet, |_| true)?;
    Some(sheet.with(word.start - 1..word.end, b""))
}

fn extra_word(random: &mut Random, sheet: &Sheet) -> Option<Vec<u8>> {
    let word = a_word(random, sheet, |_| true)?;
    let more = [b"\t", sheet.bytes(&word)].concat();
    let at = match random.once_in(2) {
        true => word.end,
        false => a_line(random, sheet)?.end - 1,
    };
    Some(sheet.with(at..at, &more))
}

/// The word that a line begins with.
fn misspelt(random: &mut Random, sheet: &Sheet) -> Option<Vec<u8>> {
    let line = a_line(random, sheet)?;
    let word: Vec<u8> = sheet.bytes(&line).to_vec();
    let ends = word.iter().position(|byte| !byte.is_ascii_lowercase())?;
    let word = &word[..ends];
    let at = random.index(ends);
    let new = match random.below(6) {
        0 => word.to_ascii_uppercase(),
        1 => [&word[..at], &word[at + 1..]].concat(),
        2 => [&word[..at], b"a", &word[at..]].concat(),
        3 => [
            &word[..at],
            &[word[at].to_ascii_uppercase()],
            &word[at + 1..],
        ]
        .concat(),
        4 => Vec::new(),
        _ => random
            .pick(&[
                &b"pair"[..],
                b"str",
                b"type",
                b"old",
                b"new",
                b"val",
                b"refused",
            ])
            .to_vec(),
    };
    Some(sheet.with(line.start..line.start + ends, &new))
}

// Lines.

fn missing_newline(random: &mut Random, sheet: &Sheet) -> Option<Vec<u8>> {
    let newline = a_byte(random, sheet, b'\n')?;
    let by = *random.pick(&[&b""[..], b"\t", b" "]);
    Some(sheet.with(newline, by))
}

fn extra_newline(random: &mut Random, sheet: &Sheet) -> Option<Vec<u8>> {
    let at = match random.below(3) {
        0 => a_gap(random, sheet).start,
        1 => sheet.text.len(),
        _ => a_line(random, sheet)?.start,
    };
    Some(sheet.with(at..at, b"\n"))
}

fn no_last_newline(_: &mut Random, sheet: &Sheet) -> Option<Vec<u8>> {
    let (_, front) = sheet.text.split_last()?;
    Some(front.to_vec())
}

fn missing_line(random: &mut Random, sheet: &Sheet) -> Option<Vec<u8>> {
    let line = a_line(random, sheet)?;
    Some(sheet.with(line, b""))
}

/// A line once more, behind itself or in any other place.
fn extra_line(random: &mut Random, sheet: &Sheet) -> Option<Vec<u8>> {
    let line = a_line(random, sheet)?;
    let at = match random.once_in(2) {
        true => line.end,
        false => a_line(random, sheet)?.start,
    };
    Some(sheet.with(at..at, sheet.bytes(&line)))
}

fn lines_exchanged(random: &mut Random, sheet: &Sheet) -> Option<Vec<u8>> {
    let (one, other) = (a_line(random, sheet)?, a_line(random, sheet)?);
    let (first, second) = match one.start < other.start {
        true => (one, other),
        false => (other, one),
    };
    let (former, latter) = (sheet.bytes(&first), sheet.bytes(&second));
    if former == latter {
        return None;
    }
    let between = sheet.bytes(&(first.end..second.start));
    let new = [latter, between, former].concat();
    Some(sheet.with(first.start..second.end, &new))
}

// What the words say.

fn number_of_strings(random: &mut Random, sheet: &Sheet) -> Option<Vec<u8>> {
    let word = a_word(random, sheet, |role| role == Role::Strings)?;
    Some(other_number(random, sheet, word))
}

fn number_of_entries(random: &mut Random, sheet: &Sheet) -> Option<Vec<u8>> {
    let word = a_word(random, sheet, |role| role == Role::Entries)?;
    Some(other_number(random, sheet, word))
}

fn number_of_objects(random: &mut Random, sheet: &Sheet) -> Option<Vec<u8>> {
    let word = a_word(random, sheet, |role| role == Role::Count)?;
    Some(other_number(random, sheet, word))
}

fn number_of_fields(random: &mut Random, sheet: &Sheet) -> Option<Vec<u8>> {
    let word = a_word(random, sheet, |role| role == Role::Fields)?;
    Some(other_number(random, sheet, word))
}

fn local_start(random: &mut Random, sheet: &Sheet) -> Option<Vec<u8>> {
    let word = a_word(random, sheet, |role| role == Role::Start)?;
    sheet.number(&word)?;
    Some(other_number(random, sheet, word))
}

/// The bytes of a whole number's kind.
fn width(element: Element) -> Option<u32> {
    match element {
        Element::Bool | Element::I8 => Some(1),
        Element::I16 => Some(2),
        Element::I32 => Some(4),
        Element::I64 | Element::V64 => Some(8),
        Element::F32 | Element::F64 => None,
        Element::Annotation | Element::Text | Element::Object(_) => None,
    }
}

/// At the ends of the kind, one beyond, or what has the same low bits.
fn value_past_its_kind(random: &mut Random, sheet: &Sheet) -> Option<Vec<u8>> {
    let words = sheet.words.iter().filter_map(|word| match word.role {
        Role::Element(element) => Some((word.at.clone(), element, width(element)?)),
        _ => None,
    });
    let words: Vec<_> = words.collect();
    if words.is_empty() {
        return None;
    }
    let (at, element, width) = random.pick(&words).clone();
    let old: i128 = String::from_utf8_lossy(sheet.bytes(&at)).parse().ok()?;
    let half = 1i128 << (8 * width - 1);
    let new = match (element, random.below(8)) {
        (Element::Bool, any) => *random.pick(&[2, -1, 10, 255, 256, 257, 1 + any as i128]),
        (_, 0) => half,
        (_, 1) => -half - 1,
        (_, 2) => half - 1,
        (_, 3) => -half,
        (_, 4 | 5) => old + 2 * half,
        (_, 6) => old - 2 * half,
        (_, _) => half + i128::from(random.below(200)),
    };
    Some(sheet.with(at, new.to_string().as_bytes()))
}

fn is_reference(role: Role) -> bool {
    use Element::{Annotation, Object, Text};
    matches!(role, Role::Element(Annotation | Text | Object(_)))
}

fn reference(random: &mut Random, sheet: &Sheet) -> Option<Vec<u8>> {
    let word = a_word(random, sheet, is_reference)?;
    Some(match random.below(6) {
        0 => sheet.with(word, b"-1"),
        1 => sheet.with(word, (sheet.strings + 1).to_string().as_bytes()),
        2 => sheet.with(word, random.below(20).to_string().as_bytes()),
        _ => other_number(random, sheet, word),
    })
}

/// Another size than a map has keys.
fn map_size(random: &mut Random, sheet: &Sheet) -> Option<Vec<u8>> {
    let word = a_word(random, sheet, |role| role == Role::Size)?;
    Some(match random.below(6) {
        0 => sheet.with(word, u64::MAX.to_string().as_bytes()),
        1 => sheet.with(word, b"65536"),
        _ => other_number(random, sheet, word),
    })
}

/// An element taken out of an array, or once more in it.
fn array_length(random: &mut Random, sheet: &Sheet) -> Option<Vec<u8>> {
    let line = one(random, &sheet.arrays)?;
    let elements = sheet
        .words
        .iter()
        .filter(|word| line.contains(&word.at.start));
    let elements: Vec<Range<usize>> = elements.map(|word| word.at.clone()).collect();
    let Some(word) = one(random, &elements) else {
        return Some(sheet.with(line.end - 1..line.end - 1, b"\t0"));
    };
    let with_tab = word.start - 1..word.end;
    Some(match random.once_in(2) {
        true => sheet.with(with_tab, b""),
        false => sheet.with(word.end..word.end, sheet.bytes(&with_tab)),
    })
}

/// `old` for `new`, `new` for `old`, an `old` too few or too many.
fn old_or_new(random: &mut Random, sheet: &Sheet) -> Option<Vec<u8>> {
    let (old, new) = (sheet.lines_of(b"old"), sheet.lines_of(b"new"));
    let old_line = one(random, &old);
    let new_line = one(random, &new);
    match random.below(5) {
        0 => Some(sheet.with(new_line?, b"old\n")),
        1 => Some(sheet.with(old_line?, sheet.bytes(&new_line?))),
        2 => Some(sheet.with(old_line?, b"")),
        3 => {
            let before = new_line?.start;
            Some(sheet.with(before..before, b"old\n"))
        }
        _ => {
            let behind = old_line?.end;
            Some(sheet.with(behind..behind, b"old\n"))
        }
    }
}

/// Kinds that no field has, and kinds that lack a number or have one too many.
const NO_KINDS: [&str; 39] = [
    "5,5",
    "16",
    "20",
    "21",
    "22",
    "30",
    "31",
    "0",
    "4",
    "0,",
    "4,",
    "4,1,1",
    "11,",
    "11,1",
    "15",
    "15,3",
    "15,3,",
    "15,3,4",
    "15,65536,7",
    "15,3,17,7",
    "17",
    "17,",
    "17,4",
    "17,17",
    "17,20",
    "18,0",
    "19,15",
    "19,31",
    "17,7,7",
    "20,2",
    "20,2,7",
    "20,2,7,7,7",
    "20,1,7",
    "20,9,7,7,7,7,7,7,7,7,7",
    "20,2,7,4",
    "20,2,17,7",
    "20,2,7,20",
    "18446744073709551615",
    "0,128",
];

fn unknown_kind(random: &mut Random, sheet: &Sheet) -> Option<Vec<u8>> {
    let word = a_word(random, sheet, |role| role == Role::Kind)?;
    let no_type = (32 + sheet.types).to_string();
    let kind = match random.below(9) {
        0 => no_type,
        1 => format!("17,{no_type}"),
        2 => (21 + random.below(11)).to_string(),
        3 => format!("20,2,14,{no_type}"),
        _ => random.pick(&NO_KINDS).to_string(),
    };
    Some(sheet.with(word, kind.as_bytes()))
}

/// Another kind of the paper, whose values the lines may be or not.
fn other_kind(random: &mut Random, sheet: &Sheet) -> Option<Vec<u8>> {
    let word = a_word(random, sheet, |role| role == Role::Kind)?;
    let element = 5 + random.below(10);
    let kind = match random.below(7) {
        0 => format!("{},{element}", 17 + random.below(3)),
        1 => format!("15,{},{element}", random.below(4)),
        2 => format!("{},{}", random.below(5), random.below(3)),
        3 => (32 + random.below(sheet.types)).to_string(),
        4 => format!("20,2,{element},{}", 5 + random.below(10)),
        _ => element.to_string(),
    };
    Some(sheet.with(word, kind.as_bytes()))
}

fn is_name(role: Role) -> bool {
    matches!(role, Role::TypeName | Role::FieldName)
}

/// A name by another one's number, or a string by another one's bytes.
fn duplicate_name(random: &mut Random, sheet: &Sheet) -> Option<Vec<u8>> {
    let wanted = match random.once_in(2) {
        true => is_name,
        false => |role| role == Role::Hex,
    };
    let names = sheet.words_of(wanted);
    let (name, other) = (one(random, &names)?, one(random, &names)?);
    (sheet.bytes(&name) != sheet.bytes(&other)).then(|| sheet.with(name, sheet.bytes(&other)))
}

fn name_out_of_range(random: &mut Random, sheet: &Sheet) -> Option<Vec<u8>> {
    let word = a_word(random, sheet, |role| is_name(role) || role == Role::Super)?;
    sheet.number(&word)?;
    let past = sheet.strings + 1 + random.below(2);
    let number = *random.pick(&[0, past, past, 1_025, u64::MAX]);
    Some(sheet.with(word, number.to_string().as_bytes()))
}

/// A dash for a number, or a number for a dash.
fn dash_or_none(random: &mut Random, sheet: &Sheet) -> Option<Vec<u8>> {
    let word = match random.once_in(4) {
        true => a_number(random, sheet)?,
        false => a_word(random, sheet, |role| {
            matches!(role, Role::Super | Role::Start)
        })?,
    };
    let number = random.below(3).to_string();
    Some(match sheet.bytes(&word) {
        b"-" => sheet.with(word, number.as_bytes()),
        _ => sheet.with(word, b"-"),
    })
}

// The whole.

/// Empty pairs, before or behind the others: 32 of them are taken.
fn too_many_pairs(random: &mut Random, sheet: &Sheet) -> Option<Vec<u8>> {
    let pairs = random.between(32, 34) as usize;
    let more = b"pair\t0\t0\n".repeat(pairs.checked_sub(sheet.pairs)?);
    let at = *random.pick(&[0, sheet.text.len()]);
    Some(sheet.with(at..at, &more))
}

fn cut(random: &mut Random, sheet: &Sheet) -> Option<Vec<u8>> {
    Some(sheet.text[..random.index(sheet.text.len())].to_vec())
}

fn cut_at_a_line(random: &mut Random, sheet: &Sheet) -> Option<Vec<u8>> {
    let line = a_line(random, sheet)?;
    Some(sheet.text[..line.start].to_vec())
}

/// The listing behind itself: a type without fields is then new twice.
fn twice_over(_: &mut Random, sheet: &Sheet) -> Option<Vec<u8>> {
    (!sheet.text.is_empty()).then(|| sheet.text.repeat(2))
}

fn non_ascii(random: &mut Random, sheet: &Sheet) -> Option<Vec<u8>> {
    let at = a_gap(random, sheet);
    let characters = [
        "\u{e9}", "\u{663}", "\u{ff11}", "\u{a0}", "\u{feff}", "\u{2212}", "\u{85}", "\u{2028}",
    ];
    Some(match random.below(4) {
        0 => sheet.with(0..0, "\u{feff}".as_bytes()),
        1 => sheet.with(at, random.pick(&characters).as_bytes()),
        2 => sheet.with(at, &[0x80 | random.byte()]),
        _ => {
            // The same byte but for its top bit.
            let at = random.index(sheet.text.len().max(1));
            let byte = *sheet.text.get(at)?;
            sheet.with(at..at + 1, &[0x80 | byte])
        }
    })
}

fn zero_byte(random: &mut Random, sheet: &Sheet) -> Option<Vec<u8>> {
    let end = sheet.text.len()..sheet.text.len();
    let at = match random.once_in(3) {
        true => end,
        false => a_gap(random, sheet),
    };
    Some(sheet.with(at, b"\0"))
}

fn by_chance(random: &mut Random, sheet: &Sheet) -> Option<Vec<u8>> {
    let mut text = sheet.text.clone();
    for _ in 0..random.between(1, 3) {
        mutants::change(random, &mut text);
    }
    Some(text)
}

#[cfg(test)]
mod tests {
    use super::*;
    use crate::builds;
    use crate::reader::{Reader, Second};
    use second::bounds::TABLE;
    use second::generate::SEED;

    /// What changes nothing is no damage: another listing is taken then.
    #[test]
    fn damage_is_a_change() {
        let way = Way {
            name: "zeros for ones",
            damage: |_, sheet| {
                let text = String::from_utf8_lossy(&sheet.text).replace('1', "0");
                Some(text.into_bytes())
            },
        };
        let sheets = builds::sheets(50);
        let mut random = Random::new(SEED);
        assert!(sheets.iter().any(|sheet| sheet.text.is_empty()));
        for _ in 0..1_000 {
            // The empty listing has no 1, and cannot be changed so.
            assert!(!way.text(&mut random, &sheets).is_empty());
        }
    }

    fn answer(text: &[u8]) -> i64 {
        let mut file = vec![0; 2 * text.len() + 64];
        Second.build(text, &mut vec![0; TABLE], &mut file)
    }

    /// Every way changes a listing, and is refused at least now and then.
    #[test]
    fn every_way_damages() {
        let mut random = Random::new(SEED);
        let sheets = builds::sheets(200);
        for way in WAYS {
            let texts = (0..60).map(|_| way.text(&mut random, &sheets));
            let refused = texts.filter(|text| answer(text) == -20).count();
            assert!(refused >= 5, "{}: only {refused} refused", way.name);
        }
    }

    /// What no listing has is refused always.
    #[test]
    fn no_listing_is_spelt_so() {
        let never = [
            "leading zero",
            "plus",
            "past 64 bits",
            "upper-case hex",
            "odd hex digits",
            "hex digits too few or many",
            "carriage return",
            "blank",
            "no newline at the end",
            "unknown kind",
            "non-ASCII",
            "zero byte",
        ];
        let mut random = Random::new(SEED);
        let sheets = builds::sheets(200);
        for name in never {
            let way = WAYS.iter().find(|way| way.name == name).expect("a way");
            for _ in 0..100 {
                let text = way.text(&mut random, &sheets);
                let printed = String::from_utf8_lossy(&text);
                assert_eq!(answer(&text), -20, "{name}: {printed}");
            }
        }
    }
}
