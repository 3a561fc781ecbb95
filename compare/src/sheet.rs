//! A listing with its lines and words, each known by what it says.

use std::ops::Range;

use second::bounds::TABLE;
use second::kind::{Element, Form, Kind};
use second::ledger::Ledger;
use second::reader;

use crate::plan;
use crate::reader::{Reader, Second};

/// What a word of a listing says.
#[derive(Clone, Copy, Debug, PartialEq, Eq)]
pub enum Role {
    Strings,
    Entries,
    /// A string in hex.
    Hex,
    TypeName,
    Super,
    Start,
    Count,
    Fields,
    Kind,
    FieldName,
    /// An element of a value, or one of the two words of an annotation.
    Element(Element),
    /// How many keys a map has.
    Size,
}

/// A word: where it stands, and what it says.
#[derive(Clone, Debug)]
pub struct Word {
    pub at: Range<usize>,
    pub role: Role,
}

/// The listing of an accepted file.
pub struct Sheet {
    pub text: Vec<u8>,
    /// The lines, each with its newline.
    pub lines: Vec<Range<usize>>,
    pub words: Vec<Word>,
    /// Decimals, a minus included, also those that are a part of a kind.
    pub numbers: Vec<Range<usize>>,
    /// The lines of arrays and maps.
    pub arrays: Vec<Range<usize>>,
    pub pairs: usize,
    pub strings: u64,
    pub types: u64,
}

impl Sheet {
    /// The listing of this file, if the file is accepted.
    pub fn of(file: &[u8]) -> Option<Self> {
        let ledger = reader::read(file).ok()?;
        let mut text = vec![0; plan::listing_length(file)];
        Second.listing(file, &mut vec![0; TABLE], &mut text);
        let mut sheet = Sheet {
            lines: lines(&text),
            text,
            words: Vec::new(),
            numbers: Vec::new(),
            arrays: Vec::new(),
            pairs: ledger.pairs.len(),
            strings: ledger.names.len() as u64,
            types: ledger.types.len() as u64,
        };
        let mut values = values(&ledger).into_iter();
        for line in sheet.lines.clone() {
            sheet.line(line, &mut values);
        }
        Some(sheet)
    }

    pub fn bytes(&self, at: &Range<usize>) -> &[u8] {
        &self.text[at.clone()]
    }

    /// The number that is written here, if it is one below 2 ^ 64.
    pub fn number(&self, at: &Range<usize>) -> Option<u64> {
        std::str::from_utf8(self.bytes(at)).ok()?.parse().ok()
    }

    /// The words that say this.
    pub fn words_of(&self, wanted: impl Fn(Role) -> bool) -> Vec<Range<usize>> {
        let found = self.words.iter().filter(|word| wanted(word.role));
        found.map(|word| word.at.clone()).collect()
    }

    /// The lines that begin with this word.
    pub fn lines_of(&self, word: &[u8]) -> Vec<Range<usize>> {
        let begins = |line: &&Range<usize>| self.bytes(line).starts_with(word);
        self.lines.iter().filter(begins).cloned().collect()
    }

    /// The text with other bytes in one place.
    pub fn with(&self, at: Range<usize>, new: &[u8]) -> Vec<u8> {
        [&self.text[..at.start], new, &self.text[at.end..]].concat()
    }

    /// Takes a line apart. `values` says what the value lines hold, in their order.
    fn line(&mut self, line: Range<usize>, values: &mut impl Iterator<Item = Kind>) {
        let words = fields(&self.text, line.start..line.end - 1);
        let roles: &[Role] = match self.bytes(&words[0]) {
            b"pair" => &[Role::Strings, Role::Entries],
            b"str" => &[Role::Hex],
            b"type" => {
                use Role::{Count, Fields, Start, Super, TypeName};
                &[TypeName, Super, Start, Count, Fields]
            }
            b"new" => &[Role::Kind, Role::FieldName],
            b"val" => {
                let kind = values.next().expect("a value is due");
                if !is_single(kind) {
                    self.arrays.push(line);
                }
                &self.value(kind, &words[1..])
            }
            _ => &[],
        };
        for (at, &role) in words[1..].iter().zip(roles) {
            self.word(at.clone(), role);
        }
    }

    /// What the words of a value say.
    fn value(&self, kind: Kind, words: &[Range<usize>]) -> Vec<Role> {
        match kind {
            Kind::Constant { .. } => Vec::new(),
            Kind::Stored { element, .. } => vec![Role::Element(element); words.len()],
            Kind::Map(types) => {
                let mut roles = Vec::new();
                self.map(types.elements(), words, &mut roles);
                roles
            }
        }
    }

    /// What the words say that stand for the types that are left; `roles` has those before them.
    fn map(&self, types: &[Element], words: &[Range<usize>], roles: &mut Vec<Role>) {
        let (&first, rest) = types.split_first().expect("a type is left");
        if rest.is_empty() {
            return element(first, roles);
        }
        let keys = self.number(&words[roles.len()]);
        roles.push(Role::Size);
        for _ in 0..keys.expect("a size is a number") {
            element(first, roles);
            self.map(rest, words, roles);
        }
    }

    fn word(&mut self, at: Range<usize>, role: Role) {
        let hex = matches!(role, Role::Hex | Role::Element(Element::F32 | Element::F64));
        if !hex {
            let mut start = at.start;
            for part in self.text[at.clone()].split(|&byte| byte == b',') {
                let end = start + part.len();
                if part != b"-" {
                    self.numbers.push(start..end);
                }
                start = end + 1;
            }
        }
        self.words.push(Word { at, role });
    }
}

/// Whether a value of this kind is one element.
fn is_single(kind: Kind) -> bool {
    match kind {
        Kind::Stored { form, .. } => form == Form::Single,
        Kind::Constant { .. } | Kind::Map(_) => false,
    }
}

/// The words of one element.
fn element(element: Element, roles: &mut Vec<Role>) {
    let words = match element {
        Element::Annotation => 2,
        _ => 1,
    };
    roles.extend(vec![Role::Element(element); words]);
}

/// The kind of each value line of a listing.
fn values(ledger: &Ledger<'_>) -> Vec<Kind> {
    let mut values = Vec::new();
    for chunk in &ledger.chunks {
        match ledger.fields[chunk.field].kind {
            Kind::Constant { .. } => {}
            kind => values.extend((0..chunk.values).map(|_| kind)),
        }
    }
    values
}

/// The lines of a text, each with its newline.
fn lines(text: &[u8]) -> Vec<Range<usize>> {
    let mut start = 0;
    let lines = text.split_inclusive(|&byte| byte == b'\n').map(|line| {
        let begun = start;
        start += line.len();
        begun..start
    });
    lines.collect()
}

/// The words of a line, parted by tabs.
fn fields(text: &[u8], line: Range<usize>) -> Vec<Range<usize>> {
    let mut start = line.start;
    let words = text[line].split(|&byte| byte == b'\t').map(|word| {
        let begun = start;
        start += word.len() + 1;
        begun..start - 1
    });
    words.collect()
}

#[cfg(test)]
mod tests {
    use super::*;
    use second::generate::{self, LISTING_E, SEED};

    fn sheet_of(text: &str) -> Sheet {
        let mut file = vec![0; text.len() + 9];
        let length = Second.build(text.as_bytes(), &mut vec![0; TABLE], &mut file);
        Sheet::of(&file[..length as usize]).expect("the file is accepted")
    }

    #[test]
    fn the_words_of_a_listing() {
        let sheet = sheet_of(LISTING_E);
        assert_eq!(sheet.text, LISTING_E.as_bytes());
        assert_eq!(sheet.lines.len(), 10);
        let said: Vec<String> = sheet
            .words
            .iter()
            .map(|word| {
                let bytes = String::from_utf8_lossy(sheet.bytes(&word.at));
                format!("{bytes} {:?}", word.role)
            })
            .collect();
        let expected = [
            "1 Strings",
            "1 Entries",
            "64617465 Hex",
            "1 TypeName",
            "0 Super",
            "- Start",
            "2 Count",
            "1 Fields",
            "11 Kind",
            "1 FieldName",
            "1 Element(V64)",
            "-1 Element(V64)",
            "0 Strings",
            "1 Entries",
            "1 TypeName",
            "- Super",
            "- Start",
            "1 Count",
            "1 Fields",
            "256 Element(V64)",
        ];
        assert_eq!(said, expected);
        assert_eq!((sheet.pairs, sheet.strings, sheet.types), (2, 1, 1));
        assert_eq!(sheet.lines_of(b"old").len(), 1);
    }

    /// A kind has its numbers one by one; a dash alone and hex digits are none.
    #[test]
    fn the_numbers_of_a_listing() {
        let text = "pair\t1\t1\nstr\t12\ntype\t1\t0\t-\t1\t2\nnew\t15,2,12\t1\nnew\t4,-9\t1\n";
        let text = text.replace("-9\t1", "-9\t2").replace("pair\t1", "pair\t2");
        let text = text.replace("str\t12\n", "str\t12\nstr\t\n") + "val\t00000000\t00000001\n";
        let sheet = sheet_of(&text);
        let numbers = sheet.numbers.iter().map(|at| sheet.bytes(at));
        let said: Vec<_> = numbers.map(String::from_utf8_lossy).collect();
        let expected = "2 1 1 0 1 2 15 2 12 1 4 -9 2";
        assert_eq!(said.join(" "), expected);
        assert_eq!(sheet.arrays.len(), 1);
    }

    /// A map from bool to maps from annotations to v64: one key, which leads to two.
    #[test]
    fn the_words_of_a_map() {
        let text = "pair\t1\t1\nstr\t61\ntype\t1\t0\t-\t1\t1\nnew\t20,3,6,5,11\t1\n";
        let sheet = sheet_of(&(text.to_string() + "val\t1\t0\t2\t0\t0\t7\t1\t1\t-8\n"));
        let value = &sheet.words[sheet.words.len() - 9..];
        let said = value.iter().map(|word| match word.role {
            Role::Element(element) => element.number(),
            Role::Size => 20,
            other => unreachable!("{other:?}"),
        });
        assert_eq!(said.collect::<Vec<_>>(), [20, 6, 20, 5, 5, 11, 5, 5, 11]);
        assert_eq!(sheet.arrays.len(), 1);
    }

    #[test]
    fn every_line_of_a_value_is_known() {
        let files = generate::files(SEED, 100).into_iter();
        let small = files.filter(|case| case.bytes.len() < 2_000);
        let sheets: Vec<Sheet> = small.filter_map(|case| Sheet::of(&case.bytes)).collect();
        assert!(sheets.len() > 100);
        for sheet in sheets {
            let elements = sheet.words_of(|role| matches!(role, Role::Element(_) | Role::Size));
            let tabs = sheet.lines_of(b"val").into_iter().map(|line| {
                let line = sheet.bytes(&line).iter();
                line.filter(|&&byte| byte == b'\t').count()
            });
            assert_eq!(elements.len(), tabs.sum());
        }
    }
}
