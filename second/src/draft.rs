//! Putting pairs together: from the parts of a file to its bytes.
//!
//! A draft keeps no rule of the paper but the layout; end offsets and numbers
//! of strings, entries and fields are worked out. The builder drafts what a
//! listing says, the generator drafts good files and wrong ones.

use crate::kind::{constant_width, Kind};
use crate::v64;

/// A way to write numbers: [`v64::write`] is the shortest.
pub type Spell = fn(&mut Vec<u8>, u64);

/// A field as an entry gives it.
#[derive(Clone, Debug)]
pub struct FieldDraft {
    /// The kind's bytes and the name, where the entry declares the field.
    pub new: Option<(Vec<u8>, u64)>,
    /// The bytes of its chunk.
    pub chunk: Vec<u8>,
}

/// An entry of a type block.
#[derive(Clone, Debug)]
pub struct EntryDraft {
    pub name: u64,
    /// Super name, where the type is new.
    pub super_name: Option<u64>,
    /// Local start, where the type has a super type.
    pub start: Option<u64>,
    pub count: u64,
    pub fields: Vec<FieldDraft>,
}

/// A string block and a type block.
#[derive(Clone, Debug, Default)]
pub struct PairDraft {
    pub strings: Vec<Vec<u8>>,
    pub entries: Vec<EntryDraft>,
}

/// What a number in the written bytes is.
#[derive(Clone, Copy, Debug, PartialEq, Eq)]
pub enum Role {
    Strings,
    StringEnd,
    Entries,
    Name,
    Super,
    Start,
    Count,
    Restrictions,
    Fields,
    Kind,
    FieldName,
    End,
}

/// A number or chunk of the written bytes.
#[derive(Clone, Copy, Debug)]
pub struct Mark {
    pub role: Role,
    pub start: usize,
    pub end: usize,
}

/// The bytes of a draft and where its numbers stand in them.
pub struct Written {
    pub bytes: Vec<u8>,
    pub marks: Vec<Mark>,
    /// How numbers are written. Those of kinds and chunks stand in the draft.
    spell: Spell,
}

impl Default for Written {
    /// With every number in its shortest coding.
    fn default() -> Self {
        Written::spelt(v64::write)
    }
}

impl Written {
    /// Nothing yet, with a way to write numbers.
    pub fn spelt(spell: Spell) -> Self {
        Written {
            bytes: Vec::new(),
            marks: Vec::new(),
            spell,
        }
    }

    /// Appends a pair.
    pub fn pair(&mut self, pair: &PairDraft) {
        self.string_block(&pair.strings);
        self.number(Role::Entries, pair.entries.len() as u64);
        let mut end = 0;
        for entry in &pair.entries {
            self.entry(entry, &mut end);
        }
        for entry in &pair.entries {
            for field in &entry.fields {
                self.bytes.extend_from_slice(&field.chunk);
            }
        }
    }

    fn string_block(&mut self, strings: &[Vec<u8>]) {
        self.number(Role::Strings, strings.len() as u64);
        let mut end = 0u32;
        for string in strings {
            end += string.len() as u32;
            self.mark(Role::StringEnd, &end.to_be_bytes());
        }
        for string in strings {
            self.bytes.extend_from_slice(string);
        }
    }

    fn entry(&mut self, entry: &EntryDraft, end: &mut u64) {
        self.number(Role::Name, entry.name);
        if let Some(super_name) = entry.super_name {
            self.number(Role::Super, super_name);
        }
        if let Some(start) = entry.start {
            self.number(Role::Start, start);
        }
        self.number(Role::Count, entry.count);
        if entry.super_name.is_some() {
            self.number(Role::Restrictions, 0);
        }
        self.number(Role::Fields, entry.fields.len() as u64);
        for field in &entry.fields {
            if let Some((kind, name)) = &field.new {
                self.number(Role::Restrictions, 0);
                self.mark(Role::Kind, kind);
                self.number(Role::FieldName, *name);
            }
            *end += field.chunk.len() as u64;
            self.number(Role::End, *end);
        }
    }

    fn number(&mut self, role: Role, value: u64) {
        let start = self.bytes.len();
        (self.spell)(&mut self.bytes, value);
        let end = self.bytes.len();
        self.marks.push(Mark { role, start, end });
    }

    fn mark(&mut self, role: Role, bytes: &[u8]) {
        let start = self.bytes.len();
        self.bytes.extend_from_slice(bytes);
        let end = self.bytes.len();
        self.marks.push(Mark { role, start, end });
    }
}

/// The bytes of some pairs.
pub fn write(pairs: &[PairDraft]) -> Vec<u8> {
    write_spelt(pairs, v64::write)
}

/// The bytes of some pairs, with a way to write their numbers.
pub fn write_spelt(pairs: &[PairDraft], spell: Spell) -> Vec<u8> {
    let mut written = Written::spelt(spell);
    for pair in pairs {
        written.pair(pair);
    }
    written.bytes
}

/// The bytes a kind has in a new field.
pub fn kind_bytes(kind: Kind) -> Vec<u8> {
    spelt_kind(kind, v64::write)
}

/// The same with a way to write numbers.
pub fn spelt_kind(kind: Kind, spell: Spell) -> Vec<u8> {
    let mut out = Vec::new();
    for number in kind.numbers() {
        spell(&mut out, number);
    }
    match kind {
        Kind::Constant { number: 4, value } => spell(&mut out, value as u64),
        Kind::Constant { number, value } => wide(&mut out, value as u64, constant_width(number)),
        Kind::Stored { .. } | Kind::Map(_) => {}
    }
    out
}

/// Appends the low `width` bytes of a number, highest first.
pub fn wide(out: &mut Vec<u8>, bits: u64, width: usize) {
    out.extend_from_slice(&bits.to_be_bytes()[8 - width..]);
}
