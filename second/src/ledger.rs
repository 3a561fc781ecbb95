//! What an accepted file holds.

use std::cell::OnceCell;
use std::ops::Range;

use crate::kind::Kind;
use crate::mixing::Mixed;
use crate::names::{Name, Names};

/// A type and its objects over all blocks.
#[derive(Clone, Debug)]
pub struct Type {
    pub name: Name,
    pub super_type: Option<usize>,
    /// The type at the top of its chain of super types, itself if it has none.
    pub base: usize,
    /// Its own fields in order, as indices into [`Ledger::fields`].
    pub fields: Vec<usize>,
    /// How many objects it has so far, those of subtypes included.
    pub objects: u64,
    /// For a base type: how many objects it had before its latest entry.
    pub before: u64,
    /// Its objects' numbers in the base pool; sorted, apart from each other
    /// and merged where one ends as the next begins.
    pub ranges: Vec<Range<u64>>,
    /// The same objects one by one, once they were asked for.
    pub members: OnceCell<Members>,
}

impl Type {
    /// Adds a range of objects behind those that are there.
    pub fn add(&mut self, added: Range<u64>) {
        match self.ranges.last_mut() {
            Some(last) if last.end == added.start => last.end = added.end,
            _ => self.ranges.push(added),
        }
        self.members = OnceCell::new();
    }

    /// Its objects one by one.
    pub fn members(&self) -> &Members {
        self.members.get_or_init(|| Members::of(&self.ranges))
    }
}

/// A bit for each object of a base pool: whether it is of a type. Ranges need
/// not be searched for an object then.
#[derive(Clone, Debug)]
pub struct Members {
    bits: Vec<u64>,
}

impl Members {
    fn of(ranges: &[Range<u64>]) -> Members {
        let past = ranges.last().map_or(0, |last| last.end);
        let mut bits = vec![0; past as usize / 64 + 1];
        for range in ranges {
            set(&mut bits, range);
        }
        Members { bits }
    }

    #[inline(always)]
    pub fn has(&self, object: u64) -> bool {
        let word = self.bits.get((object / 64) as usize);
        word.is_some_and(|word| word >> (object % 64) & 1 == 1)
    }
}

/// Sets the bits of a range, which is not empty, a word at a time.
fn set(bits: &mut [u64], range: &Range<u64>) {
    let (first, last) = (range.start / 64, (range.end - 1) / 64);
    let words = &mut bits[first as usize..=last as usize];
    let from = u64::MAX << (range.start % 64);
    let up_to = u64::MAX >> (63 - (range.end - 1) % 64);
    match words {
        [only] => *only |= from & up_to,
        [first, between @ .., last] => {
            *first |= from;
            between.fill(u64::MAX);
            *last |= up_to;
        }
        [] => {}
    }
}

/// A field of a type.
#[derive(Clone, Copy, Debug)]
pub struct Field {
    pub name: Name,
    pub kind: Kind,
}

/// One pair of the file, as ranges of the ledger's lists.
#[derive(Clone, Debug)]
pub struct Pair {
    /// String numbers from 1.
    pub strings: Range<u32>,
    /// Indices into [`Ledger::entries`].
    pub entries: Range<usize>,
}

/// One entry of a type block, with its numbers as the file gives them.
#[derive(Clone, Debug)]
pub struct Entry {
    pub type_index: usize,
    pub name: u64,
    /// Super name, 0 for none; only where the type is new.
    pub super_name: Option<u64>,
    /// Local start; only where the type has a super type.
    pub start: Option<u64>,
    pub count: u64,
    /// Indices into [`Ledger::chunks`], one for each field given.
    pub chunks: Range<usize>,
}

/// The values one entry gives for one field.
#[derive(Clone, Debug)]
pub struct Chunk {
    /// Index into [`Ledger::fields`].
    pub field: usize,
    /// Whether this entry declares the field.
    pub new: bool,
    /// The string number of the field's name in this declaration, 0 if known.
    pub name: u64,
    /// How many values it has.
    pub values: u64,
    /// Where the values stand in the file.
    pub part: Range<usize>,
}

/// An accepted file, taken apart.
pub struct Ledger<'f> {
    pub file: &'f [u8],
    pub names: Names<'f>,
    pub types: Vec<Type>,
    pub fields: Vec<Field>,
    pub pairs: Vec<Pair>,
    pub entries: Vec<Entry>,
    pub chunks: Vec<Chunk>,
    /// The type of each name that is a type's. Names are small numbers, so a
    /// list has them all.
    type_by_name: Vec<Option<u8>>,
    /// The field of a type and a name.
    field_by_name: Mixed<(usize, Name), usize>,
}

impl<'f> Ledger<'f> {
    pub fn empty(file: &'f [u8]) -> Self {
        Ledger {
            file,
            names: Names::default(),
            types: Vec::new(),
            fields: Vec::new(),
            pairs: Vec::new(),
            entries: Vec::new(),
            chunks: Vec::new(),
            type_by_name: Vec::new(),
            field_by_name: Mixed::default(),
        }
    }

    /// Adds a type; answers its index.
    pub fn add_type(&mut self, own: Type) -> usize {
        let index = self.types.len();
        let name = own.name as usize;
        if self.type_by_name.len() <= name {
            self.type_by_name.resize(name + 1, None);
        }
        self.type_by_name[name] = Some(index as u8);
        self.types.push(own);
        index
    }

    /// Adds a field to a type; answers its index.
    pub fn add_field(&mut self, type_index: usize, own: Field) -> usize {
        let index = self.fields.len();
        self.field_by_name.insert((type_index, own.name), index);
        self.types[type_index].fields.push(index);
        self.fields.push(own);
        index
    }

    /// The type of a name.
    pub fn type_of(&self, name: Name) -> Option<usize> {
        let index = *self.type_by_name.get(name as usize)?;
        index.map(usize::from)
    }

    /// The field of a type, its super types aside, that has a name.
    pub fn field_of(&self, type_index: usize, name: Name) -> Option<usize> {
        self.field_by_name.get(&(type_index, name)).copied()
    }

    /// The type whose name has these bytes.
    pub fn find_type(&self, name: &[u8]) -> Option<usize> {
        let name = self.names.find(name)?;
        self.type_of(name)
    }

    /// The field of a type, its super types aside, whose name has these bytes.
    pub fn find_field(&self, type_index: usize, name: &[u8]) -> Option<usize> {
        let name = self.names.find(name)?;
        self.field_of(type_index, name)
    }

    /// The bytes of a chunk.
    pub fn part(&self, chunk: &Chunk) -> &'f [u8] {
        &self.file[chunk.part.clone()]
    }
}
