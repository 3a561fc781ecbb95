//! From a listing to the file it could be the listing of.
//!
//! The text is read strictly, and only as much of the paper's rules is kept in
//! mind as is needed to know which lines are due: the types, their fields'
//! kinds and their numbers of objects. Whether the file is accepted is left to
//! the reader, which looks at it afterwards. What no accepted file could
//! have, a count past its bound first of all, ends the reading at once, so
//! that no text makes it do more than the text's length warrants.

use crate::bounds;
use crate::draft::{kind_bytes, wide, EntryDraft, FieldDraft, PairDraft, Written};
use crate::kind::{constant_width, Element, Form, Kind, MapTypes, MAP_TYPES};
use crate::mixing::Mixed;
use crate::names::{Name, Names};
use crate::text::{unhex, Text};
use crate::v64;

/// The only file that could have this listing, if the text is one.
pub fn candidate(text: &[u8]) -> Option<Vec<u8>> {
    let mut builder = Builder {
        text: Text::new(text),
        names: Names::default(),
        types: Vec::new(),
        type_by_name: Mixed::default(),
        fields: 0,
    };
    let mut written = Written::default();
    let mut pairs = 0;
    while !builder.text.at_end() {
        pairs += 1;
        if pairs > bounds::PAIRS {
            return None;
        }
        written.pair(&builder.pair()?);
        if written.bytes.len() > bounds::FILE {
            return None;
        }
    }
    Some(written.bytes)
}

struct Builder<'t> {
    text: Text<'t>,
    /// Strings in hex, which is as good as their bytes for comparing them.
    names: Names<'t>,
    types: Vec<Known>,
    type_by_name: Mixed<Name, usize>,
    /// Fields of all types.
    fields: usize,
}

/// What has to be known of a type to read its entries.
struct Known {
    has_super: bool,
    objects: u64,
    fields: Vec<Kind>,
}

/// A chunk whose lines are still to come.
struct Due {
    kind: Kind,
    values: u64,
}

impl Builder<'_> {
    fn pair(&mut self) -> Option<PairDraft> {
        self.text.word(b"pair")?;
        let strings = self.text.field()?;
        let entries = self.text.field()?;
        self.text.newline()?;
        // A type has one entry in a block at most.
        if entries > bounds::TYPES as u64 {
            return None;
        }
        let mut pair = PairDraft {
            strings: self.strings(strings)?,
            entries: Vec::new(),
        };
        let mut due = Vec::new();
        for _ in 0..entries {
            pair.entries.push(self.entry(&mut due)?);
        }
        self.chunks(&mut pair, &due)?;
        Some(pair)
    }

    fn strings(&mut self, count: u64) -> Option<Vec<Vec<u8>>> {
        if count > (bounds::STRINGS - self.names.len()) as u64 {
            return None;
        }
        let mut strings = Vec::new();
        let mut room = bounds::FILE;
        for _ in 0..count {
            self.text.word(b"str\t")?;
            let digits = self.text.hex();
            self.text.newline()?;
            room = room.checked_sub(digits.len() / 2)?;
            strings.push(unhex(digits)?);
            self.names.push(digits);
        }
        Some(strings)
    }

    fn entry(&mut self, due: &mut Vec<Due>) -> Option<EntryDraft> {
        self.text.word(b"type")?;
        let name = self.text.field()?;
        let super_name = self.text.field_or_dash()?;
        let start = self.text.field_or_dash()?;
        let count = self.text.field()?;
        let fields = self.text.field()?;
        self.text.newline()?;
        if count > bounds::OBJECTS {
            return None;
        }
        let index = self.type_of(name, super_name)?;
        let owner = &mut self.types[index];
        owner.objects += count;
        if owner.objects > bounds::OBJECTS || owner.has_super != start.is_some() {
            return None;
        }
        Some(EntryDraft {
            name,
            super_name,
            start,
            count,
            fields: self.fields(index, count, fields, due)?,
        })
    }

    /// The type an entry speaks of; a new one joins the list.
    fn type_of(&mut self, number: u64, super_name: Option<u64>) -> Option<usize> {
        let name = self.names.name(number)?;
        let known = self.type_by_name.get(&name).copied();
        match (known, super_name) {
            (Some(index), None) => Some(index),
            (None, Some(upper)) if self.types.len() < bounds::TYPES => {
                let index = self.types.len();
                self.type_by_name.insert(name, index);
                self.types.push(Known {
                    has_super: upper != 0,
                    objects: 0,
                    fields: Vec::new(),
                });
                Some(index)
            }
            _ => None,
        }
    }

    fn fields(
        &mut self,
        index: usize,
        count: u64,
        number: u64,
        due: &mut Vec<Due>,
    ) -> Option<Vec<FieldDraft>> {
        let old = match count {
            0 => 0,
            _ => self.types[index].fields.len(),
        };
        let new = number.checked_sub(old as u64)?;
        if new > (bounds::FIELDS - self.fields) as u64 {
            return None;
        }
        self.fields += new as usize;
        let mut drafts = Vec::new();
        for position in 0..old {
            self.text.word(b"old\n")?;
            let kind = self.types[index].fields[position];
            let values = count;
            due.push(Due { kind, values });
            drafts.push(None);
        }
        for _ in 0..new {
            self.text.word(b"new\t")?;
            let kind = self.kind()?;
            let name = self.text.field()?;
            self.text.newline()?;
            let owner = &mut self.types[index];
            owner.fields.push(kind);
            let values = owner.objects;
            due.push(Due { kind, values });
            drafts.push(Some((kind_bytes(kind), name)));
        }
        let fields = drafts.into_iter().map(|new| FieldDraft {
            new,
            chunk: Vec::new(),
        });
        Some(fields.collect())
    }

    fn kind(&mut self) -> Option<Kind> {
        let number = self.text.decimal()?;
        let form = match number {
            0..=4 => return self.constant(number as u8),
            20 => return self.map_kind(),
            15 => {
                self.text.word(b",")?;
                let length = self.text.decimal()?;
                if length > bounds::OBJECTS {
                    return None;
                }
                Form::Fixed(length)
            }
            17..=19 => Form::Sized(number as u8),
            _ => Form::Single,
        };
        let element = match form {
            Form::Single => number,
            _ => {
                self.text.word(b",")?;
                self.text.decimal()?
            }
        };
        let element = Element::of(element)?;
        Some(Kind::Stored { form, element })
    }

    fn map_kind(&mut self) -> Option<Kind> {
        self.text.word(b",")?;
        let number = self.text.decimal()?;
        if !MAP_TYPES.contains(&number) {
            return None;
        }
        let mut types = Vec::new();
        for _ in 0..number {
            self.text.word(b",")?;
            types.push(Element::of(self.text.decimal()?)?);
        }
        MapTypes::new(&types).map(Kind::Map)
    }

    fn constant(&mut self, number: u8) -> Option<Kind> {
        self.text.word(b",")?;
        let width = match number {
            4 => 8,
            _ => constant_width(number),
        };
        let value = self.text.signed(width)?;
        Some(Kind::Constant { number, value })
    }

    /// Reads the value lines of a block into the chunks of its fields.
    fn chunks(&mut self, pair: &mut PairDraft, due: &[Due]) -> Option<()> {
        let fields = pair.entries.iter_mut().flat_map(|entry| &mut entry.fields);
        let mut room = bounds::FILE;
        for (field, due) in fields.zip(due) {
            field.chunk = match due.kind {
                Kind::Constant { .. } => Vec::new(),
                Kind::Stored { form, element } => self.chunk(form, element, due.values, room)?,
                Kind::Map(types) => self.maps(types.elements(), due.values, room)?,
            };
            room -= field.chunk.len();
        }
        Some(())
    }

    /// Reads the lines of one chunk, of at most `room` bytes.
    fn chunk(&mut self, form: Form, element: Element, values: u64, room: usize) -> Option<Vec<u8>> {
        let mut chunk = Vec::new();
        // A copy that nothing else can see is quicker to move on.
        let mut text = self.text;
        for _ in 0..values {
            text.word(b"val")?;
            let start = chunk.len();
            if let Form::Sized(_) = form {
                chunk.push(0);
            }
            let mut length = 0;
            while text.is(b'\t') {
                read_element(&mut text, element, &mut chunk)?;
                length += 1;
            }
            text.newline()?;
            match form {
                Form::Single if length != 1 => return None,
                Form::Fixed(wanted) if length != wanted => return None,
                Form::Sized(_) if length > bounds::OBJECTS => return None,
                Form::Sized(_) => put_length(&mut chunk, start, length),
                Form::Single | Form::Fixed(_) => {}
            }
            if chunk.len() > room {
                return None;
            }
        }
        self.text = text;
        Some(chunk)
    }

    /// Reads the lines of a chunk of maps, of at most `room` bytes.
    fn maps(&mut self, types: &[Element], values: u64, room: usize) -> Option<Vec<u8>> {
        let mut chunk = Vec::new();
        let mut text = self.text;
        for _ in 0..values {
            text.word(b"val")?;
            read_map(&mut text, types, &mut chunk)?;
            text.newline()?;
            if chunk.len() > room {
                return None;
            }
        }
        self.text = text;
        Some(chunk)
    }
}

/// Writes the length of an array to the byte that was left for it before its
/// elements. A long one needs more.
fn put_length(chunk: &mut Vec<u8>, start: usize, length: u64) {
    match length {
        0..0x80 => chunk[start] = length as u8,
        _ => drop(chunk.splice(start..=start, v64::coded(length))),
    }
}

/// Reads what stands for the types that are left: a size and as many
/// keys, each with what it leads to, as long as there are two. A size is
/// only believed as far as its keys are there.
fn read_map(text: &mut Text<'_>, types: &[Element], out: &mut Vec<u8>) -> Option<()> {
    let (&first, rest) = types.split_first()?;
    if rest.is_empty() {
        text.tab()?;
        return read_element(text, first, out);
    }
    let keys = text.field()?;
    v64::write(out, keys);
    for _ in 0..keys {
        text.tab()?;
        read_element(text, first, out)?;
        read_map(text, rest, out)?;
    }
    Some(())
}

/// Reads an element and writes it behind the others of its chunk.
#[inline(always)]
fn read_element(text: &mut Text<'_>, element: Element, out: &mut Vec<u8>) -> Option<()> {
    match element {
        Element::Annotation => {
            v64::write(out, text.decimal()?);
            v64::write(out, text.field()?);
        }
        Element::Bool => out.push(match text.decimal()? {
            0 => 0x00,
            1 => 0xFF,
            _ => return None,
        }),
        Element::I8 => wide(out, text.signed(1)? as u64, 1),
        Element::I16 => wide(out, text.signed(2)? as u64, 2),
        Element::I32 => wide(out, text.signed(4)? as u64, 4),
        Element::I64 => wide(out, text.signed(8)? as u64, 8),
        Element::V64 => v64::write(out, text.signed(8)? as u64),
        Element::F32 => wide(out, text.hex_bits()?, 4),
        Element::F64 => wide(out, text.hex_bits()? << 32 | text.hex_bits()?, 8),
        Element::Text | Element::Object(_) => v64::write(out, text.decimal()?),
    }
    Some(())
}
