//! Reading a file front to back, in the paper's order.
//!
//! What is read of the heads of pairs and entries comes into a [`Ledger`],
//! values go to a [`Sink`] as they are checked.

use std::cell::OnceCell;
use std::ops::Range;

use crate::bounds;
use crate::cursor::{Cursor, Found};
use crate::kind::{constant_width, signed, Element, Form, Kind, MapTypes, MAP_TYPES};
use crate::ledger::{Chunk, Entry, Field, Ledger, Pair, Type};
use crate::names::Name;
use crate::pools::Pools;
use crate::refusal::*;
use crate::sink::{Heads, Sink};
use crate::values;

/// Reads and checks a whole file.
pub fn read(file: &[u8]) -> Result<Ledger<'_>, Refusal> {
    read_into(file, &mut Heads)
}

/// Reads and checks a whole file, with a sink for what it holds.
pub fn read_into<'f, S: Sink>(file: &'f [u8], sink: &mut S) -> Result<Ledger<'f>, Refusal> {
    if file.len() > bounds::FILE {
        return Err(Refusal::of_call(LIMIT));
    }
    let mut reader = Reader {
        cursor: Cursor::new(file),
        ledger: Ledger::empty(file),
        objects: 0,
        sink,
    };
    while !reader.cursor.at_end() {
        reader.pair()?;
    }
    Ok(reader.ledger)
}

struct Reader<'f, 's, S> {
    cursor: Cursor<'f>,
    ledger: Ledger<'f>,
    /// Objects of all base pools so far.
    objects: u64,
    sink: &'s mut S,
}

/// What has to be kept while the entries of one block are read.
#[derive(Default)]
struct Block {
    /// The range each type has in this block, by type index.
    local: [Option<Local>; bounds::TYPES],
    /// By super type: where the ranges of its subtypes read so far end.
    taken: [u64; bounds::TYPES],
    /// The end offset of each chunk; they lead out of the file until the
    /// region is tested, so they are not yet parts of it.
    ends: Vec<u64>,
    /// Reference kinds of new fields, tested after the region.
    references: Vec<Found>,
}

/// Objects of a type in one block, counted in the base pool's part of it.
#[derive(Clone, Copy)]
struct Local {
    start: u64,
    count: u64,
}

impl<S: Sink> Reader<'_, '_, S> {
    fn pair(&mut self) -> Result<(), Refusal> {
        if self.ledger.pairs.len() == bounds::PAIRS {
            return Err(Refusal::at(LIMIT, self.cursor.position()));
        }
        let strings = self.string_block()?;
        let first_entry = self.ledger.entries.len();
        let first_chunk = self.ledger.chunks.len();
        let mut block = Block::default();
        let entries = self.cursor.v64()?;
        entries.refuse_if(entries.value > bounds::OBJECTS, LIMIT)?;
        for _ in 0..entries.value {
            self.entry(&mut block)?;
        }
        self.region(first_chunk, &block.ends)?;
        self.reference_kinds(&block.references)?;
        let pair = Pair {
            strings,
            entries: first_entry..self.ledger.entries.len(),
        };
        self.sink.pair(&self.ledger, &pair);
        let pools = self.pools(first_chunk);
        for chunk in &self.ledger.chunks[first_chunk..] {
            values::check(&self.ledger, &pools, chunk, self.sink)?;
        }
        self.ledger.pairs.push(pair);
        Ok(())
    }

    /// Reads a string block; answers the numbers of its strings.
    fn string_block(&mut self) -> Result<Range<u32>, Refusal> {
        let before = self.ledger.names.len();
        let count = self.cursor.v64()?;
        count.refuse_if(count.value > (bounds::STRINGS - before) as u64, LIMIT)?;
        let count = count.value as usize;
        let mut ends = Vec::with_capacity(count);
        let mut last = 0;
        for _ in 0..count {
            let end = self.cursor.wide(4)?;
            end.refuse_if(end.value < last, ENDS)?;
            last = end.value;
            ends.push(last as usize);
        }
        let place = self.cursor.position();
        let bytes = self
            .cursor
            .take(last as usize)
            .ok_or(Refusal::at(SHORT, place))?;
        self.ledger.names.reserve(count);
        let mut start = 0;
        for end in ends {
            self.ledger.names.push(&bytes[start..end]);
            start = end;
        }
        Ok(before as u32 + 1..self.ledger.names.len() as u32 + 1)
    }

    fn entry(&mut self, block: &mut Block) -> Result<(), Refusal> {
        let name = self.cursor.v64()?;
        let own = self.name(name)?;
        let known = self.ledger.type_of(own);
        match known {
            Some(index) => name.refuse_if(block.local[index].is_some(), TWICE)?,
            None => name.refuse_if(self.ledger.types.len() == bounds::TYPES, LIMIT)?,
        }
        let (index, super_name) = match known {
            Some(index) => (index, None),
            None => {
                let number = self.cursor.v64()?;
                (self.declare(own, number)?, Some(number.value))
            }
        };
        let start = self.local_start(index)?;
        let count = self.count(block, index, start)?;
        if known.is_none() {
            self.no_restrictions()?;
        }
        let first_chunk = self.ledger.chunks.len();
        self.fields(block, index, count)?;
        if S::KEEPS_ENTRIES {
            self.ledger.entries.push(Entry {
                type_index: index,
                name: name.value,
                super_name,
                start,
                count,
                chunks: first_chunk..self.ledger.chunks.len(),
            });
        }
        Ok(())
    }

    /// The name a string number in an entry stands for.
    fn name(&mut self, number: Found) -> Result<Name, Refusal> {
        let name = self.ledger.names.name(number.value);
        name.ok_or(Refusal::at(NAME, number.place))
    }

    /// Declares a new type. It joins the list only here, so its own name is
    /// not yet one that its super name could find.
    fn declare(&mut self, name: Name, super_name: Found) -> Result<usize, Refusal> {
        let index = self.ledger.types.len();
        let super_type = match super_name.value {
            0 => None,
            _ => {
                let wanted = self.name(super_name)?;
                let found = self.ledger.type_of(wanted);
                Some(found.ok_or(Refusal::at(SUPER, super_name.place))?)
            }
        };
        let base = super_type.map_or(index, |upper| self.ledger.types[upper].base);
        Ok(self.ledger.add_type(Type {
            name,
            super_type,
            base,
            fields: Vec::new(),
            objects: 0,
            before: 0,
            ranges: Vec::new(),
            members: OnceCell::new(),
        }))
    }

    fn local_start(&mut self, index: usize) -> Result<Option<u64>, Refusal> {
        if self.ledger.types[index].super_type.is_none() {
            return Ok(None);
        }
        let start = self.cursor.v64()?;
        start.refuse_if(start.value > bounds::OBJECTS, LIMIT)?;
        Ok(Some(start.value))
    }

    /// Reads a count, tests its bounds and ranges, and adds the objects.
    fn count(
        &mut self,
        block: &mut Block,
        index: usize,
        start: Option<u64>,
    ) -> Result<u64, Refusal> {
        let count = self.cursor.v64()?;
        count.refuse_if(count.value > bounds::OBJECTS, LIMIT)?;
        let super_type = self.ledger.types[index].super_type;
        let local = Local {
            start: start.unwrap_or(0),
            count: count.value,
        };
        match super_type {
            None => {
                self.objects += local.count;
                count.refuse_if(self.objects > bounds::OBJECTS, LIMIT)?;
                self.ledger.types[index].before = self.ledger.types[index].objects;
            }
            Some(upper) => {
                count.refuse_if(!block.admits(upper, local), RANGE)?;
                block.taken[upper] = block.taken[upper].max(local.start + local.count);
            }
        }
        block.local[index] = Some(local);
        self.add_objects(index, local);
        Ok(local.count)
    }

    fn add_objects(&mut self, index: usize, local: Local) {
        let before = self.ledger.types[self.ledger.types[index].base].before;
        let owner = &mut self.ledger.types[index];
        owner.objects += local.count;
        if local.count == 0 {
            return;
        }
        let first = before + local.start + 1;
        owner.add(first..first + local.count);
    }

    fn no_restrictions(&mut self) -> Result<(), Refusal> {
        let number = self.cursor.v64()?;
        number.refuse_if(number.value != 0, RESTRICTION)
    }

    /// Reads the number of fields and the fields.
    fn fields(&mut self, block: &mut Block, index: usize, count: u64) -> Result<(), Refusal> {
        let number = self.cursor.v64()?;
        // A type that adds no objects gives nothing for its known fields.
        let old = match count {
            0 => 0,
            _ => self.ledger.types[index].fields.len(),
        };
        number.refuse_if(number.value < old as u64, FIELDS)?;
        let new = number.value - old as u64;
        let free = bounds::FIELDS - self.ledger.fields.len();
        number.refuse_if(new > free as u64, LIMIT)?;
        for position in 0..old {
            let field = self.ledger.types[index].fields[position];
            self.chunk(block, field, 0, count)?;
        }
        for _ in 0..new {
            self.new_field(block, index)?;
        }
        Ok(())
    }

    fn new_field(&mut self, block: &mut Block, index: usize) -> Result<(), Refusal> {
        self.no_restrictions()?;
        let kind = self.kind(block)?;
        let number = self.cursor.v64()?;
        let name = self.name(number)?;
        let used = self.ledger.field_of(index, name).is_some();
        number.refuse_if(used, TWICE)?;
        let objects = self.ledger.types[index].objects;
        let field = self.ledger.add_field(index, Field { name, kind });
        self.chunk(block, field, number.value, objects)
    }

    fn kind(&mut self, block: &mut Block) -> Result<Kind, Refusal> {
        let number = self.cursor.v64()?;
        let form = match number.value {
            constant @ 0..=4 => return self.constant(constant as u8),
            20 => return self.map(block),
            15 => {
                let length = self.cursor.v64()?;
                length.refuse_if(length.value > bounds::OBJECTS, LIMIT)?;
                Form::Fixed(length.value)
            }
            sized @ 17..=19 => Form::Sized(sized as u8),
            _ => Form::Single,
        };
        let element = match form {
            Form::Single => number,
            Form::Fixed(_) | Form::Sized(_) => self.cursor.v64()?,
        };
        let element = block.element(element)?;
        Ok(Kind::Stored { form, element })
    }

    /// Reads the types of a map.
    fn map(&mut self, block: &mut Block) -> Result<Kind, Refusal> {
        let number = self.cursor.v64()?;
        number.refuse_if(!MAP_TYPES.contains(&number.value), KIND)?;
        let mut types = Vec::new();
        for _ in 0..number.value {
            let element = self.cursor.v64()?;
            types.push(block.element(element)?);
        }
        let types = MapTypes::new(&types).ok_or(Refusal::at(KIND, number.place))?;
        Ok(Kind::Map(types))
    }

    fn constant(&mut self, number: u8) -> Result<Kind, Refusal> {
        let value = match number {
            4 => self.cursor.v64()?.value as i64,
            _ => {
                let width = constant_width(number);
                signed(self.cursor.wide(width)?.value, width)
            }
        };
        Ok(Kind::Constant { number, value })
    }

    /// Reads the end offset that closes a field's chunk. The name is a string
    /// number where the field is new, otherwise 0.
    fn chunk(
        &mut self,
        block: &mut Block,
        field: usize,
        name: u64,
        values: u64,
    ) -> Result<(), Refusal> {
        let end = self.cursor.v64()?;
        let last = block.ends.last().copied().unwrap_or(0);
        end.refuse_if(end.value < last, ENDS)?;
        block.ends.push(end.value);
        self.ledger.chunks.push(Chunk {
            field,
            new: name != 0,
            name,
            values,
            part: 0..0,
        });
        Ok(())
    }

    /// Tests that the data region lies in the file, gives each chunk of the
    /// block its part of it and moves behind it.
    fn region(&mut self, first_chunk: usize, ends: &[u64]) -> Result<(), Refusal> {
        let region = self.cursor.position();
        let length = ends.last().copied().unwrap_or(0);
        if length > self.cursor.left() as u64 {
            return Err(Refusal::at(SHORT, region));
        }
        self.cursor.take(length as usize);
        let mut start = region;
        for (chunk, &end) in self.ledger.chunks[first_chunk..].iter_mut().zip(ends) {
            let past = region + end as usize;
            chunk.part = start..past;
            start = past;
        }
        Ok(())
    }

    /// What annotations in the chunks of this block can lead to. All types
    /// and objects of the block are known by now, and no later ones.
    fn pools(&self, first_chunk: usize) -> Pools {
        let chunks = &self.ledger.chunks[first_chunk..];
        let fields = &self.ledger.fields;
        let mut kinds = chunks.iter().map(|chunk| fields[chunk.field].kind);
        match kinds.any(|kind| kind.elements().contains(&Element::Annotation)) {
            true => Pools::of(&self.ledger),
            false => Pools::default(),
        }
    }

    /// Tests that every reference kind of the block has its type.
    fn reference_kinds(&self, references: &[Found]) -> Result<(), Refusal> {
        let past = crate::kind::REFERENCE + self.ledger.types.len() as u64;
        for kind in references {
            kind.refuse_if(kind.value >= past, KIND)?;
        }
        Ok(())
    }
}

impl Block {
    /// The element kind of a number; one from 32 upwards is tested later.
    fn element(&mut self, number: Found) -> Result<Element, Refusal> {
        let Some(known) = Element::of(number.value) else {
            return number.refuse(KIND);
        };
        if let Element::Object(_) = known {
            self.references.push(number);
        }
        Ok(known)
    }

    /// Whether a subtype's range keeps the range rules under its super type.
    fn admits(&self, upper: usize, local: Local) -> bool {
        if local.count == 0 {
            return local.start == 0;
        }
        match self.local[upper] {
            Some(above) => {
                // An empty range above has no room: its end is its start, 0.
                local.start >= above.start
                    && local.start + local.count <= above.start + above.count
                    && local.start >= self.taken[upper]
            }
            None => false,
        }
    }
}
