//! Good ledgers made by chance.

use super::random::Random;
use crate::bounds;
use crate::draft::{spelt_kind, wide, EntryDraft, FieldDraft, PairDraft, Spell};
use crate::kind::{Element, Form, Kind, MapTypes};

/// How large a ledger may become.
#[derive(Clone, Copy)]
pub struct Size {
    pub pairs: u64,
    /// New types of a pair.
    pub types: u64,
    /// New fields of an entry.
    pub fields: u64,
    /// Objects a base type adds in a pair.
    pub objects: u64,
    /// Strings of a pair beyond the names it needs.
    pub strings: u64,
}

/// A handful of everything.
pub const SMALL: Size = Size {
    pairs: 4,
    types: 3,
    fields: 2,
    objects: 6,
    strings: 3,
};

/// So many strings and objects that their numbers take two bytes.
pub const WIDE: Size = Size {
    pairs: 3,
    types: 3,
    fields: 2,
    objects: 300,
    strings: 150,
};

/// Many pairs, few objects.
pub const LONG: Size = Size {
    pairs: 32,
    types: 2,
    fields: 1,
    objects: 3,
    strings: 1,
};

/// A ledger of at least one pair. How numbers are written has no part in what
/// it holds.
pub fn ledger(random: &mut Random, size: Size, spell: Spell) -> Vec<PairDraft> {
    let pairs = random.between(1, size.pairs);
    let mut world = World {
        random,
        size,
        spell,
        strings: Vec::new(),
        types: Vec::new(),
        fields: 0,
        objects: 0,
    };
    (0..pairs).map(|_| world.pair()).collect()
}

struct World<'r> {
    random: &'r mut Random,
    size: Size,
    spell: Spell,
    /// All strings so far.
    strings: Vec<Vec<u8>>,
    types: Vec<Sort>,
    fields: usize,
    objects: u64,
}

/// A type of the ledger in the making.
struct Sort {
    name: Vec<u8>,
    above: Option<usize>,
    base: usize,
    fields: Vec<(Vec<u8>, Kind)>,
    objects: u64,
    /// For a base type, its objects before this block.
    before: u64,
    /// First object number and count, block after block.
    ranges: Vec<(u64, u64)>,
}

/// A type's place in the block in the making.
struct Spot {
    index: usize,
    new: bool,
    start: u64,
    count: u64,
}

impl World<'_> {
    fn pair(&mut self) -> PairDraft {
        let first_string = self.strings.len();
        for _ in 0..self.random.between(0, self.size.strings) {
            let text = self.any_string();
            self.push_string(text);
        }
        let spots = self.spots();
        let mut entries: Vec<EntryDraft> = spots.iter().map(|spot| self.entry(spot)).collect();
        // Names of fields are all there before the first value is chosen, so
        // that values reach every string of the pair.
        let fields: Vec<Vec<(Option<u64>, Kind, u64)>> =
            spots.iter().map(|spot| self.fields(spot)).collect();
        for (entry, fields) in entries.iter_mut().zip(fields) {
            for (name, kind, values) in fields {
                entry.fields.push(FieldDraft {
                    new: name.map(|name| (spelt_kind(kind, self.spell), name)),
                    chunk: self.chunk(kind, values),
                });
            }
        }
        PairDraft {
            strings: self.strings[first_string..].to_vec(),
            entries,
        }
    }

    /// Chooses types, their order, and their ranges.
    fn spots(&mut self) -> Vec<Spot> {
        let mut order = self.order();
        let mut spots: Vec<Spot> = Vec::new();
        let mut taken = vec![0; bounds::TYPES];
        for planned in order.drain(..) {
            let new = planned.is_none();
            let index = match planned {
                Some(index) => index,
                None if self.types.len() < bounds::TYPES => self.declare(),
                None => continue,
            };
            let (start, count) = self.range(index, &spots, &mut taken);
            self.add(index, start, count);
            spots.push(Spot {
                index,
                new,
                start,
                count,
            });
        }
        spots
    }

    /// Known types by index, new ones as none.
    fn order(&mut self) -> Vec<Option<usize>> {
        let mut order: Vec<Option<usize>> = Vec::new();
        for index in 0..self.types.len() {
            if !self.random.once_in(3) {
                order.push(Some(index));
            }
        }
        // In order of declaration a super type comes before its subtypes, so
        // that more than the base types get objects.
        if self.random.once_in(3) {
            self.random.shuffle(&mut order);
        }
        for _ in 0..self.random.between(0, self.size.types) {
            let place = self.random.index(order.len() + 1);
            order.insert(place, None);
        }
        order
    }

    /// Declares a new type, under any earlier one or none.
    fn declare(&mut self) -> usize {
        let index = self.types.len();
        let above = match index {
            0 => None,
            _ if self.random.once_in(3) => None,
            // More often than not under a late one: chains grow long.
            _ if self.random.once_in(2) => Some(index - 1),
            _ => Some(self.random.index(index)),
        };
        let used: Vec<&[u8]> = self.types.iter().map(|sort| &sort.name[..]).collect();
        let name = fresh_name(self.random, &used);
        self.types.push(Sort {
            name,
            above,
            base: above.map_or(index, |above| self.types[above].base),
            fields: Vec::new(),
            objects: 0,
            before: 0,
            ranges: Vec::new(),
        });
        index
    }

    fn range(&mut self, index: usize, spots: &[Spot], taken: &mut [u64]) -> (u64, u64) {
        let Some(above) = self.types[index].above else {
            let room = self.size.objects.min(bounds::OBJECTS - self.objects);
            return (0, self.random.between(0, room));
        };
        let spot = spots.iter().find(|spot| spot.index == above);
        let Some(spot) = spot.filter(|spot| spot.count > 0) else {
            return (0, 0);
        };
        let first = spot.start.max(taken[above]);
        let past = spot.start + spot.count;
        if first >= past || self.random.once_in(6) {
            return (0, 0);
        }
        let start = self.random.between(first, (first + 2).min(past - 1));
        let count = self.random.between(1, past - start);
        taken[above] = start + count;
        (start, count)
    }

    fn add(&mut self, index: usize, start: u64, count: u64) {
        let base = self.types[index].base;
        if base == index {
            self.objects += count;
            self.types[index].before = self.types[index].objects;
        }
        let first = self.types[base].before + start + 1;
        let sort = &mut self.types[index];
        sort.objects += count;
        if count > 0 {
            sort.ranges.push((first, count));
        }
    }

    fn entry(&mut self, spot: &Spot) -> EntryDraft {
        let name = self.types[spot.index].name.clone();
        let above = self.types[spot.index].above;
        let super_name = match above {
            _ if !spot.new => None,
            None => Some(0),
            Some(above) => {
                let name = self.types[above].name.clone();
                Some(self.number_of(&name))
            }
        };
        EntryDraft {
            name: self.number_of(&name),
            super_name,
            start: above.map(|_| spot.start),
            count: spot.count,
            fields: Vec::new(),
        }
    }

    /// The fields an entry gives: name if new, kind, number of values.
    fn fields(&mut self, spot: &Spot) -> Vec<(Option<u64>, Kind, u64)> {
        let mut fields = Vec::new();
        if spot.count > 0 {
            let known = self.types[spot.index].fields.iter();
            fields.extend(known.map(|&(_, kind)| (None, kind, spot.count)));
        }
        for _ in 0..self.random.between(0, self.size.fields) {
            if self.fields == bounds::FIELDS {
                break;
            }
            self.fields += 1;
            let kind = self.kind();
            let own = &self.types[spot.index].fields;
            let used: Vec<&[u8]> = own.iter().map(|(name, _)| &name[..]).collect();
            let name = fresh_name(self.random, &used);
            let number = self.number_of(&name);
            self.types[spot.index].fields.push((name, kind));
            fields.push((Some(number), kind, self.types[spot.index].objects));
        }
        fields
    }

    fn kind(&mut self) -> Kind {
        let form = match self.random.below(14) {
            0 | 1 => return self.constant(),
            2 => Form::Fixed(self.random.below(4)),
            3 => Form::Sized(17),
            4 => Form::Sized(18),
            5 => Form::Sized(19),
            6 | 7 => return self.map_kind(),
            _ => Form::Single,
        };
        let element = self.element_kind();
        Kind::Stored { form, element }
    }

    /// Mostly of two or three types.
    fn map_kind(&mut self) -> Kind {
        let number = match self.random.below(4) {
            0 => self.random.between(2, 8),
            1 => 3,
            _ => 2,
        };
        let types: Vec<Element> = (0..number).map(|_| self.element_kind()).collect();
        Kind::Map(MapTypes::new(&types).expect("maps have 2 to 8 types"))
    }

    fn element_kind(&mut self) -> Element {
        match self.random.below(16) {
            11.. => Element::Object(self.random.below(self.types.len() as u64)),
            10 => Element::Annotation,
            plain => Element::of(5 + plain).expect("5 to 14 are element kinds"),
        }
    }

    fn constant(&mut self) -> Kind {
        let number = self.random.below(5) as u8;
        let bits = self.random.bits();
        let value = match number {
            4 => bits as i64,
            _ => crate::kind::signed(bits, 1 << number),
        };
        Kind::Constant { number, value }
    }

    fn chunk(&mut self, kind: Kind, values: u64) -> Vec<u8> {
        let mut chunk = Vec::new();
        for _ in 0..values {
            match kind {
                Kind::Constant { .. } => {}
                Kind::Stored { form, element } => self.array(form, element, values, &mut chunk),
                Kind::Map(types) => self.map(types.elements(), values, &mut chunk),
            }
        }
        chunk
    }

    /// A value of one or more elements, in a chunk of so many values.
    fn array(&mut self, form: Form, element: Element, values: u64, out: &mut Vec<u8>) {
        let length = match form {
            Form::Single => 1,
            Form::Fixed(length) => length,
            Form::Sized(_) => {
                let length = self.array_length(values);
                (self.spell)(out, length);
                length
            }
        };
        for _ in 0..length {
            self.element(element, out);
        }
    }

    /// A map of the first type to what the others make, in a chunk of so many
    /// values.
    fn map(&mut self, types: &[Element], values: u64, out: &mut Vec<u8>) {
        let (&first, rest) = types.split_first().expect("a type is left");
        if rest.is_empty() {
            return self.element(first, out);
        }
        // One key on average where others are below it: no map grows with
        // its number of types.
        let size = match rest.len() {
            1 => self.array_length(values),
            _ => self.random.below(3),
        };
        (self.spell)(out, size);
        for _ in 0..size {
            self.element(first, out);
            self.map(rest, values, out);
        }
    }

    /// Short, so that files stay small, but now and then of two bytes.
    fn array_length(&mut self, values: u64) -> u64 {
        match values {
            0..20 if self.random.once_in(60) => self.random.between(126, 140),
            0..20 => self.random.below(5),
            _ => self.random.below(3),
        }
    }

    fn element(&mut self, element: Element, out: &mut Vec<u8>) {
        let bits = self.random.bits();
        match element {
            Element::Bool => out.push(if bits & 1 == 0 { 0x00 } else { 0xFF }),
            Element::I8 => wide(out, self.random.word(), 1),
            Element::I16 => wide(out, self.random.word(), 2),
            Element::I32 | Element::F32 => wide(out, self.random.word(), 4),
            Element::I64 | Element::F64 => wide(out, self.random.word(), 8),
            Element::V64 => (self.spell)(out, bits),
            Element::Text => {
                let number = self.random.below(self.strings.len() as u64 + 1);
                (self.spell)(out, number);
            }
            Element::Object(index) => {
                let number = self.object(index as usize);
                (self.spell)(out, number);
            }
            Element::Annotation => {
                let (name, number) = self.annotation();
                (self.spell)(out, name);
                (self.spell)(out, number);
            }
        }
    }

    /// An object of a type, or null.
    fn object(&mut self, index: usize) -> u64 {
        let ranges = &self.types[index].ranges;
        if ranges.is_empty() || self.random.once_in(5) {
            return 0;
        }
        let &(first, count) = self.random.pick(ranges);
        first + self.random.below(count)
    }

    /// A base type's name and an object of its pool, or null.
    fn annotation(&mut self) -> (u64, u64) {
        let index = self.random.index(self.types.len());
        let base = self.types[index].base;
        let number = self.object(base);
        if number == 0 {
            return (0, 0);
        }
        let names = self.numbers_of(&self.types[base].name);
        (*self.random.pick(&names), number)
    }

    fn any_string(&mut self) -> Vec<u8> {
        if !self.strings.is_empty() && self.random.once_in(4) {
            return self.random.pick(&self.strings).clone();
        }
        any_name(self.random)
    }

    fn push_string(&mut self, text: Vec<u8>) -> bool {
        let room = self.strings.len() < bounds::STRINGS;
        if room {
            self.strings.push(text);
        }
        room
    }

    /// A string number that stands for this name: one that is there, or one
    /// more string.
    fn number_of(&mut self, name: &[u8]) -> u64 {
        let there = self.numbers_of(name);
        let again = there.is_empty() || self.random.once_in(8);
        if again && self.push_string(name.to_vec()) {
            return self.strings.len() as u64;
        }
        *self.random.pick(&there)
    }

    /// The numbers of the strings that are this name.
    fn numbers_of(&self, name: &[u8]) -> Vec<u64> {
        let numbered = (1..).zip(&self.strings);
        let equal = numbered.filter(|(_, text)| &text[..] == name);
        equal.map(|(number, _)| number).collect()
    }
}

/// A name that none of the used ones equals.
fn fresh_name(random: &mut Random, used: &[&[u8]]) -> Vec<u8> {
    loop {
        let name = any_name(random);
        if !used.contains(&&name[..]) {
            return name;
        }
    }
}

/// Mostly short names of few letters, so that equal ones come up often.
fn any_name(random: &mut Random) -> Vec<u8> {
    let length = match random.below(40) {
        0 => random.between(120, 140),
        1..=5 => random.between(4, 9),
        _ => random.below(4),
    };
    let plain = !random.once_in(8);
    (0..length)
        .map(|_| match plain {
            true => b'a' + random.below(6) as u8,
            false => random.byte(),
        })
        .collect()
}
