//! Kinds of fields.

use std::ops::RangeInclusive;

/// What one element of a value is.
#[derive(Clone, Copy, Debug, PartialEq, Eq)]
pub enum Element {
    /// The name of a base type and an object of its pool, as two numbers.
    Annotation,
    Bool,
    I8,
    I16,
    I32,
    I64,
    V64,
    F32,
    F64,
    Text,
    /// A reference to the type declared n-th from 0.
    Object(u64),
}

/// First kind number of a reference.
pub const REFERENCE: u64 = 32;

impl Element {
    /// The element kind of a number: 5 to 14, or 32 upwards.
    pub fn of(number: u64) -> Option<Element> {
        Some(match number {
            5 => Element::Annotation,
            6 => Element::Bool,
            7 => Element::I8,
            8 => Element::I16,
            9 => Element::I32,
            10 => Element::I64,
            11 => Element::V64,
            12 => Element::F32,
            13 => Element::F64,
            14 => Element::Text,
            REFERENCE.. => Element::Object(number - REFERENCE),
            _ => return None,
        })
    }

    /// The number this element kind has in a file.
    pub fn number(self) -> u64 {
        match self {
            Element::Annotation => 5,
            Element::Bool => 6,
            Element::I8 => 7,
            Element::I16 => 8,
            Element::I32 => 9,
            Element::I64 => 10,
            Element::V64 => 11,
            Element::F32 => 12,
            Element::F64 => 13,
            Element::Text => 14,
            Element::Object(index) => REFERENCE + index,
        }
    }
}

/// How many elements a value has.
#[derive(Clone, Copy, Debug, PartialEq, Eq)]
pub enum Form {
    /// One.
    Single,
    /// As many as the kind says (kind 15).
    Fixed(u64),
    /// As many as a v64 before them says (kinds 17 to 19, which differ in
    /// nothing but their number).
    Sized(u8),
}

/// How many types a map has (kind 20).
pub const MAP_TYPES: RangeInclusive<u64> = 2..=MOST_TYPES as u64;
const MOST_TYPES: usize = 8;

/// The element kinds of a map. The first is that of its keys; what a key
/// leads to is of the others: a map as well, as long as there are two.
#[derive(Clone, Copy, Debug, PartialEq, Eq)]
pub struct MapTypes {
    number: usize,
    /// Filled up with one and the same behind those that are there.
    elements: [Element; MOST_TYPES],
}

impl MapTypes {
    /// The types of a map, if there are as many as a map has.
    pub fn new(types: &[Element]) -> Option<MapTypes> {
        if !MAP_TYPES.contains(&(types.len() as u64)) {
            return None;
        }
        let mut elements = [Element::Bool; MOST_TYPES];
        elements[..types.len()].copy_from_slice(types);
        let number = types.len();
        Some(MapTypes { number, elements })
    }

    /// Two to eight of them.
    pub fn elements(&self) -> &[Element] {
        &self.elements[..self.number]
    }
}

/// The kind of a field.
#[derive(Clone, Copy, Debug, PartialEq, Eq)]
pub enum Kind {
    /// Kinds 0 to 4: the value stands in the declaration.
    Constant { number: u8, value: i64 },
    /// Values stand in chunks, as elements side by side.
    Stored { form: Form, element: Element },
    /// Kind 20: values stand in chunks, as keys and what they lead to.
    Map(MapTypes),
}

impl Kind {
    /// The first number of the kind.
    pub fn number(self) -> u64 {
        match self {
            Kind::Constant { number, .. } => u64::from(number),
            Kind::Stored { form, element } => match form {
                Form::Single => element.number(),
                Form::Fixed(_) => 15,
                Form::Sized(number) => u64::from(number),
            },
            Kind::Map(_) => 20,
        }
    }

    /// All numbers of the kind as they stand in a file, the value of a
    /// constant aside.
    pub fn numbers(self) -> Vec<u64> {
        let mut numbers = vec![self.number()];
        match self {
            Kind::Constant { .. } => {}
            Kind::Stored { form, element } => {
                if let Form::Fixed(length) = form {
                    numbers.push(length);
                }
                if form != Form::Single {
                    numbers.push(element.number());
                }
            }
            Kind::Map(types) => {
                numbers.push(types.elements().len() as u64);
                numbers.extend(types.elements().iter().map(|one| one.number()));
            }
        }
        numbers
    }

    /// The element kinds of its values; a constant has none.
    pub fn elements(&self) -> &[Element] {
        match self {
            Kind::Constant { .. } => &[],
            Kind::Stored { element, .. } => std::slice::from_ref(element),
            Kind::Map(types) => types.elements(),
        }
    }
}

/// Width in bytes of a constant of kind 0 to 3.
pub fn constant_width(number: u8) -> usize {
    1 << number
}

/// Reads the low `width` bytes of `bits` as two's complement.
pub fn signed(bits: u64, width: usize) -> i64 {
    let unused = 64 - 8 * width as u32;
    ((bits << unused) as i64) >> unused
}
