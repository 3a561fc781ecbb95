//! One field's values as signed 64-bit numbers.

use std::ops::Range;

use crate::kind::{signed, Element, Form, Kind, REFERENCE};
use crate::ledger::{Chunk, Ledger, Pair};
use crate::sink::Sink;

/// Whether a field of this kind answers to the number asked for.
pub fn answers(kind: Kind, asked: u64) -> bool {
    match kind {
        Kind::Constant { number, .. } => asked == u64::from(number),
        Kind::Stored { form, element } => match (form, element) {
            (Form::Single, Element::Annotation) => false,
            (Form::Single, Element::Object(_)) => asked == REFERENCE,
            (Form::Single, plain) => asked == plain.number(),
            (Form::Fixed(_) | Form::Sized(_), _) => false,
        },
        Kind::Map(_) => false,
    }
}

/// The values of the field that is asked for, as far as the file is read.
///
/// Numbers of no fixed width are stored as they are checked. Those of a fixed
/// width are not looked at to check them, so it is enough to remember where
/// they stand.
pub struct Column<'q> {
    type_name: &'q [u8],
    field_name: &'q [u8],
    kind: u64,
    /// The field, once it is declared.
    field: Option<usize>,
    /// How many fields were declared when it was looked for.
    fields: usize,
    numbers: Vec<i64>,
    parts: Vec<Range<usize>>,
}

impl<'q> Column<'q> {
    pub fn new(type_name: &'q [u8], field_name: &'q [u8], kind: u64) -> Self {
        Column {
            type_name,
            field_name,
            kind,
            field: None,
            fields: 0,
            numbers: Vec::new(),
            parts: Vec::new(),
        }
    }

    /// Writes the values of the field, which must be the one that was asked
    /// for, into `out`, which has one number for each object.
    pub fn fill(&self, ledger: &Ledger<'_>, field: usize, out: &mut [i64]) {
        let element = match ledger.fields[field].kind {
            Kind::Constant { value, .. } => return out.fill(value),
            Kind::Stored { element, .. } => element,
            Kind::Map(_) => unreachable!("no column is asked of maps"),
        };
        if !is_fixed(element) {
            return out.copy_from_slice(&self.numbers);
        }
        let mut rest = out;
        for part in &self.parts {
            rest = decode(&ledger.file[part.clone()], element, rest);
        }
    }
}

impl Sink for Column<'_> {
    const KEEPS_ENTRIES: bool = false;

    fn pair(&mut self, ledger: &Ledger<'_>, _pair: &Pair) {
        if self.field.is_none() && ledger.fields.len() > self.fields {
            self.fields = ledger.fields.len();
            let owner = ledger.find_type(self.type_name);
            self.field = owner.and_then(|owner| ledger.find_field(owner, self.field_name));
        }
    }

    fn wants(&mut self, ledger: &Ledger<'_>, chunk: &Chunk) -> bool {
        let kind = ledger.fields[chunk.field].kind;
        if self.field != Some(chunk.field) || !answers(kind, self.kind) {
            return false;
        }
        match kind {
            Kind::Stored { element, .. } if !is_fixed(element) => true,
            _ => {
                self.parts.push(chunk.part.clone());
                false
            }
        }
    }

    fn v64s(&mut self, count: u64) -> impl FnMut(u64) {
        self.numbers(count)
    }

    #[inline(always)]
    fn numbers(&mut self, count: u64) -> impl FnMut(u64) {
        let filled = self.numbers.len();
        self.numbers.resize(filled + count as usize, 0);
        let mut slots = self.numbers[filled..].iter_mut();
        move |number| {
            if let Some(slot) = slots.next() {
                *slot = number as i64;
            }
        }
    }
}

/// Whether all elements of a kind have the same width.
fn is_fixed(element: Element) -> bool {
    match element {
        Element::V64 | Element::Text | Element::Object(_) | Element::Annotation => false,
        Element::Bool | Element::I8 | Element::I16 | Element::I32 => true,
        Element::I64 | Element::F32 | Element::F64 => true,
    }
}

/// Decodes a checked chunk of elements of a fixed width; answers what is left
/// of `out`.
fn decode<'o>(part: &[u8], element: Element, out: &'o mut [i64]) -> &'o mut [i64] {
    match element {
        Element::Bool => wide::<1>(part, out, |byte| i64::from(byte != 0)),
        Element::I8 => wide::<1>(part, out, |bits| signed(bits, 1)),
        Element::I16 => wide::<2>(part, out, |bits| signed(bits, 2)),
        Element::I32 => wide::<4>(part, out, |bits| signed(bits, 4)),
        Element::F32 => wide::<4>(part, out, |bits| bits as i64),
        Element::I64 | Element::F64 => wide::<8>(part, out, |bits| bits as i64),
        Element::V64 | Element::Text | Element::Object(_) | Element::Annotation => {
            unreachable!("these have no fixed width")
        }
    }
}

fn wide<'o, const WIDTH: usize>(
    part: &[u8],
    out: &'o mut [i64],
    meaning: impl Fn(u64) -> i64,
) -> &'o mut [i64] {
    let (front, behind) = out.split_at_mut(part.len() / WIDTH);
    for (slot, bytes) in front.iter_mut().zip(part.chunks_exact(WIDTH)) {
        let mut low = [0; 8];
        low[8 - WIDTH..].copy_from_slice(bytes);
        *slot = meaning(u64::from_be_bytes(low));
    }
    behind
}
