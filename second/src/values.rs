//! Checking that values fill their chunk and keep their kind's rules.
//!
//! Elements of one kind are read in runs: the kind is looked at once a run,
//! and the form of the kind says which runs the chunk holds. A map is read
//! by itself, its types one after the other.

use crate::bounds;
use crate::kind::{Element, Form, Kind};
use crate::ledger::{Chunk, Ledger, Type};
use crate::pools::Pools;
use crate::refusal::*;
use crate::sink::{Nothing, Sink};
use crate::v64::{self, Cut};

/// A refusal at an offset within the chunk.
struct Fault {
    number: u8,
    at: usize,
}

impl Fault {
    fn new(number: u8, at: usize) -> Fault {
        Fault { number, at }
    }
}

type Step = Result<usize, Fault>;

/// Checks the values of one chunk and gives them to a sink that wants them.
pub fn check<S: Sink>(
    ledger: &Ledger<'_>,
    pools: &Pools,
    chunk: &Chunk,
    sink: &mut S,
) -> Result<(), Refusal> {
    match sink.wants(ledger, chunk) {
        true => read(ledger, pools, chunk, sink),
        false => read(ledger, pools, chunk, &mut Nothing),
    }
}

fn read<S: Sink>(
    ledger: &Ledger<'_>,
    pools: &Pools,
    chunk: &Chunk,
    sink: &mut S,
) -> Result<(), Refusal> {
    let part = ledger.part(chunk);
    let mut values = Values {
        ledger,
        pools,
        part,
        sink,
    };
    let outcome = match ledger.fields[chunk.field].kind {
        Kind::Constant { .. } => filled(part, 0),
        Kind::Stored { form, element } => values.stored(form, element, chunk.values),
        Kind::Map(types) => values.maps(types.elements(), chunk.values),
    };
    outcome.map_err(|fault| Refusal::at(fault.number, chunk.part.start + fault.at))
}

/// The bytes of a chunk, what its values are held against, and where they go.
struct Values<'a, S> {
    ledger: &'a Ledger<'a>,
    pools: &'a Pools,
    part: &'a [u8],
    sink: &'a mut S,
}

impl<S: Sink> Values<'_, S> {
    /// Reads all values of a chunk: elements, or arrays of them.
    fn stored(&mut self, form: Form, element: Element, values: u64) -> Result<(), Fault> {
        let at = match form {
            Form::Single => self.run(element, 0, values)?,
            Form::Fixed(length) if S::BY_VALUE => self.fixed_arrays(element, length, values)?,
            // Values of a fixed length stand side by side, one long run.
            Form::Fixed(length) => self.run(element, 0, values * length)?,
            Form::Sized(_) => {
                let mut at = 0;
                for _ in 0..values {
                    let (length, next) = size(self.part, at)?;
                    self.sink.begin();
                    at = self.run(element, next, length)?;
                    self.sink.end();
                }
                at
            }
        };
        filled(self.part, at)
    }

    /// Reads values of a fixed length one by one.
    fn fixed_arrays(&mut self, element: Element, length: u64, values: u64) -> Step {
        let mut at = 0;
        for _ in 0..values {
            self.sink.begin();
            at = self.run(element, at, length)?;
            self.sink.end();
        }
        Ok(at)
    }

    /// Reads all values of a chunk of maps.
    fn maps(&mut self, types: &[Element], values: u64) -> Result<(), Fault> {
        let mut at = 0;
        for _ in 0..values {
            self.sink.begin();
            at = self.map(types, at)?;
            self.sink.end();
        }
        filled(self.part, at)
    }

    /// Reads what stands for the types that are left: a map as long as there
    /// are two, and the last one by itself is an element.
    fn map(&mut self, types: &[Element], start: usize) -> Step {
        let (&first, rest) = types.split_first().expect("a type is left");
        if rest.is_empty() {
            return self.run(first, start, 1);
        }
        let (keys, mut at) = size(self.part, start)?;
        self.sink.size(keys);
        for _ in 0..keys {
            at = self.run(first, at, 1)?;
            at = self.map(rest, at)?;
        }
        Ok(at)
    }

    /// Reads a given number of elements.
    #[inline(always)]
    fn run(&mut self, element: Element, at: usize, count: u64) -> Step {
        let part = self.part;
        match element {
            Element::Annotation => self.annotations(at, count),
            Element::Bool => {
                let next = bools(part, at, count)?;
                self.sink.bools(&part[at..next]);
                Ok(next)
            }
            Element::I8 => self.whole::<1>(at, count),
            Element::I16 => self.whole::<2>(at, count),
            Element::I32 => self.whole::<4>(at, count),
            Element::I64 => self.whole::<8>(at, count),
            Element::F32 => self.floats::<4>(at, count),
            Element::F64 => self.floats::<8>(at, count),
            Element::V64 if S::IS_IDLE => passed(part, at, count),
            Element::V64 => {
                let give = self.sink.v64s(count);
                numbers(part, at, count, |_| true, give)
            }
            Element::Text => {
                let last = self.ledger.names.len() as u64;
                let give = self.sink.numbers(count);
                numbers(part, at, count, |number| number <= last, give)
            }
            Element::Object(index) => {
                let owner = &self.ledger.types[index as usize];
                let give = self.sink.numbers(count);
                references(part, at, count, owner, give)
            }
        }
    }

    /// A run of whole numbers of a fixed width.
    fn whole<const WIDTH: usize>(&mut self, at: usize, count: u64) -> Step {
        let next = fixed::<WIDTH>(self.part, at, count)?;
        self.sink.whole::<WIDTH>(&self.part[at..next]);
        Ok(next)
    }

    /// A run of floats.
    fn floats<const WIDTH: usize>(&mut self, at: usize, count: u64) -> Step {
        let next = fixed::<WIDTH>(self.part, at, count)?;
        self.sink.floats::<WIDTH>(&self.part[at..next]);
        Ok(next)
    }

    /// Annotations, each of which is null or leads to an object. Nothing is
    /// said of the first number before the second is read.
    fn annotations(&mut self, start: usize, count: u64) -> Step {
        let (part, pools) = (self.part, self.pools);
        let mut at = start;
        for _ in 0..count {
            let (name, second) = number(part, at)?;
            let (object, next) = number(part, second)?;
            let null = name == 0 && object == 0;
            if !null && !pools.has(self.ledger, name, object) {
                return Err(Fault::new(REFERENCE, at));
            }
            self.sink.annotation(name, object);
            at = next;
        }
        Ok(at)
    }
}

/// References to a type; one range is by far the most common case.
#[inline(always)]
fn references(part: &[u8], at: usize, count: u64, owner: &Type, give: impl FnMut(u64)) -> Step {
    match &owner.ranges[..] {
        [] => numbers(part, at, count, |object| object == 0, give),
        [only] => {
            let admits = |object| object == 0 || only.contains(&object);
            numbers(part, at, count, admits, give)
        }
        _ => {
            let members = owner.members();
            let admits = |object| object == 0 || members.has(object);
            numbers(part, at, count, admits, give)
        }
    }
}

/// The chunk must end where its last value did.
fn filled(part: &[u8], at: usize) -> Result<(), Fault> {
    if at == part.len() {
        Ok(())
    } else {
        Err(Fault::new(CHUNK, at))
    }
}

/// Reads an array's length or a map's size.
#[inline(always)]
fn size(part: &[u8], at: usize) -> Result<(u64, usize), Fault> {
    let (size, next) = number(part, at)?;
    if size > bounds::OBJECTS {
        return Err(Fault::new(LIMIT, at));
    }
    Ok((size, next))
}

/// Reads a v64 that has to lie within the chunk, its padding too.
#[inline(always)]
fn number(part: &[u8], at: usize) -> Result<(u64, usize), Fault> {
    v64::read(part, at).map_err(|Cut| Fault::new(CHUNK, at))
}

/// A run of v64 numbers of which nothing is asked but that they are there.
#[inline(always)]
fn passed(part: &[u8], start: usize, count: u64) -> Step {
    let (left, at) = v64::pass(part, start, count);
    numbers(part, at, left, |_| true, |_| ())
}

/// A run of v64 numbers that all have to be admitted.
#[inline(always)]
fn numbers(
    part: &[u8],
    start: usize,
    count: u64,
    admits: impl Fn(u64) -> bool,
    mut give: impl FnMut(u64),
) -> Step {
    let mut at = start;
    for _ in 0..count {
        let (value, next) = number(part, at)?;
        if !admits(value) {
            return Err(Fault::new(REFERENCE, at));
        }
        give(value);
        at = next;
    }
    Ok(at)
}

/// A run of elements of a fixed width, any bytes of which are a value.
fn fixed<const WIDTH: usize>(part: &[u8], at: usize, count: u64) -> Step {
    let whole = (part.len() - at) / WIDTH;
    if count > whole as u64 {
        return Err(Fault::new(CHUNK, at + whole * WIDTH));
    }
    Ok(at + count as usize * WIDTH)
}

fn bools(part: &[u8], at: usize, count: u64) -> Step {
    let rest = &part[at..];
    let there = rest.len().min(usize::try_from(count).unwrap_or(usize::MAX));
    match wrong_bool(&rest[..there]) {
        Some(index) => Err(Fault::new(VALUE, at + index)),
        None if (there as u64) < count => Err(Fault::new(CHUNK, at + there)),
        None => Ok(at + there),
    }
}

/// Where the first byte is that is no bool.
fn wrong_bool(bytes: &[u8]) -> Option<usize> {
    let is_wrong = |byte: u8| byte != 0x00 && byte != 0xFF;
    // To look at all of a block is quicker than to stop within it.
    let is_right = |block: &&[u8; 64]| !block.iter().fold(false, |any, &byte| any | is_wrong(byte));
    let (blocks, _) = bytes.as_chunks();
    let passed = 64 * blocks.iter().take_while(is_right).count();
    let wrong = bytes[passed..].iter().position(|&byte| is_wrong(byte))?;
    Some(passed + wrong)
}
