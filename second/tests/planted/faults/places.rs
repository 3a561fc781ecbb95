//! Places of refusals. The library does not tell them, so they are held
//! against each other for these faults alone.

use super::{fault, Fault};

pub const PLACES: &[Fault] = &[
    fault!("14 at an annotation: its first number's start, not the second's",
        "values.rs": "if !null && !pools.has(self.ledger, name, object) {\n                return Err(Fault::new(REFERENCE, «at»));" => "second"),
    fault!("14 at an annotation: its own start, not that of the array",
        "values.rs": "if !null && !pools.has(self.ledger, name, object) {\n                return Err(Fault::new(REFERENCE, «at»));" => "start"),
    fault!("12 at an annotation's second number: that number's start, not the first's",
        "values.rs": "let (object, next) = «number(part, second)?»;" => "number(part, second).map_err(|fault| Fault::new(fault.number, at))?"),
    fault!("3 at a size: that number's start, not the chunk's",
        "values.rs": "return Err(Fault::new(LIMIT, «at»));" => "0"),
    fault!("a fault in an inner map: where it is, not where the inner map begins",
        "values.rs": "at = self.run(first, at, 1)?;\n            at = «self.map(rest, at)?»;" => "self.map(rest, at).map_err(|fault| Fault::new(fault.number, at))?"),
    fault!("a fault in what a key leads to: where it is, not where the key begins",
        "values.rs": "«at = self.run(first, at, 1)?;\n            at = self.map(rest, at)?;»" => "let key = at; at = self.run(first, at, 1)?; at = self.map(rest, at).map_err(|fault| Fault::new(fault.number, key))?;"),
    fault!("a fault in a map: where it is, not where the map begins",
        "values.rs": "self.sink.begin();\n            at = «self.map(types, at)?»;" => "self.map(types, at).map_err(|fault| Fault::new(fault.number, at))?"),
    fault!("left-over bytes behind maps: the first of them, not the chunk's start",
        "values.rs": "at = self.map(types, at)?;\n            self.sink.end();\n        }\n        «filled(self.part, at)»" => "filled(self.part, at).map_err(|_| Fault::new(CHUNK, 0))"),
    fault!("a wrong number of types: that number's start, not the kind's",
        "reader.rs": "20 => «return self.map(block)»," => "return self.map(block).map_err(|refusal| match refusal.number { KIND if refusal.place == number.place as u64 + 1 => Refusal::at(KIND, number.place), _ => refusal })"),
    fault!("an element kind of a map that is none: its own start, not the number of types'",
        "reader.rs": "types.push(«block.element(element)?»);" => "block.element(element).map_err(|refusal| Refusal::at(refusal.number, number.place))?"),
    fault!("a map's kind without a type: its own start, not the number of types'",
        "reader.rs": "types.push(«block.element(element)?»);" => "block.element(if element.value >= 32 { Found { place: number.place, ..element } } else { element })?"),
    fault!("kinds without a type: the first in the file, not the last",
        "reader.rs": "for kind in «references» {" => "{ let mut back = references.to_vec(); back.reverse(); &*back.leak() }"),
];
