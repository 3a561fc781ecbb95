//! What becomes of a file's contents while it is read.
//!
//! The reader is compiled once for each sink, so what a sink does not care for
//! costs nothing. Whatever it has been given is worthless when the file is
//! refused in the end.

use crate::ledger::{Chunk, Ledger, Pair};

pub trait Sink {
    /// Whether the ledger has to have its pairs' entries. Those who read a
    /// file only to see that it is accepted need not keep them.
    const KEEPS_ENTRIES: bool = true;

    /// Whether it takes no values at all.
    const IS_IDLE: bool = false;

    /// Whether it has to be told where each value begins and ends. Otherwise
    /// elements that stand side by side can be taken all at once.
    const BY_VALUE: bool = false;

    /// The heads of a pair are read: its strings, entries and fields. Its
    /// values come next.
    fn pair(&mut self, _ledger: &Ledger<'_>, _pair: &Pair) {}

    /// Whether it wants the values of a chunk; if not, it is not told of them.
    fn wants(&mut self, _ledger: &Ledger<'_>, _chunk: &Chunk) -> bool {
        false
    }

    /// An array or a map begins.
    fn begin(&mut self) {}

    /// The array or map ends.
    fn end(&mut self) {}

    /// The number of keys that follow, each with what it leads to.
    fn size(&mut self, _keys: u64) {}

    /// Elements of kind 6, a byte each.
    fn bools(&mut self, _bytes: &[u8]) {}

    /// Elements of kinds 7 to 10, of a fixed width.
    fn whole<const WIDTH: usize>(&mut self, _bytes: &[u8]) {}

    /// Elements of kind 11, which come one by one as they are read.
    fn v64s(&mut self, _count: u64) -> impl FnMut(u64) {
        |_| ()
    }

    /// Elements of kinds 12 and 13, of a fixed width.
    fn floats<const WIDTH: usize>(&mut self, _bytes: &[u8]) {}

    /// Elements of kinds 14 and from 32 upwards, which come one by one as they
    /// are read: the numbers of strings or objects.
    fn numbers(&mut self, _count: u64) -> impl FnMut(u64) {
        |_| ()
    }

    /// An element of kind 5.
    fn annotation(&mut self, _name: u64, _object: u64) {}
}

/// A sink for those who only want to know whether the file is accepted.
pub struct Nothing;

impl Sink for Nothing {
    const KEEPS_ENTRIES: bool = false;
    const IS_IDLE: bool = true;
}

/// A sink for those who want the whole ledger, but no values.
pub struct Heads;

impl Sink for Heads {
    const IS_IDLE: bool = true;
}
