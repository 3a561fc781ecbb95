//! The base pools by their names, for annotations.
//!
//! An annotation names its pool by a string, and the next one may name
//! another. So that no name is looked for more than once in a block, what was
//! found for a string is kept until the block's values are read.

use std::cell::Cell;

use crate::ledger::Ledger;

/// By string number: how many objects the base type of that name has, 0
/// where there is no such type. Null and numbers past the strings have none.
#[derive(Default)]
pub struct Pools {
    objects: Vec<Cell<u64>>,
}

/// No pool has so many objects.
const NOT_LOOKED_FOR: u64 = u64::MAX;

impl Pools {
    /// Room for what is found of the strings as far as the ledger has been
    /// read.
    pub fn of(ledger: &Ledger<'_>) -> Pools {
        let last = ledger.names.len();
        Pools {
            objects: vec![Cell::new(NOT_LOOKED_FOR); last + 1],
        }
    }

    /// Whether the base type that a string names has an object of this number.
    #[inline]
    pub fn has(&self, ledger: &Ledger<'_>, name: u64, object: u64) -> bool {
        let index = usize::try_from(name).unwrap_or(usize::MAX);
        let Some(kept) = self.objects.get(index) else {
            return false;
        };
        if kept.get() == NOT_LOOKED_FOR {
            kept.set(named(ledger, index as u64));
        }
        let objects = kept.get();
        (1..=objects).contains(&object)
    }
}

/// How many objects the base type has that a string names.
#[cold]
fn named(ledger: &Ledger<'_>, number: u64) -> u64 {
    let name = ledger.names.known(number);
    let found = name.and_then(|name| ledger.type_of(name));
    let base = found.filter(|&index| ledger.types[index].super_type.is_none());
    base.map_or(0, |index| ledger.types[index].objects)
}
