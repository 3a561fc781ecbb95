//! Drives and their wear, week by week.

use super::Strings;
use crate::draft::{spelt_kind, wide, write_spelt, EntryDraft, FieldDraft, PairDraft, Spell};
use crate::kind::{Element, Form, Kind};

/// A drive as it is entered.
pub struct Drive {
    serial: &'static str,
    shelf: u8,
    wear: u64,
    hours: u32,
    spare: bool,
}

pub const fn in_use(serial: &'static str, shelf: u8, wear: u64, hours: u32) -> Drive {
    Drive {
        serial,
        shelf,
        wear,
        hours,
        spare: false,
    }
}

pub const fn spare(serial: &'static str, shelf: u8, wear: u64, hours: u32) -> Drive {
    Drive {
        spare: true,
        ..in_use(serial, shelf, wear, hours)
    }
}

/// What a controller enters.
pub struct Entered {
    /// The drives of each week. Spares come last in their week, so that they
    /// are one range.
    pub weeks: &'static [&'static [Drive]],
    /// The week, counted from 1, from which on the hours are kept.
    pub hours_from: usize,
}

/// The fields of a drive in the order in which they are declared.
const FIELDS: [Field; 4] = [Field::Serial, Field::Shelf, Field::Wear, Field::Hours];

#[derive(Clone, Copy)]
enum Field {
    Serial,
    Shelf,
    Wear,
    Hours,
}

impl Field {
    fn name(self) -> &'static str {
        match self {
            Field::Serial => "serial",
            Field::Shelf => "shelf",
            Field::Wear => "wear",
            Field::Hours => "hours",
        }
    }

    fn kind(self) -> Kind {
        let element = match self {
            Field::Serial => Element::Text,
            Field::Shelf => Element::I8,
            Field::Wear => Element::V64,
            Field::Hours => Element::I32,
        };
        Kind::Stored {
            form: Form::Single,
            element,
        }
    }
}

impl Entered {
    /// The file, with a way to write its numbers.
    pub fn file(&self, spell: Spell) -> Vec<u8> {
        let mut controller = Controller {
            entered: self,
            spell,
            strings: Strings::default(),
            spares_known: false,
        };
        let weeks = 1..=self.weeks.len();
        let pairs: Vec<PairDraft> = weeks.map(|week| controller.pair(week)).collect();
        write_spelt(&pairs, spell)
    }
}

struct Controller<'a> {
    entered: &'a Entered,
    spell: Spell,
    strings: Strings,
    spares_known: bool,
}

impl Controller<'_> {
    fn pair(&mut self, week: usize) -> PairDraft {
        let drives = self.entered.weeks[week - 1];
        let mut entries = Vec::new();
        if !drives.is_empty() {
            entries.push(self.drives(week));
        }
        if drives.iter().any(|drive| drive.spare) {
            entries.push(self.spares(drives));
        }
        PairDraft {
            strings: self.strings.take(),
            entries,
        }
    }

    fn drives(&mut self, week: usize) -> EntryDraft {
        EntryDraft {
            name: self.strings.number("drive"),
            super_name: (week == 1).then_some(0),
            start: None,
            count: self.entered.weeks[week - 1].len() as u64,
            fields: self.fields(week),
        }
    }

    fn fields(&mut self, week: usize) -> Vec<FieldDraft> {
        let declared = FIELDS.iter().filter(|field| self.since(**field) <= week);
        let declared: Vec<Field> = declared.copied().collect();
        let fields = declared.into_iter();
        fields.map(|field| self.field(field, week)).collect()
    }

    /// The week in which a field is declared.
    fn since(&self, field: Field) -> usize {
        match field {
            Field::Hours => self.entered.hours_from,
            _ => 1,
        }
    }

    /// A new field has a value for every drive so far, a known one for those of
    /// the week.
    fn field(&mut self, field: Field, week: usize) -> FieldDraft {
        let is_new = self.since(field) == week;
        let first = if is_new { 1 } else { week };
        let mut chunk = Vec::new();
        for drive in self.entered.weeks[first - 1..week]
            .iter()
            .copied()
            .flatten()
        {
            self.put(field, drive, &mut chunk);
        }
        let kind = spelt_kind(field.kind(), self.spell);
        FieldDraft {
            new: is_new.then(|| (kind, self.strings.number(field.name()))),
            chunk,
        }
    }

    fn put(&mut self, field: Field, drive: &Drive, out: &mut Vec<u8>) {
        match field {
            Field::Serial => (self.spell)(out, self.strings.number(drive.serial)),
            Field::Shelf => wide(out, u64::from(drive.shelf), 1),
            Field::Wear => (self.spell)(out, drive.wear),
            Field::Hours => wide(out, u64::from(drive.hours), 4),
        }
    }

    /// The spares are the last drives of the week.
    fn spares(&mut self, drives: &[Drive]) -> EntryDraft {
        let count = drives.iter().filter(|drive| drive.spare).count();
        let is_new = !self.spares_known;
        self.spares_known = true;
        EntryDraft {
            name: self.strings.number("spare"),
            super_name: is_new.then(|| self.strings.number("drive")),
            start: Some((drives.len() - count) as u64),
            count: count as u64,
            fields: Vec::new(),
        }
    }
}
