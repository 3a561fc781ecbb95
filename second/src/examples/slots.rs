//! Slots, what sits in them, and the ports that lead to them.

use super::Strings;
use crate::draft::{self, kind_bytes, EntryDraft, FieldDraft, PairDraft};
use crate::kind::{Element, Form, Kind, MapTypes};
use crate::v64;

/// What the planners enter in one week.
struct Week {
    slots: &'static [Slot],
    drives: &'static [Drive],
    /// How many of the drives, the last ones, are spares.
    spares: u64,
    blanks: u64,
    tiers: &'static [Tier],
    /// Whether a new controller writes the names of types anew.
    new_controller: bool,
}

struct Slot {
    label: &'static str,
    holds: Holds,
    /// By controller: the port of it that leads to the slot.
    ports: &'static [(&'static str, u64)],
}

/// What sits in a slot, by its number among all that were entered.
enum Holds {
    Nothing,
    Drive(u64),
    Blank(u64),
}

struct Drive {
    serial: &'static str,
    wear: u64,
}

struct Tier {
    name: &'static str,
    /// By controller, then by slot: the port to be used.
    ports: &'static [(&'static str, &'static [(u64, u64)])],
}

const WEEKS: [Week; 3] = [
    Week {
        slots: &[
            slot("1A", Holds::Drive(1), &[("north", 1), ("south", 1)]),
            slot("1B", Holds::Drive(2), &[("north", 2), ("south", 2)]),
            slot("1C", Holds::Blank(1), &[]),
            slot("1D", Holds::Nothing, &[("north", 4)]),
        ],
        drives: &[
            drive("KR-2041", 118),
            drive("KR-2042", 127),
            drive("KR-2043", 255),
        ],
        spares: 0,
        blanks: 1,
        tiers: &[],
        new_controller: false,
    },
    Week {
        slots: &[
            slot("1E", Holds::Drive(3), &[("north", 5), ("south", 5)]),
            slot("1F", Holds::Drive(4), &[("north", 6)]),
            slot("1G", Holds::Blank(2), &[]),
        ],
        drives: &[drive("KR-2057", 402)],
        spares: 0,
        blanks: 1,
        tiers: &[Tier {
            name: "hot",
            ports: &[
                ("north", &[(1, 1), (2, 2)]),
                ("south", &[(1, 1), (2, 2), (5, 5)]),
            ],
        }],
        new_controller: false,
    },
    Week {
        slots: &[
            slot("2A", Holds::Drive(6), &[("north", 127), ("south", 128)]),
            slot("2B", Holds::Drive(5), &[("south", 129)]),
            slot("2C", Holds::Nothing, &[]),
        ],
        drives: &[drive("KR-2060", 93), drive("LM-0007", 0)],
        spares: 1,
        blanks: 0,
        tiers: &[
            Tier {
                name: "warm",
                ports: &[
                    ("north", &[(6, 6), (8, 127)]),
                    ("south", &[(8, 128), (9, 129)]),
                ],
            },
            Tier {
                name: "cold",
                ports: &[("north", &[]), ("south", &[])],
            },
            Tier {
                name: "archive",
                ports: &[],
            },
        ],
        new_controller: true,
    },
];

const fn slot(label: &'static str, holds: Holds, ports: &'static [(&'static str, u64)]) -> Slot {
    Slot {
        label,
        holds,
        ports,
    }
}

const fn drive(serial: &'static str, wear: u64) -> Drive {
    Drive { serial, wear }
}

/// Ten slots, entered over three weeks.
pub fn slots() -> Vec<u8> {
    let mut file = File::default();
    let pairs: Vec<PairDraft> = WEEKS.iter().map(|week| file.pair(week)).collect();
    draft::write(&pairs)
}

/// What has been written so far.
#[derive(Default)]
struct File {
    strings: Strings,
    /// The types that are declared, in order.
    types: Vec<&'static str>,
}

impl File {
    fn pair(&mut self, week: &Week) -> PairDraft {
        if week.new_controller {
            for name in self.types.clone() {
                self.strings.anew(name);
            }
        }
        let mut entries = vec![self.slots(week.slots)];
        entries.push(self.drives(week.drives));
        entries.extend((week.spares > 0).then(|| self.spares(week)));
        entries.extend((week.blanks > 0).then(|| self.blanks(week.blanks)));
        entries.extend((!week.tiers.is_empty()).then(|| self.tiers(week.tiers)));
        PairDraft {
            strings: self.strings.take(),
            entries,
        }
    }

    /// An entry of a base type without its fields, and whether it is new.
    fn entry(&mut self, name: &'static str, count: u64) -> (EntryDraft, bool) {
        let is_new = !self.types.contains(&name);
        if is_new {
            self.types.push(name);
        }
        let entry = EntryDraft {
            name: self.strings.number(name),
            super_name: is_new.then_some(0),
            start: None,
            count,
            fields: Vec::new(),
        };
        (entry, is_new)
    }

    /// A field; every type here declares all of its fields at once.
    fn field(&mut self, is_new: bool, name: &'static str, kind: Kind) -> FieldDraft {
        FieldDraft {
            new: is_new.then(|| (kind_bytes(kind), self.strings.number(name))),
            chunk: Vec::new(),
        }
    }

    fn slots(&mut self, slots: &[Slot]) -> EntryDraft {
        let (mut entry, is_new) = self.entry("slot", slots.len() as u64);
        let mut label = self.field(is_new, "label", single(Element::Text));
        let mut holds = self.field(is_new, "holds", single(Element::Annotation));
        let mut ports = self.field(is_new, "ports", map(&[Element::Text, Element::V64]));
        for slot in slots {
            v64::write(&mut label.chunk, self.strings.number(slot.label));
            self.annotation(&slot.holds, &mut holds.chunk);
            v64::write(&mut ports.chunk, slot.ports.len() as u64);
            for &(controller, port) in slot.ports {
                v64::write(&mut ports.chunk, self.strings.number(controller));
                v64::write(&mut ports.chunk, port);
            }
        }
        entry.fields = vec![label, holds, ports];
        entry
    }

    /// A spare is a drive, and only base types can be named.
    fn annotation(&mut self, holds: &Holds, out: &mut Vec<u8>) {
        let (name, object) = match *holds {
            Holds::Nothing => (0, 0),
            Holds::Drive(number) => (self.strings.number("drive"), number),
            Holds::Blank(number) => (self.strings.number("blank"), number),
        };
        v64::write(out, name);
        v64::write(out, object);
    }

    fn drives(&mut self, drives: &[Drive]) -> EntryDraft {
        let (mut entry, is_new) = self.entry("drive", drives.len() as u64);
        let mut serial = self.field(is_new, "serial", single(Element::Text));
        let mut wear = self.field(is_new, "wear", single(Element::V64));
        for drive in drives {
            v64::write(&mut serial.chunk, self.strings.number(drive.serial));
            v64::write(&mut wear.chunk, drive.wear);
        }
        entry.fields = vec![serial, wear];
        entry
    }

    /// The spares are the last drives of the week.
    fn spares(&mut self, week: &Week) -> EntryDraft {
        let (mut entry, is_new) = self.entry("spare", week.spares);
        entry.super_name = is_new.then(|| self.strings.number("drive"));
        entry.start = Some(week.drives.len() as u64 - week.spares);
        entry
    }

    fn blanks(&mut self, count: u64) -> EntryDraft {
        self.entry("blank", count).0
    }

    fn tiers(&mut self, tiers: &[Tier]) -> EntryDraft {
        let (mut entry, is_new) = self.entry("tier", tiers.len() as u64);
        let slot = Element::Object(0);
        let mut name = self.field(is_new, "name", single(Element::Text));
        let mut ports = self.field(is_new, "ports", map(&[Element::Text, slot, Element::V64]));
        for tier in tiers {
            v64::write(&mut name.chunk, self.strings.number(tier.name));
            v64::write(&mut ports.chunk, tier.ports.len() as u64);
            for &(controller, slots) in tier.ports {
                v64::write(&mut ports.chunk, self.strings.number(controller));
                v64::write(&mut ports.chunk, slots.len() as u64);
                for &(slot, port) in slots {
                    v64::write(&mut ports.chunk, slot);
                    v64::write(&mut ports.chunk, port);
                }
            }
        }
        entry.fields = vec![name, ports];
        entry
    }
}

fn single(element: Element) -> Kind {
    Kind::Stored {
        form: Form::Single,
        element,
    }
}

fn map(types: &[Element]) -> Kind {
    Kind::Map(MapTypes::new(types).expect("two to eight types"))
}
