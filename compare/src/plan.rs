//! What is asked of a file: right and wrong names, kinds and rooms.

use second::bounds::{FIELDS, OBJECTS, TABLE};
use second::generate::random::Random;
use second::kind::REFERENCE;
use second::ledger::Ledger;

use crate::question::Call;
use crate::reader::{Reader, Second};

/// The calls to ask of an accepted file, in an order by chance, so that the front of a list is a fair choice.
pub struct Calls {
    /// Names and kinds of the file, with rooms of all sizes.
    pub right: Vec<Call>,
    /// Names and kinds that are not, or mostly not.
    pub wrong: Vec<Call>,
}

/// The calls to ask of this file.
pub fn calls(file: &[u8], ledger: &Ledger<'_>, random: &mut Random) -> Calls {
    let mut plan = Plan {
        file,
        ledger,
        random,
        right: Vec::new(),
        wrong: Vec::new(),
    };
    plan.nothing_there();
    for index in 0..ledger.types.len() {
        plan.of_type(index);
    }
    let (mut right, mut wrong) = (plan.right, plan.wrong);
    random.shuffle(&mut right);
    random.shuffle(&mut wrong);
    Calls { right, wrong }
}

/// The listing of an accepted file, with rooms of all sizes, the exact one first.
pub fn listings(file: &[u8], random: &mut Random) -> Vec<Call> {
    let rooms = rooms(listing_length(file), random).into_iter();
    rooms.map(|room| Call::Listing { room }).collect()
}

/// Rooms for a file with so many bytes, apart from the exact one.
pub fn build_rooms(length: usize, random: &mut Random) -> Vec<usize> {
    let mut rooms = rooms(length, random);
    rooms.retain(|&room| room != length);
    rooms
}

/// How many bytes of a listing stand for one of the file at most, as `c/tidehinge.h` says: an i8 may be `val`, a tab,
/// `-128` and a newline.
const LONGEST: usize = 9;

/// The length of an accepted file's listing.
pub fn listing_length(file: &[u8]) -> usize {
    // Values of fixed arrays of length 0 have no byte in the file.
    let empty = b"val\n".len() * FIELDS * OBJECTS as usize;
    let lengths = [0, empty].into_iter().map(|more| {
        let mut text = vec![0; LONGEST * file.len() + more];
        Second.listing(file, &mut vec![0; TABLE], &mut text)
    });
    let mut enough = lengths.filter_map(|length| usize::try_from(length).ok());
    enough.next().expect("a listing is longer than we say")
}

/// The listing of a file that is refused, first with some room.
pub fn any_listings(random: &mut Random) -> Vec<Call> {
    let rooms = [random.index(900), 0, random.index(9_000)];
    rooms.map(|room| Call::Listing { room }).to_vec()
}

/// Three calls on a file that is refused, whatever is asked.
pub fn any_calls(random: &mut Random) -> Vec<Call> {
    let values = Values {
        type_name: any_name(random),
        field_name: any_name(random),
        kind: random.below(REFERENCE + 2),
        room: random.index(9),
    };
    let type_name = any_name(random).to_vec();
    vec![Call::Objects { type_name }, values.count(), values.fill()]
}

/// A name that the generator likes to give.
fn any_name(random: &mut Random) -> &'static [u8] {
    let names = [&b""[..], b"a", b"b", b"date"];
    names[random.index(names.len())]
}

/// What is asked about a field's values: how many there are, and the values themselves, with so much room.
#[derive(Clone, Copy)]
struct Values<'a> {
    type_name: &'a [u8],
    field_name: &'a [u8],
    kind: u64,
    room: usize,
}

impl Values<'_> {
    fn count(self) -> Call {
        Call::CountValues {
            type_name: self.type_name.to_vec(),
            field_name: self.field_name.to_vec(),
            kind: self.kind,
        }
    }

    fn fill(self) -> Call {
        Call::FillValues {
            type_name: self.type_name.to_vec(),
            field_name: self.field_name.to_vec(),
            kind: self.kind,
            room: self.room,
        }
    }
}

struct Plan<'a, 'f> {
    file: &'f [u8],
    ledger: &'a Ledger<'f>,
    random: &'a mut Random,
    right: Vec<Call>,
    wrong: Vec<Call>,
}

impl Plan<'_, '_> {
    /// Names that need not be in the file at all.
    fn nothing_there(&mut self) {
        for name in [&b""[..], b"no such name"] {
            self.ask_wrong(Values {
                type_name: name,
                field_name: name,
                kind: 11,
                room: 3,
            });
            self.wrong.push(Call::Objects {
                type_name: name.to_vec(),
            });
        }
    }

    fn of_type(&mut self, index: usize) {
        let own = &self.ledger.types[index];
        let type_name = self.ledger.names.bytes(own.name);
        self.right.push(Call::Objects {
            type_name: type_name.to_vec(),
        });
        for type_name in self.near(type_name) {
            self.wrong.push(Call::Objects { type_name });
        }
        for &field in &own.fields {
            let field = self.ledger.fields[field];
            let right = Values {
                type_name,
                field_name: self.ledger.names.bytes(field.name),
                // No values can be asked of an array kind, and then this is as wrong as any.
                kind: field.kind.number().min(REFERENCE),
                room: own.objects as usize,
            };
            self.with_rooms(right);
            self.with_kinds(right, field.kind.number());
            self.with_names(right);
            self.with_other_types(right);
        }
    }

    /// Both calls for values that are not there, or mostly not.
    fn ask_wrong(&mut self, values: Values<'_>) {
        self.wrong.extend([values.count(), values.fill()]);
    }

    /// The number is asked once; it does not depend on a room.
    fn with_rooms(&mut self, right: Values<'_>) {
        self.right.push(right.count());
        for room in rooms(right.room, self.random) {
            self.right.push(Values { room, ..right }.fill());
        }
    }

    /// Half of them without room: 18 comes before 19.
    fn with_kinds(&mut self, right: Values<'_>, own: u64) {
        for kind in other_kinds(own) {
            let room = *self.random.pick(&[right.room, 0]);
            self.ask_wrong(Values {
                kind,
                room,
                ..right
            });
        }
    }

    /// Half of them with a kind that is none: 16 and 17 come before 18.
    fn with_names(&mut self, right: Values<'_>) {
        for name in self.near(right.field_name) {
            let kind = *self.random.pick(&[right.kind, 5]);
            self.ask_wrong(Values {
                field_name: &name,
                kind,
                ..right
            });
        }
        for name in self.near(right.type_name) {
            let kind = *self.random.pick(&[right.kind, 5]);
            self.ask_wrong(Values {
                type_name: &name,
                kind,
                ..right
            });
        }
    }

    /// A type has not the fields of others, its super types included.
    fn with_other_types(&mut self, right: Values<'_>) {
        for other in self.ledger.types.iter().take(4) {
            self.ask_wrong(Values {
                type_name: self.ledger.names.bytes(other.name),
                room: right.room.max(other.objects as usize),
                ..right
            });
        }
    }

    /// Names that are nearly this one, and others of the file.
    fn near(&mut self, name: &[u8]) -> Vec<Vec<u8>> {
        let mut names = vec![[name, b"\0"].concat(), Vec::new()];
        if let Some((&last, front)) = name.split_last() {
            names.push(front.to_vec());
            names.push([front, &[last ^ 0x80]].concat());
            names.push([&[name[0] ^ 1], &name[1..]].concat());
        }
        let strings = self.ledger.names.len() as u64;
        let any = 1 + self.random.below(strings) as u32;
        names.push(self.ledger.names.bytes(any).to_vec());
        names.push(self.file[..self.random.index(self.file.len().min(300))].to_vec());
        names
    }
}

/// Rooms for so many numbers or bytes: exact, more, too little, none.
fn rooms(exact: usize, random: &mut Random) -> Vec<usize> {
    let mut rooms = vec![exact, exact + 1, exact + random.index(90)];
    if exact > 0 {
        rooms.extend([exact - 1, random.index(exact), 0]);
    }
    rooms
}

/// Kinds to ask for where the field has another: all small numbers, and some that are the right one if only their low bits
/// are kept.
fn other_kinds(kind: u64) -> Vec<u64> {
    let mut kinds: Vec<u64> = (0..=REFERENCE + 2).collect();
    kinds.extend([kind, kind + (1 << 8), kind + (1 << 32), u64::MAX]);
    kinds
}
