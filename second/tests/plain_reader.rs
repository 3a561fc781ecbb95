//! A slow reader in another style, held against the fast one.
//!
//! It keeps one list of all entries read so far and works everything out from
//! it whenever it is asked: which types there are, their fields, their
//! objects. Values are read one by one and byte by byte. No ranges are merged,
//! no names numbered, no runs skipped. It notes every v64 that it reads, so
//! that a file can be written again with each of them in other bytes.

mod common;

use common::{build, listing};
use second::generate::{self, FILES, SEED};
use second::Refusal;

/// A refusal as number and place.
type Wrong = (u8, usize);

#[derive(Clone)]
struct Field {
    name: Vec<u8>,
    /// Kind, then length, number of types and element kinds where there are
    /// any; a constant's value is left out.
    kind: Vec<u64>,
}

#[derive(Clone)]
struct Entry {
    block: usize,
    name: Vec<u8>,
    new: bool,
    above: Option<Vec<u8>>,
    start: u64,
    count: u64,
    new_fields: Vec<Field>,
}

#[derive(Default)]
struct Plain {
    strings: Vec<Vec<u8>>,
    entries: Vec<Entry>,
}

/// Where reading stands, and every v64 before that.
#[derive(Default)]
struct At {
    now: usize,
    numbers: Vec<Number>,
    /// Which of them are the end offsets of the block that is read.
    ends: Vec<usize>,
}

/// A v64 of the file.
struct Number {
    place: usize,
    past: usize,
    value: u64,
    /// Where the region of an end offset begins, once that is known.
    region: Option<usize>,
}

/// A v64 in `file[..end]`; a missing byte has a number of the caller's.
fn v64(file: &[u8], at: &mut At, end: usize, short: u8) -> Result<(u64, usize), Wrong> {
    let place = at.now;
    let mut value = 0u64;
    for index in 0..9 {
        if at.now >= end {
            return Err((short, place));
        }
        let byte = file[at.now];
        at.now += 1;
        let (bits, last) = match index {
            8 => (byte, true),
            _ => (byte & 0x7F, byte & 0x80 == 0),
        };
        value |= u64::from(bits) << (7 * index);
        if last {
            break;
        }
    }
    at.numbers.push(Number {
        place,
        past: at.now,
        value,
        region: None,
    });
    Ok((value, place))
}

fn skip(at: &mut At, end: usize, width: usize, short: u8) -> Result<(), Wrong> {
    if end - at.now < width {
        return Err((short, at.now));
    }
    at.now += width;
    Ok(())
}

impl Plain {
    fn string(&self, number: u64) -> Option<&Vec<u8>> {
        self.strings
            .get(usize::try_from(number).ok()?.checked_sub(1)?)
    }

    fn types(&self) -> Vec<&Vec<u8>> {
        let new = self.entries.iter().filter(|entry| entry.new);
        new.map(|entry| &entry.name).collect()
    }

    fn of<'a>(&'a self, name: &'a [u8]) -> impl Iterator<Item = &'a Entry> {
        self.entries.iter().filter(move |entry| entry.name == name)
    }

    fn above(&self, name: &[u8]) -> Option<Vec<u8>> {
        self.of(name).find(|entry| entry.new)?.above.clone()
    }

    fn base(&self, name: &[u8]) -> Vec<u8> {
        match self.above(name) {
            Some(above) => self.base(&above),
            None => name.to_vec(),
        }
    }

    fn fields(&self, name: &[u8]) -> Vec<Field> {
        self.of(name)
            .flat_map(|entry| entry.new_fields.clone())
            .collect()
    }

    fn objects(&self, name: &[u8]) -> u64 {
        self.of(name).map(|entry| entry.count).sum()
    }

    /// Whether the base pool's object of this number is of the type.
    fn has_object(&self, name: &[u8], number: u64) -> bool {
        let base = self.base(name);
        self.of(name).any(|entry| {
            let earlier = self.of(&base).filter(|above| above.block < entry.block);
            let before: u64 = earlier.map(|above| above.count).sum();
            let first = before + entry.start + 1;
            (first..first + entry.count).contains(&number)
        })
    }

    /// Whether an annotation is null, or names a base type by the bytes of a
    /// string and one of its objects.
    fn leads_somewhere(&self, number: u64, object: u64) -> bool {
        match self.string(number) {
            Some(name) => {
                let declared = self.types().contains(&name);
                declared && self.above(name).is_none() && self.has_object(name, object)
            }
            None => number == 0 && object == 0,
        }
    }

    fn range_rule(&self, block: usize, above: &[u8], start: u64, count: u64) -> bool {
        if count == 0 {
            return start == 0;
        }
        let here = |name: &[u8]| self.of(name).find(|entry| entry.block == block).cloned();
        let Some(upper) = here(above) else {
            return false;
        };
        let inside = start >= upper.start && start + count <= upper.start + upper.count;
        let siblings = self.entries.iter().filter(|entry| {
            entry.block == block && self.above(&entry.name).as_deref() == Some(above)
        });
        let mut siblings = siblings;
        inside && siblings.all(|other| other.count == 0 || start >= other.start + other.count)
    }
}

fn read(file: &[u8]) -> Result<(), Wrong> {
    read_on(file, &mut At::default())
}

/// Reads a file from its start; what was read stands in `at` afterwards.
fn read_on(file: &[u8], at: &mut At) -> Result<(), Wrong> {
    if file.len() > 1_048_576 {
        return Err((3, 0));
    }
    let mut plain = Plain::default();
    let mut block = 0;
    while at.now < file.len() {
        if block == 32 {
            return Err((3, at.now));
        }
        strings(&mut plain, file, at)?;
        types(&mut plain, file, at, block)?;
        block += 1;
    }
    Ok(())
}

fn strings(plain: &mut Plain, file: &[u8], at: &mut At) -> Result<(), Wrong> {
    let (count, place) = v64(file, at, file.len(), 1)?;
    if plain.strings.len() as u128 + u128::from(count) > 1_024 {
        return Err((3, place));
    }
    let mut ends = vec![0];
    for _ in 0..count {
        let place = at.now;
        skip(at, file.len(), 4, 1)?;
        let end = u32::from_be_bytes(file[place..place + 4].try_into().unwrap()) as usize;
        if end < *ends.last().unwrap() {
            return Err((4, place));
        }
        ends.push(end);
    }
    let bytes = at.now;
    skip(at, file.len(), *ends.last().unwrap(), 1)?;
    for pair in ends.windows(2) {
        plain
            .strings
            .push(file[bytes + pair[0]..bytes + pair[1]].to_vec());
    }
    Ok(())
}

/// A chunk to be read: kind, number of values, end offset.
type Chunk = (Vec<u64>, u64, u64);

fn types(plain: &mut Plain, file: &[u8], at: &mut At, block: usize) -> Result<(), Wrong> {
    let mut chunks: Vec<Chunk> = Vec::new();
    let mut kinds: Vec<(u64, usize)> = Vec::new();
    let (entries, place) = v64(file, at, file.len(), 1)?;
    if entries > 65_535 {
        return Err((3, place));
    }
    for _ in 0..entries {
        entry(plain, file, at, block, &mut chunks, &mut kinds)?;
    }
    let region = at.now;
    let length = chunks.last().map_or(0, |chunk| chunk.2);
    if length > (file.len() - region) as u64 {
        return Err((1, region));
    }
    for end in at.ends.drain(..) {
        at.numbers[end].region = Some(region);
    }
    for (kind, place) in kinds {
        if kind - 32 >= plain.types().len() as u64 {
            return Err((10, place));
        }
    }
    for (kind, values, end) in chunks {
        let end = region + end as usize;
        for _ in 0..values {
            value(plain, file, at, end, &kind)?;
        }
        if at.now < end {
            return Err((12, at.now));
        }
    }
    Ok(())
}

fn entry(
    plain: &mut Plain,
    file: &[u8],
    at: &mut At,
    block: usize,
    chunks: &mut Vec<Chunk>,
    kinds: &mut Vec<(u64, usize)>,
) -> Result<(), Wrong> {
    let (number, place) = v64(file, at, file.len(), 1)?;
    let name = plain.string(number).ok_or((5, place))?.clone();
    let new = plain.of(&name).next().is_none();
    if new && plain.types().len() == 32 {
        return Err((3, place));
    }
    if plain.of(&name).any(|entry| entry.block == block) {
        return Err((6, place));
    }
    let mut above = plain.above(&name);
    if new {
        let (number, place) = v64(file, at, file.len(), 1)?;
        if number != 0 {
            let wanted = plain.string(number).ok_or((5, place))?.clone();
            plain.of(&wanted).next().ok_or((7, place))?;
            above = Some(wanted);
        }
    }
    let mut start = 0;
    if above.is_some() {
        let (number, place) = v64(file, at, file.len(), 1)?;
        if number > 65_535 {
            return Err((3, place));
        }
        start = number;
    }
    let (count, place) = v64(file, at, file.len(), 1)?;
    let bases = plain
        .entries
        .iter()
        .filter(|entry| plain.above(&entry.name).is_none());
    let all: u64 = bases.map(|entry| entry.count).sum();
    if count > 65_535 || above.is_none() && all + count > 65_535 {
        return Err((3, place));
    }
    if above
        .as_ref()
        .is_some_and(|above| !plain.range_rule(block, above, start, count))
    {
        return Err((21, place));
    }
    if new {
        restrictions(file, at)?;
    }
    let known = plain.fields(&name);
    plain.entries.push(Entry {
        block,
        name: name.clone(),
        new,
        above,
        start,
        count,
        new_fields: Vec::new(),
    });
    let (fields, place) = v64(file, at, file.len(), 1)?;
    let given = if count > 0 { known.len() as u64 } else { 0 };
    let declared: usize = plain
        .entries
        .iter()
        .map(|entry| entry.new_fields.len())
        .sum();
    if fields < given {
        return Err((11, place));
    }
    if u128::from(fields - given) + declared as u128 > 128 {
        return Err((3, place));
    }
    for index in 0..fields {
        let (kind, values) = if index < given {
            (known[index as usize].kind.clone(), count)
        } else {
            let field = new_field(plain, file, at, &name, kinds)?;
            plain
                .entries
                .last_mut()
                .unwrap()
                .new_fields
                .push(field.clone());
            (field.kind, plain.objects(&name))
        };
        let (end, place) = v64(file, at, file.len(), 1)?;
        at.ends.push(at.numbers.len() - 1);
        if chunks.last().is_some_and(|chunk| end < chunk.2) {
            return Err((4, place));
        }
        chunks.push((kind, values, end));
    }
    Ok(())
}

fn restrictions(file: &[u8], at: &mut At) -> Result<(), Wrong> {
    match v64(file, at, file.len(), 1)? {
        (0, _) => Ok(()),
        (_, place) => Err((9, place)),
    }
}

fn new_field(
    plain: &Plain,
    file: &[u8],
    at: &mut At,
    owner: &[u8],
    kinds: &mut Vec<(u64, usize)>,
) -> Result<Field, Wrong> {
    restrictions(file, at)?;
    let (kind, place) = v64(file, at, file.len(), 1)?;
    let mut numbers = vec![kind];
    let mut elements = 0;
    match kind {
        0..=3 => skip(at, file.len(), 1 << kind, 1)?,
        4 => drop(v64(file, at, file.len(), 1)?),
        16 | 21..=31 => return Err((10, place)),
        15 => {
            let (length, place) = v64(file, at, file.len(), 1)?;
            if length > 65_535 {
                return Err((3, place));
            }
            numbers.push(length);
            elements = 1;
        }
        17..=19 => elements = 1,
        20 => {
            let (types, place) = v64(file, at, file.len(), 1)?;
            if !(2..=8).contains(&types) {
                return Err((10, place));
            }
            numbers.push(types);
            elements = types;
        }
        32.. => kinds.push((kind, place)),
        _ => {}
    }
    for _ in 0..elements {
        let (element, place) = v64(file, at, file.len(), 1)?;
        match element {
            0..=4 | 15..=31 => return Err((10, place)),
            32.. => kinds.push((element, place)),
            _ => {}
        }
        numbers.push(element);
    }
    let (number, place) = v64(file, at, file.len(), 1)?;
    let name = plain.string(number).ok_or((5, place))?.clone();
    if plain.fields(owner).iter().any(|field| field.name == name) {
        return Err((6, place));
    }
    Ok(Field {
        name,
        kind: numbers,
    })
}

fn value(plain: &Plain, file: &[u8], at: &mut At, end: usize, kind: &[u64]) -> Result<(), Wrong> {
    match *kind {
        [0..=4] => Ok(()),
        [15, length, element] => {
            for _ in 0..length {
                one(plain, file, at, end, element)?;
            }
            Ok(())
        }
        [17..=19, element] => {
            let (length, place) = v64(file, at, end, 12)?;
            if length > 65_535 {
                return Err((3, place));
            }
            for _ in 0..length {
                one(plain, file, at, end, element)?;
            }
            Ok(())
        }
        [20, _, ref types @ ..] => map(plain, file, at, end, types),
        [single] => one(plain, file, at, end, single),
        _ => unreachable!("kinds have these forms"),
    }
}

/// A map, by a list of how many keys are still due in it and in the maps
/// within it that are begun.
fn map(plain: &Plain, file: &[u8], at: &mut At, end: usize, types: &[u64]) -> Result<(), Wrong> {
    let mut due = Vec::new();
    loop {
        // A size stands at the beginning, and behind a key with two types left.
        let (size, place) = v64(file, at, end, 12)?;
        if size > 65_535 {
            return Err((3, place));
        }
        due.push(size);
        loop {
            let level = due.len();
            match due.last_mut() {
                None => return Ok(()),
                Some(0) => {
                    due.pop();
                    continue;
                }
                Some(keys) => *keys -= 1,
            }
            one(plain, file, at, end, types[level - 1])?;
            if level + 1 < types.len() {
                break;
            }
            one(plain, file, at, end, types[level])?;
        }
    }
}

fn one(plain: &Plain, file: &[u8], at: &mut At, end: usize, kind: u64) -> Result<(), Wrong> {
    match kind {
        5 => {
            let (name, place) = v64(file, at, end, 12)?;
            let (object, _) = v64(file, at, end, 12)?;
            match plain.leads_somewhere(name, object) {
                true => Ok(()),
                false => Err((14, place)),
            }
        }
        6 => {
            let place = at.now;
            skip(at, end, 1, 12)?;
            match file[place] {
                0x00 | 0xFF => Ok(()),
                _ => Err((13, place)),
            }
        }
        7 => skip(at, end, 1, 12),
        8 => skip(at, end, 2, 12),
        9 | 12 => skip(at, end, 4, 12),
        10 | 13 => skip(at, end, 8, 12),
        11 => v64(file, at, end, 12).map(drop),
        14 => match v64(file, at, end, 12)? {
            (number, place) if number > plain.strings.len() as u64 => Err((14, place)),
            _ => Ok(()),
        },
        _ => {
            let (number, place) = v64(file, at, end, 12)?;
            let owner = plain.types()[kind as usize - 32];
            if number != 0 && !plain.has_object(owner, number) {
                return Err((14, place));
            }
            Ok(())
        }
    }
}

/// The bytes of a number: as few as it needs, and so much padding behind them.
fn coded(value: u64, padding: usize) -> Vec<u8> {
    let least = (1..9)
        .find(|&length| value >> (7 * length) == 0)
        .unwrap_or(9);
    let length = (least + padding).min(9);
    let byte = |index: usize| match index + 1 {
        9 => (value >> 56) as u8,
        at if at == length => (value >> (7 * index)) as u8,
        _ => (value >> (7 * index)) as u8 | 0x80,
    };
    (0..length).map(byte).collect()
}

/// The file with so much padding in the numbers that were read, by their place
/// among them, and with end offsets of the chunks as they then are.
fn spelt(file: &[u8], numbers: &[Number], padding: impl Fn(usize) -> usize) -> Vec<u8> {
    // How much longer the file is, up to each of its numbers.
    let mut longer = vec![0];
    for (index, number) in numbers.iter().enumerate() {
        let length = coded(number.value, padding(index)).len() as i64;
        longer.push(longer[index] + length - (number.past - number.place) as i64);
    }
    let longer_at = |place: usize| longer[numbers.partition_point(|number| number.place < place)];
    let mut out = Vec::new();
    let mut at = 0;
    for (index, number) in numbers.iter().enumerate() {
        out.extend_from_slice(&file[at..number.place]);
        let more = number.region.map_or(0, |region| {
            longer_at(region + number.value as usize) - longer_at(region)
        });
        out.extend(coded(
            number.value.wrapping_add_signed(more),
            padding(index),
        ));
        at = number.past;
    }
    out.extend_from_slice(&file[at..]);
    out
}

#[test]
fn both_readers_agree_on_number_and_place() {
    for seed in [SEED, 11] {
        for case in generate::files(seed, FILES) {
            let slow = read(&case.bytes);
            let fast = second::reader::read(&case.bytes).map(drop);
            let fast = fast.map_err(|Refusal { number, place }| (number, place as usize));
            assert_eq!(fast, slow, "{}", case.label);
        }
    }
}

/// The slow reader is no copy of the fast one's answers: it gives the paper's.
#[test]
fn the_slow_reader_gives_the_answers_of_the_rules() {
    for case in generate::fixed_files() {
        if let Some(expected) = case.expected {
            let answer = read(&case.bytes).err().map_or(0, |(number, _)| number);
            assert_eq!(answer, expected, "{}", case.label);
        }
    }
    assert_eq!(read(&common::bytes("E")), Ok(()));
}

/// The number of a refusal, 0 for none, and every v64 that was read.
fn answered(file: &[u8]) -> (u8, Vec<Number>) {
    let mut at = At::default();
    let answer = read_on(file, &mut at);
    (answer.err().map_or(0, |(number, _)| number), at.numbers)
}

/// Building from the listing of an accepted file gives the file with the same
/// contents in shortest coding, end offsets worked out again.
#[test]
fn the_file_of_a_listing_is_the_shortest() {
    let (mut same, mut shorter) = (0, 0);
    for case in generate::files(SEED, FILES) {
        if let (0, numbers) = answered(&case.bytes) {
            let shortest = spelt(&case.bytes, &numbers, |_| 0);
            let text = listing(&case.bytes).expect("an accepted file");
            assert_eq!(build(&text), Ok(shortest.clone()), "{}", case.label);
            match shortest == case.bytes {
                true => same += 1,
                false => shorter += 1,
            }
        }
    }
    assert!(same > 3_000 && shorter > 1_000, "{same} and {shorter}");
}

/// A number in other bytes is the same number: neither an accepted file nor a
/// refused one has another answer, without any padding or with some in any of
/// the numbers that were read.
#[test]
fn padding_changes_no_answer() {
    let mut changed = 0;
    for case in generate::files(SEED, FILES) {
        // The bound of a file is the only rule that padding can break.
        if case.bytes.len() > 100_000 {
            continue;
        }
        let (answer, numbers) = answered(&case.bytes);
        let spellings: [fn(usize) -> usize; 4] =
            [|_| 0, |_| 8, |index| index % 2, |index| index * 7 % 9];
        for spelling in spellings {
            let file = spelt(&case.bytes, &numbers, spelling);
            changed += usize::from(file != case.bytes);
            assert_eq!(common::number(&file), answer, "{}", case.label);
            assert_eq!(listing(&file), listing(&case.bytes), "{}", case.label);
        }
    }
    assert!(changed > 40_000, "only {changed} spellings were others");
}
