//! Printing a file's listing while it is read.

use crate::kind::{signed, Form, Kind};
use crate::ledger::{Chunk, Entry, Ledger, Pair};
use crate::page::{Page, Piece};
use crate::reader;
use crate::refusal::Refusal;
use crate::sink::Sink;

/// The listing of a file, or none if it is longer than `room` bytes.
pub fn print(file: &[u8], room: usize) -> Result<Option<Vec<u8>>, Refusal> {
    let mut printer = Printer {
        page: Page::with_room(room.min(4 * file.len() + 64)),
        room,
        is_single: false,
    };
    reader::read_into(file, &mut printer)?;
    let text = printer.page.text();
    Ok((text.len() <= room).then_some(text))
}

/// The listing as far as the file is read.
struct Printer {
    page: Page,
    room: usize,
    /// Whether each element is a value by itself.
    is_single: bool,
}

impl Sink for Printer {
    const BY_VALUE: bool = true;

    fn pair(&mut self, ledger: &Ledger<'_>, pair: &Pair) {
        let page = &mut self.page;
        head(ledger, pair, page);
        for entry in &ledger.entries[pair.entries.clone()] {
            entry_lines(ledger, entry, page);
        }
    }

    fn wants(&mut self, ledger: &Ledger<'_>, chunk: &Chunk) -> bool {
        let kind = ledger.fields[chunk.field].kind;
        self.is_single = matches!(
            kind,
            Kind::Stored {
                form: Form::Single,
                ..
            }
        );
        // A small file can have a long listing; no need to finish one that is
        // already too long.
        self.page.len() <= self.room
    }

    fn begin(&mut self) {
        self.page.word(b"val");
    }

    fn end(&mut self) {
        self.page.word(b"\n");
    }

    fn size(&mut self, keys: u64) {
        self.page.word(b"\t");
        self.page.decimal(keys);
    }

    fn bools(&mut self, bytes: &[u8]) {
        for &byte in bytes {
            self.element(|page| page.decimal(u64::from(byte & 1)));
        }
    }

    fn whole<const WIDTH: usize>(&mut self, bytes: &[u8]) {
        for bits in wide::<WIDTH>(bytes) {
            self.element(|page| page.signed_decimal(signed(bits, WIDTH)));
        }
    }

    fn v64s(&mut self, _count: u64) -> impl FnMut(u64) {
        |value| self.element(|page| page.signed_decimal(value as i64))
    }

    fn floats<const WIDTH: usize>(&mut self, bytes: &[u8]) {
        for bits in bytes.chunks_exact(WIDTH) {
            self.element(|page| page.hex(bits));
        }
    }

    fn numbers(&mut self, _count: u64) -> impl FnMut(u64) {
        |number| self.element(|page| page.decimal(number))
    }

    fn annotation(&mut self, name: u64, object: u64) {
        self.element(|page| {
            page.decimal(name);
            page.word(b"\t");
            page.decimal(object);
        });
    }
}

impl Printer {
    /// Prints an element behind a tab. One that is a value by itself has the
    /// whole line.
    #[inline(always)]
    fn element(&mut self, print: impl FnOnce(&mut Piece<'_>)) {
        let is_single = self.is_single;
        self.page.piece(|piece| {
            match is_single {
                true => piece.word(b"val\t"),
                false => piece.word(b"\t"),
            }
            print(piece);
            if is_single {
                piece.word(b"\n");
            }
        });
    }
}

/// The bits of elements of a fixed width.
fn wide<const WIDTH: usize>(bytes: &[u8]) -> impl Iterator<Item = u64> + '_ {
    bytes.chunks_exact(WIDTH).map(|bytes| {
        let mut low = [0; 8];
        low[8 - WIDTH..].copy_from_slice(bytes);
        u64::from_be_bytes(low)
    })
}

fn head(ledger: &Ledger<'_>, pair: &Pair, page: &mut Page) {
    page.word(b"pair\t");
    page.decimal(pair.strings.len() as u64);
    page.word(b"\t");
    page.decimal(pair.entries.len() as u64);
    page.word(b"\n");
    for number in pair.strings.clone() {
        page.word(b"str\t");
        page.hex(ledger.names.bytes(number));
        page.word(b"\n");
    }
}

fn entry_lines(ledger: &Ledger<'_>, entry: &Entry, page: &mut Page) {
    page.piece(|page| {
        page.word(b"type\t");
        page.decimal(entry.name);
        page.word(b"\t");
        decimal_or_dash(page, entry.super_name);
        page.word(b"\t");
        decimal_or_dash(page, entry.start);
        page.word(b"\t");
        page.decimal(entry.count);
        page.word(b"\t");
        page.decimal(entry.chunks.len() as u64);
        page.word(b"\n");
    });
    for chunk in &ledger.chunks[entry.chunks.clone()] {
        if chunk.new {
            page.word(b"new\t");
            kind(page, ledger.fields[chunk.field].kind);
            page.word(b"\t");
            page.decimal(chunk.name);
            page.word(b"\n");
        } else {
            page.word(b"old\n");
        }
    }
}

fn kind(page: &mut Page, kind: Kind) {
    for (index, number) in kind.numbers().into_iter().enumerate() {
        if index > 0 {
            page.word(b",");
        }
        page.decimal(number);
    }
    if let Kind::Constant { value, .. } = kind {
        page.word(b",");
        page.signed_decimal(value);
    }
}

fn decimal_or_dash(page: &mut Piece<'_>, value: Option<u64>) {
    match value {
        Some(value) => page.decimal(value),
        None => page.word(b"-"),
    }
}
