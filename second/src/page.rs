//! Text that grows at its end, without a call for every few bytes.
//!
//! There is always some room behind the text, already made, so that a piece of
//! a line is written to bytes whose number is known beforehand.

pub struct Page {
    /// The text, and room behind it.
    bytes: Vec<u8>,
    length: usize,
}

/// As many bytes as a piece has at most. Five decimals of 64 bits, with all that
/// stands around them, are no more.
const ROOM: usize = 128;

/// A 1 in each byte of a word.
const ONES: u64 = 0x0101_0101_0101_0101;

impl Page {
    /// An empty page, with room for so many bytes before it has to grow.
    pub fn with_room(room: usize) -> Self {
        Page {
            bytes: vec![0; room + ROOM],
            length: 0,
        }
    }

    pub fn len(&self) -> usize {
        self.length
    }

    /// The text alone.
    pub fn text(mut self) -> Vec<u8> {
        self.bytes.truncate(self.length);
        self.bytes
    }

    /// Appends a piece of a line.
    #[inline(always)]
    pub fn piece(&mut self, write: impl FnOnce(&mut Piece<'_>)) {
        self.grow(ROOM);
        let room = self.bytes[self.length..].first_chunk_mut();
        let room = room.expect("the page has grown");
        let mut piece = Piece { room, length: 0 };
        write(&mut piece);
        self.length += piece.length;
    }

    /// Appends a short word.
    pub fn word<const LENGTH: usize>(&mut self, word: &[u8; LENGTH]) {
        self.piece(|piece| piece.word(word));
    }

    /// Appends a decimal without leading zeros.
    pub fn decimal(&mut self, value: u64) {
        self.piece(|piece| piece.decimal(value));
    }

    /// Appends a decimal, with a minus if it is below 0.
    pub fn signed_decimal(&mut self, value: i64) {
        self.piece(|piece| piece.signed_decimal(value));
    }

    /// Appends any number of bytes in lower-case hex.
    pub fn hex(&mut self, bytes: &[u8]) {
        self.grow(2 * bytes.len());
        let room = &mut self.bytes[self.length..][..2 * bytes.len()];
        let (fours, rest) = bytes.as_chunks::<4>();
        let (eights, behind) = room.split_at_mut(8 * fours.len());
        for (eight, &four) in eights.chunks_exact_mut(8).zip(fours) {
            eight.copy_from_slice(&hex_digits(u32::from_be_bytes(four)));
        }
        for (two, &byte) in behind.chunks_exact_mut(2).zip(rest) {
            two.copy_from_slice(&hex_digits(u32::from(byte))[6..]);
        }
        self.length += 2 * bytes.len();
    }

    /// Sees that there are so many bytes behind the text.
    #[inline(always)]
    fn grow(&mut self, room: usize) {
        if self.bytes.len() - self.length < room {
            self.grow_now(room);
        }
    }

    #[cold]
    fn grow_now(&mut self, room: usize) {
        let length = (self.length + room).max(2 * self.bytes.len());
        self.bytes.resize(length, 0);
    }
}

/// A piece of a line, while it is written.
pub struct Piece<'p> {
    room: &'p mut [u8; ROOM],
    length: usize,
}

impl Piece<'_> {
    #[inline(always)]
    pub fn word<const LENGTH: usize>(&mut self, word: &[u8; LENGTH]) {
        self.room[self.length..][..LENGTH].copy_from_slice(word);
        self.length += LENGTH;
    }

    #[inline(always)]
    pub fn decimal(&mut self, value: u64) {
        self.length += digits(self.room, self.length, value);
    }

    #[inline(always)]
    pub fn signed_decimal(&mut self, value: i64) {
        // Where there is no sign, the first digit is written over it.
        self.room[self.length] = b'-';
        self.length += usize::from(value < 0);
        self.decimal(value.unsigned_abs());
    }

    /// The hex digits of a float.
    #[inline(always)]
    pub fn hex(&mut self, bytes: &[u8]) {
        let (fours, _) = bytes.as_chunks::<4>();
        for &four in fours {
            self.word(&hex_digits(u32::from_be_bytes(four)));
        }
    }
}

/// Writes the digits of a number from `at` on; answers how many there are.
#[inline(always)]
fn digits(room: &mut [u8; ROOM], at: usize, value: u64) -> usize {
    const EIGHT: u64 = 100_000_000;
    if value < 10 {
        room[at] = b'0' + value as u8;
        return 1;
    }
    let mut put = |at: usize, word: u64| {
        let digits = word + u64::from(b'0') * ONES;
        room[at..at + 8].copy_from_slice(&digits.to_le_bytes());
    };
    // How many of the leading digits there are is worked out, not asked: one
    // number says little about the length of the next.
    let leading = |word: u64| {
        let zeros = (word | 1 << 56).trailing_zeros() / 8;
        (word >> (8 * zeros), 8 - zeros as usize)
    };
    let (first, rest) = match value {
        ..EIGHT => (value, 0),
        _ if value < EIGHT * EIGHT => (value / EIGHT, 1),
        _ => (value / EIGHT / EIGHT, 2),
    };
    let (word, mut count) = leading(eight_digits(first));
    put(at, word);
    if rest == 2 {
        put(at + count, eight_digits(value / EIGHT % EIGHT));
        count += 8;
    }
    if rest > 0 {
        put(at + count, eight_digits(value % EIGHT));
        count += 8;
    }
    count
}

/// The eight digits of a number below 10 ^ 8, one in each byte of a word, the
/// first one lowest: parted in fours, then in twos, then one by one. A product
/// and a shift stand for a division by 100 or 10.
#[inline(always)]
fn eight_digits(number: u64) -> u64 {
    let fours = number / 10_000 | number % 10_000 << 32;
    let upper = fours * 10_486 >> 20 & 0x0000_007F_0000_007F;
    let twos = upper | (fours - 100 * upper) << 16;
    let upper = twos * 103 >> 10 & 0x000F_000F_000F_000F;
    upper | (twos - 10 * upper) << 8
}

/// The eight hex digits of a number, the highest first, all at once: a digit
/// in each byte of a word.
#[inline(always)]
pub fn hex_digits(bits: u32) -> [u8; 8] {
    let fours = u64::from(bits);
    let twos = (fours << 16 | fours) & 0x0000_FFFF_0000_FFFF;
    let bytes = (twos << 8 | twos) & 0x00FF_00FF_00FF_00FF;
    let digits = (bytes << 4 | bytes) & 0x0F0F_0F0F_0F0F_0F0F;
    // A digit from 10 up has bit 4 set when 6 is added.
    let letters = (digits + 6 * ONES) >> 4 & ONES;
    let gap = u64::from(b'a' - b'9' - 1);
    (digits + u64::from(b'0') * ONES + letters * gap).to_be_bytes()
}
