//! Reading the text of a listing. Nothing is taken but what a listing prints:
//! every read answers none at the first byte that could not stand there.

use crate::page::hex_digits;

/// Where reading stands in a text.
#[derive(Clone, Copy)]
pub struct Text<'t> {
    rest: &'t [u8],
}

impl<'t> Text<'t> {
    pub fn new(text: &'t [u8]) -> Self {
        Text { rest: text }
    }

    pub fn at_end(&self) -> bool {
        self.rest.is_empty()
    }

    /// Takes these very bytes.
    #[inline(always)]
    pub fn word(&mut self, word: &[u8]) -> Option<()> {
        self.rest = self.rest.strip_prefix(word)?;
        Some(())
    }

    /// Takes this byte if it is next.
    #[inline(always)]
    pub fn is(&mut self, byte: u8) -> bool {
        match self.rest.split_first() {
            Some((&first, rest)) if first == byte => {
                self.rest = rest;
                true
            }
            _ => false,
        }
    }

    #[inline(always)]
    pub fn tab(&mut self) -> Option<()> {
        self.is(b'\t').then_some(())
    }

    #[inline(always)]
    pub fn newline(&mut self) -> Option<()> {
        self.is(b'\n').then_some(())
    }

    /// Takes a tab and a decimal behind it.
    #[inline(always)]
    pub fn field(&mut self) -> Option<u64> {
        self.tab()?;
        self.decimal()
    }

    /// Takes a tab and a decimal or a `-`, which answers none, behind it.
    pub fn field_or_dash(&mut self) -> Option<Option<u64>> {
        self.tab()?;
        if self.is(b'-') {
            return Some(None);
        }
        self.decimal().map(Some)
    }

    /// Takes a decimal from 0 up that fits 64 bits.
    #[inline(always)]
    pub fn decimal(&mut self) -> Option<u64> {
        let digits = self.rest;
        // Many numbers have one digit.
        if let [digit @ b'0'..=b'9', b'\t' | b'\n', ..] = *digits {
            self.rest = &digits[1..];
            return Some(u64::from(digit - b'0'));
        }
        let (mut value, mut length) = (0u64, 0);
        while let Some(eight) = digits[length..].first_chunk() {
            let (number, count) = leading_digits(eight);
            let tens = value.checked_mul(POWERS[count])?;
            value = tens.checked_add(number)?;
            length += count;
            if count < 8 {
                break;
            }
        }
        while let Some(digit) = digits.get(length).filter(|c| c.is_ascii_digit()) {
            let tens = value.checked_mul(10)?;
            value = tens.checked_add(u64::from(digit - b'0'))?;
            length += 1;
        }
        if length == 0 || (length > 1 && digits[0] == b'0') {
            return None;
        }
        self.rest = &digits[length..];
        Some(value)
    }

    /// Takes a decimal that fits `width` bytes of two's complement.
    #[inline(always)]
    pub fn signed(&mut self, width: usize) -> Option<i64> {
        let minus = self.is(b'-');
        let size = self.decimal()?;
        let above = 1u64 << (8 * width - 1);
        match (minus, size) {
            (false, _) if size < above => Some(size as i64),
            (true, 1..) if size <= above => Some((size as i64).wrapping_neg()),
            _ => None,
        }
    }

    /// Takes all lower-case hex digits that stand here.
    pub fn hex(&mut self) -> &'t [u8] {
        let mut length = 0;
        while self.rest[length..]
            .first_chunk()
            .and_then(eight_hex_digits)
            .is_some()
        {
            length += 8;
        }
        let last = self.rest[length..].iter().take_while(|&&c| is_hex(c));
        let (digits, rest) = self.rest.split_at(length + last.count());
        self.rest = rest;
        digits
    }

    /// Takes exactly eight hex digits.
    #[inline(always)]
    pub fn hex_bits(&mut self) -> Option<u64> {
        let (digits, rest) = self.rest.split_first_chunk()?;
        self.rest = rest;
        eight_hex_digits(digits).map(u64::from)
    }
}

/// The number that the digits at the front of eight bytes are, and how many
/// there are, from all of them at once: one number says little about the
/// length of the next, so nothing is asked of them one by one.
#[inline(always)]
fn leading_digits(bytes: &[u8; 8]) -> (u64, usize) {
    let ones = u64::from_le_bytes(*bytes).wrapping_sub(0x3030_3030_3030_3030);
    // From 10 up a byte has its top bit set when 0x76 is added; so has what
    // was below the digits, and what stands behind it does not matter.
    let others = (ones | ones.wrapping_add(0x7676_7676_7676_7676)) & 0x8080_8080_8080_8080;
    if others == 0 {
        return (joined(ones), 8);
    }
    let count = others.trailing_zeros() / 8;
    // As many zeros before them as digits are missing.
    let ones = ones.checked_shl(64 - 8 * count).unwrap_or(0);
    (joined(ones), count as usize)
}

/// The number of eight digits: joined in twos, then in fours, then all.
#[inline(always)]
fn joined(ones: u64) -> u64 {
    let twos = (ones * 10 + (ones >> 8)) & 0x00FF_00FF_00FF_00FF;
    let fours = (twos * 100 + (twos >> 16)) & 0x0000_FFFF_0000_FFFF;
    (fours * 10_000 + (fours >> 32)) & 0xFFFF_FFFF
}

/// The powers of 10.
const POWERS: [u64; 9] = {
    let mut all = [1; 9];
    let mut index = 1;
    while index < 9 {
        all[index] = 10 * all[index - 1];
        index += 1;
    }
    all
};

/// The bits of eight hex digits, if they are all that, from all of them at
/// once. What is no digit is taken for some digit, and is not what that one is
/// printed as.
#[inline(always)]
fn eight_hex_digits(digits: &[u8; 8]) -> Option<u32> {
    let word = u64::from_be_bytes(*digits);
    // The letters from a on have bit 6 set, and bits 0 to 3 count from 1.
    let letters = word >> 6 & 0x0101_0101_0101_0101;
    let ones = (word & 0x0F0F_0F0F_0F0F_0F0F) + 9 * letters;
    let twos = (ones | ones >> 4) & 0x00FF_00FF_00FF_00FF;
    let fours = (twos | twos >> 8) & 0x0000_FFFF_0000_FFFF;
    let bits = (fours | fours >> 16) as u32;
    (hex_digits(bits) == *digits).then_some(bits)
}

fn is_hex(c: u8) -> bool {
    matches!(c, b'0'..=b'9' | b'a'..=b'f')
}

fn hex_value(digit: u8) -> u8 {
    match digit {
        b'0'..=b'9' => digit - b'0',
        _ => digit - b'a' + 10,
    }
}

/// The bytes of an even number of hex digits.
pub fn unhex(digits: &[u8]) -> Option<Vec<u8>> {
    if !digits.len().is_multiple_of(2) {
        return None;
    }
    let mut bytes = Vec::with_capacity(digits.len() / 2);
    let (eights, rest) = digits.as_chunks();
    for eight in eights {
        bytes.extend_from_slice(&eight_hex_digits(eight)?.to_be_bytes());
    }
    let twos = rest.chunks_exact(2);
    bytes.extend(twos.map(|two| hex_value(two[0]) << 4 | hex_value(two[1])));
    Some(bytes)
}
