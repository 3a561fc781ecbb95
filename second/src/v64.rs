//! The v64 coding: low seven bits first, a ninth byte with eight bits.
//!
//! Every coding of at most nine bytes is read, however many of them are
//! padding. What is written is the shortest one.

/// The bytes end before the coding does. Nothing else can be wrong with one:
/// the ninth byte is its last, whatever it is.
#[derive(Clone, Copy, Debug, PartialEq, Eq)]
pub struct Cut;

/// The top bit of each byte of a word: another byte follows.
const CONTINUES: u64 = 0x8080_8080_8080_8080;

/// Reads the coding that begins at `at`; answers its value and where the next
/// thing begins.
#[inline(always)]
pub fn read(bytes: &[u8], at: usize) -> Result<(u64, usize), Cut> {
    // Most numbers of a file are small, so up to three bytes have their own
    // ways out. A processor guesses which one it will be and goes on, where it
    // would have to wait for a length that is worked out.
    match bytes.get(at) {
        Some(&one) if one < 0x80 => Ok((u64::from(one), at + 1)),
        Some(_) => read_on(&bytes[at..], at),
        None => Err(Cut),
    }
}

/// Reads a coding of more than one byte, which stands at the front of `rest`.
#[inline(always)]
fn read_on(rest: &[u8], at: usize) -> Result<(u64, usize), Cut> {
    match *rest {
        [one, two, ..] if two < 0x80 => Ok((low(one) | u64::from(two) << 7, at + 2)),
        [one, two, three, ..] if three < 0x80 => {
            Ok((low(one) | low(two) << 7 | u64::from(three) << 14, at + 3))
        }
        _ => read_long(rest, at),
    }
}

/// The seven bits that a byte carries if another follows.
#[inline(always)]
fn low(byte: u8) -> u64 {
    u64::from(byte & 0x7F)
}

/// Reads a coding of more than three bytes, which stands at the front of `rest`.
#[inline]
fn read_long(rest: &[u8], at: usize) -> Result<(u64, usize), Cut> {
    let &nine = match rest.first_chunk::<9>() {
        Some(nine) => nine,
        None => &continued(rest),
    };
    let [eight @ .., ninth] = nine;
    let word = u64::from_le_bytes(eight);
    let last = (!word & CONTINUES).trailing_zeros() / 8;
    if last < 8 {
        let value = joined(word & u64::MAX >> (56 - 8 * last));
        return Ok((value, at + last as usize + 1));
    }
    if rest.len() < 9 {
        return Err(Cut);
    }
    let value = joined(word);
    Ok((value | u64::from(ninth) << 56, at + 9))
}

/// The first bytes of a coding, of which fewer than nine are there. Those
/// that are missing say that another follows, so that no coding ends in them.
#[cold]
fn continued(rest: &[u8]) -> [u8; 9] {
    let mut nine = [0x80; 9];
    nine[..rest.len()].copy_from_slice(rest);
    nine
}

/// The low seven bits of each byte, the first byte's lowest, side by side:
/// joined in twos, then in fours, then all eight.
#[inline]
fn joined(word: u64) -> u64 {
    let ones = word & 0x7F7F_7F7F_7F7F_7F7F;
    let twos = ones & 0x007F_007F_007F_007F | ones >> 1 & 0x3F80_3F80_3F80_3F80;
    let fours = twos & 0x0000_3FFF_0000_3FFF | twos >> 2 & 0x0FFF_C000_0FFF_C000;
    fours & 0x0000_0000_0FFF_FFFF | fours >> 4 & 0x00FF_FFFF_F000_0000
}

/// Passes over codings from `at` on whose values nobody asks for, `count` of
/// them or as many as can be told apart quickly; answers how many are left and
/// where the next one begins.
#[inline(always)]
pub fn pass(bytes: &[u8], mut at: usize, count: u64) -> (u64, usize) {
    let mut left = count;
    while let Some([eight @ .., _]) = bytes.get(at..).and_then(|rest| rest.first_chunk::<9>()) {
        let ends = !u64::from_le_bytes(*eight) & CONTINUES;
        let (codings, length) = match left {
            0 => break,
            _ if ends == 0 => (1, 9),
            // No more than eight can end in eight bytes.
            8.. => (ends.count_ones(), 8 - ends.leading_zeros() / 8),
            _ => (1, ends.trailing_zeros() / 8 + 1),
        };
        left -= u64::from(codings);
        at += length as usize;
    }
    (left, at)
}

/// Appends the shortest coding of `value`.
#[inline(always)]
pub fn write(out: &mut Vec<u8>, value: u64) {
    if value < 0x80 {
        out.push(value as u8);
    } else {
        write_long(out, value);
    }
}

/// Appends a coding of more than one byte.
fn write_long(out: &mut Vec<u8>, value: u64) {
    let word = parted(value);
    if value >> 56 > 0 {
        out.extend_from_slice(&(word | CONTINUES).to_le_bytes());
        out.push((value >> 56) as u8);
        return;
    }
    let last = value.ilog2() / 7;
    let continues = CONTINUES & ((1 << (8 * last)) - 1);
    let past = out.len() + last as usize + 1;
    // Eight bytes are appended more quickly than a number of them that has to
    // be asked for.
    out.extend_from_slice(&(word | continues).to_le_bytes());
    out.truncate(past);
}

/// The low 56 bits, seven in each byte: what [`joined`] joins.
#[inline]
fn parted(value: u64) -> u64 {
    let fours = value & 0x0000_0000_0FFF_FFFF | (value & 0x00FF_FFFF_F000_0000) << 4;
    let twos = fours & 0x0000_3FFF_0000_3FFF | (fours & 0x0FFF_C000_0FFF_C000) << 2;
    twos & 0x007F_007F_007F_007F | (twos & 0x3F80_3F80_3F80_3F80) << 1
}

/// The shortest coding of `value` by itself.
pub fn coded(value: u64) -> Vec<u8> {
    let mut out = Vec::with_capacity(9);
    write(&mut out, value);
    out
}
