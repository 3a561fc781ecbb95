//! A short notation for bytes written by hand.
//!
//! Words are parted by blanks. A word is hex digits, hex digits repeated
//! (`80*8`), or the name of a piece:
//!
//! - `P`: a string block of the strings a, b, c, d, e (numbers 1 to 5)
//! - `Q`: a string block of the strings a, b (numbers 1, 2)
//! - `S33`: a string block of 33 strings of one byte each, a and on
//! - `D`, `E`: the paper's files of these names
//! - `'word`: the bytes of the word itself
//! - `[ .. ]`: the end offset of a first chunk, as a v64, and the chunk

use crate::v64;

/// The paper's file D.
pub const FILE_D: &str = "01 00000004 64617465 01 01 00 02 00 01 00 0B 01 0A 01 FF*9";
/// What file E has behind D.
pub const BEHIND_D: &str = "00 01 01 01 01 02 80 02";

const PIECE_P: &str = "05 00000001 00000002 00000003 00000004 00000005 6162636465";
const PIECE_Q: &str = "02 00000001 00000002 6162";

/// The bytes of a text in this notation.
///
/// # Panics
///
/// If the text is not in this notation; all of them stand in this package.
pub fn bytes(text: &str) -> Vec<u8> {
    let mut out = Vec::new();
    let mut chunk = 0;
    for word in text.split_whitespace() {
        match word {
            "[" => chunk = out.len(),
            "]" => drop(out.splice(chunk..chunk, v64::coded((out.len() - chunk) as u64))),
            "P" => out.extend(bytes(PIECE_P)),
            "Q" => out.extend(bytes(PIECE_Q)),
            "D" => out.extend(bytes(FILE_D)),
            "E" => {
                out.extend(bytes(FILE_D));
                out.extend(bytes(BEHIND_D));
            }
            _ => match (word.strip_prefix('\''), word.strip_prefix('S')) {
                (Some(plain), _) => out.extend_from_slice(plain.as_bytes()),
                (_, Some(count)) => singles(count.parse().expect("a number of strings"), &mut out),
                _ => repeated(word, &mut out),
            },
        }
    }
    out
}

/// A string block of up to 127 strings of one byte each.
fn singles(count: u8, out: &mut Vec<u8>) {
    out.push(count);
    out.extend((1..=count).flat_map(|end| [0, 0, 0, end]));
    out.extend((0..count).map(|index| b'a' + index));
}

fn repeated(word: &str, out: &mut Vec<u8>) {
    let (digits, times) = match word.split_once('*') {
        Some((digits, times)) => (digits, times.parse().expect("a number of times")),
        None => (word, 1),
    };
    let plain = hex(digits);
    for _ in 0..times {
        out.extend_from_slice(&plain);
    }
}

fn hex(digits: &str) -> Vec<u8> {
    assert!(
        digits.len().is_multiple_of(2),
        "odd number of digits in {digits}"
    );
    (0..digits.len())
        .step_by(2)
        .map(|at| u8::from_str_radix(&digits[at..at + 2], 16).expect("hex digits"))
        .collect()
}
