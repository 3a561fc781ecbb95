//! Large texts: at the bound of a file and one byte beyond it, very long lines, very many lines.

use second::bounds::{FILE, TABLE};

use crate::reader::{Reader, Second};

/// A text that is made when it is asked for.
pub struct Large {
    /// What it is counted as.
    pub group: &'static str,
    pub name: &'static str,
    pub make: fn() -> Vec<u8>,
}

const AT: &str = "file at its bound";
const BEYOND: &str = "file past its bound";
const LONG: &str = "very long line";
const MANY: &str = "very many lines";

#[rustfmt::skip]
pub const TEXTS: &[Large] = &[
    Large { group: AT, name: "1048576 bytes, a string", make: || filled(STRING, FILE) },
    Large { group: AT, name: "1048576 bytes, values", make: || filled(&values(100_000), FILE) },
    Large { group: AT, name: "1048576 bytes, arrays", make: || filled(&arrays(15), FILE) },
    Large { group: AT, name: "1048576 bytes, annotations", make: || filled(&annotations(7), FILE) },
    Large { group: AT, name: "1048576 bytes, maps", make: || filled(&maps(7), FILE) },
    Large { group: AT, name: "1048576 bytes, two pairs", make: || filled(&two_pairs(), FILE) },
    Large { group: AT, name: "1048576 bytes, the last two an empty pair", make: || then_empty(FILE - 2) },
    Large { group: BEYOND, name: "1048577 bytes, a string", make: || filled(STRING, FILE + 1) },
    Large { group: BEYOND, name: "1048577 bytes, values", make: || filled(&values(100_000), FILE + 1) },
    Large { group: BEYOND, name: "1048577 bytes, arrays", make: || filled(&arrays(15), FILE + 1) },
    Large { group: BEYOND, name: "1048577 bytes, annotations", make: || filled(&annotations(7), FILE + 1) },
    Large { group: BEYOND, name: "1048577 bytes, maps", make: || filled(&maps(7), FILE + 1) },
    Large { group: BEYOND, name: "1048577 bytes, two pairs", make: || filled(&two_pairs(), FILE + 1) },
    Large { group: BEYOND, name: "1048577 bytes, the last two an empty pair", make: || then_empty(FILE - 1) },
    Large { group: BEYOND, name: "1048578 bytes, the last two an empty pair", make: || then_empty(FILE) },
    Large { group: BEYOND, name: "three megabytes, strings", make: three_strings },
    Large { group: BEYOND, name: "three megabytes, values", make: || values(350_000).replace(FILL, "").into_bytes() },
    Large { group: LONG, name: "a million nines", make: || value(&"9".repeat(MILLION)) },
    Large { group: LONG, name: "a million zeros", make: || value(&"0".repeat(MILLION)) },
    Large { group: LONG, name: "a million zeros and 1", make: || value(&("0".repeat(MILLION) + "1")) },
    Large { group: LONG, name: "minus and a million ones", make: || value(&("-".to_string() + &"1".repeat(MILLION))) },
    Large { group: LONG, name: "a million minuses", make: || value(&"-".repeat(MILLION)) },
    Large { group: LONG, name: "a million tabs", make: || value(&"\t".repeat(MILLION)) },
    Large { group: LONG, name: "a million elements", make: || value(&"1\t".repeat(MILLION)) },
    Large { group: LONG, name: "an array of a million elements", make: || array_of(MILLION) },
    Large { group: LONG, name: "an array of 65536 elements", make: || array_of(65_536) },
    Large { group: LONG, name: "an array of a million annotations", make: || one("17,5", &"\t1\t1".repeat(MILLION)) },
    Large { group: LONG, name: "a map of a million keys", make: || one("20,2,7,7", &format!("\t{MILLION}{}", "\t1\t1".repeat(MILLION))) },
    Large { group: LONG, name: "a map of 65536 keys", make: || one("20,2,7,7", &format!("\t65536{}", "\t1\t1".repeat(65_536))) },
    Large { group: LONG, name: "a map of 65536 keys within a map", make: || one("20,3,7,7,7", &format!("\t1\t1\t65536{}", "\t1\t1".repeat(65_536))) },
    Large { group: LONG, name: "a map of 65535 keys, one of them missing", make: || one("20,2,7,7", &format!("\t65535{}", "\t1\t1".repeat(65_534))) },
    Large { group: LONG, name: "a map of a million empty maps", make: || one("20,3,7,7,7", &format!("\t{MILLION}{}", "\t1\t0".repeat(MILLION))) },
    Large { group: LONG, name: "a million digits as a map's size", make: || one("20,2,7,7", &("\t1".to_string() + &"0".repeat(MILLION))) },
    Large { group: LONG, name: "a map of a million types", make: || kind(&format!("20,{MILLION}{}", ",7".repeat(MILLION))) },
    Large { group: LONG, name: "a million digits as a number of strings", make: || strings(&("1".to_string() + &"0".repeat(MILLION))) },
    Large { group: LONG, name: "a million digits as a kind", make: || kind(&"1".repeat(MILLION)) },
    Large { group: LONG, name: "a kind of a million commas", make: || kind(&"1,".repeat(MILLION)) },
    Large { group: LONG, name: "a million and one hex digits", make: || string(MILLION + 1) },
    Large { group: LONG, name: "four million hex digits", make: || string(4 * MILLION) },
    Large { group: LONG, name: "a million words", make: || "pair".repeat(MILLION).into() },
    Large { group: LONG, name: "a million blanks", make: || vec![b' '; MILLION] },
    Large { group: LONG, name: "a million bytes FF", make: || vec![0xFF; MILLION] },
    Large { group: LONG, name: "a million bytes 00", make: || vec![0; MILLION] },
    Large { group: MANY, name: "a million empty lines", make: || many("", "\n") },
    Large { group: MANY, name: "a listing and a million empty lines", make: || many("pair\t0\t0\n", "\n") },
    Large { group: MANY, name: "a million pairs", make: || many("", "pair\t0\t0\n") },
    Large { group: MANY, name: "a million strings", make: || many("pair\t1000000\t0\n", "str\t\n") },
    Large { group: MANY, name: "a million values", make: || many(&before_values(65_535), "val\t1\n") },
    Large { group: MANY, name: "a million values of a million objects", make: || many(&before_values(MILLION), "val\t1\n") },
    Large { group: MANY, name: "a million old fields", make: || many("pair\t1\t1\nstr\t61\ntype\t1\t0\t-\t1\t1000000\n", "old\n") },
    Large { group: MANY, name: "a million entries", make: || many("pair\t1\t65535\nstr\t61\n", "type\t1\t-\t-\t0\t0\n") },
];

const MILLION: usize = 1_000_000;

/// Where the string stands that makes a file as long as it should be.
const FILL: &str = "FILL";

/// The listing of a file with so many bytes: the string makes up for what is missing.
fn filled(text: &str, length: usize) -> Vec<u8> {
    let empty = text.replace(FILL, "");
    let mut file = vec![0; FILE];
    let least = Second.build(empty.as_bytes(), &mut vec![0; TABLE], &mut file);
    let least = usize::try_from(least).expect("a listing, but for the string");
    text.replace(FILL, &"78".repeat(length - least)).into()
}

const STRING: &str = "pair\t1\t0\nstr\tFILL\n";

/// So many values of nine bytes.
fn values(count: usize) -> String {
    let fields = count / 50_000;
    let mut text = "pair\t9\t1\nstr\tFILL\n".to_string();
    (0..8).for_each(|name| text += &format!("str\t0{name}\n"));
    text += &format!("type\t2\t0\t-\t50000\t{fields}\n");
    (0..fields).for_each(|field| text += &format!("new\t11\t{}\n", 2 + field));
    text + &"val\t-1\n".repeat(count)
}

/// So many arrays of 65,535 bytes.
fn arrays(count: usize) -> String {
    let head = format!("pair\t2\t1\nstr\tFILL\nstr\t61\ntype\t2\t0\t-\t{count}\t1\nnew\t17,7\t2\n");
    let line = format!("val{}\n", "\t-1".repeat(65_535));
    head + &line.repeat(count)
}

/// So many arrays of 65,535 annotations, each of two bytes.
fn annotations(count: usize) -> String {
    let head = format!("pair\t2\t1\nstr\tFILL\nstr\t61\ntype\t2\t0\t-\t{count}\t1\nnew\t17,5\t2\n");
    let line = format!("val{}\n", "\t2\t1".repeat(65_535));
    head + &line.repeat(count)
}

/// So many maps of 65,535 keys, each with its value in two bytes.
fn maps(count: usize) -> String {
    let head =
        format!("pair\t2\t1\nstr\tFILL\nstr\t61\ntype\t2\t0\t-\t{count}\t1\nnew\t20,2,7,7\t2\n");
    let line = format!("val\t65535{}\n", "\t-1\t1".repeat(65_535));
    head + &line.repeat(count)
}

fn two_pairs() -> String {
    values(50_000).replace(FILL, "") + STRING
}

/// A file with so many bytes, and an empty pair behind it.
fn then_empty(length: usize) -> Vec<u8> {
    [filled(STRING, length), b"pair\t0\t0\n".to_vec()].concat()
}

/// Each of the strings alone would fit.
fn three_strings() -> Vec<u8> {
    let line = format!("str\t{}\n", "78".repeat(FILE - 64));
    format!("pair\t3\t0\n{}", line.repeat(3)).into()
}

/// A line, a million times, behind others.
fn many(head: &str, line: &str) -> Vec<u8> {
    format!("{head}{}", line.repeat(MILLION)).into()
}

/// The lines before the values of one v64 field.
fn before_values(objects: usize) -> String {
    format!("pair\t1\t1\nstr\t61\ntype\t1\t0\t-\t{objects}\t1\nnew\t11\t1\n")
}

/// A pair that announces so many strings and has none.
fn strings(number: &str) -> Vec<u8> {
    format!("pair\t{number}\t0\n").into()
}

/// One string of so many hex digits.
fn string(digits: usize) -> Vec<u8> {
    format!("pair\t1\t0\nstr\t{}\n", "a".repeat(digits)).into()
}

fn kind(kind: &str) -> Vec<u8> {
    format!("pair\t1\t1\nstr\t61\ntype\t1\t0\t-\t0\t1\nnew\t{kind}\t1\n").into()
}

/// One object with one v64 value.
fn value(word: &str) -> Vec<u8> {
    format!("pair\t1\t1\nstr\t61\ntype\t1\t0\t-\t1\t1\nnew\t11\t1\nval\t{word}\n").into()
}

fn array_of(length: usize) -> Vec<u8> {
    one("17,7", &"\t1".repeat(length))
}

/// One object with one value of this kind; each of its words stands behind a tab.
fn one(kind: &str, words: &str) -> Vec<u8> {
    format!("pair\t1\t1\nstr\t61\ntype\t1\t0\t-\t1\t1\nnew\t{kind}\t1\nval{words}\n").into()
}

#[cfg(test)]
mod tests {
    use super::*;

    /// At the bound a file is built, and it has as many bytes as is said; nothing else here is a listing.
    #[test]
    fn built_up_to_the_bound() {
        for text in TEXTS {
            let mut file = vec![0; FILE + 1];
            let answer = Second.build(&(text.make)(), &mut vec![0; TABLE], &mut file);
            let expected = match text.group {
                AT => FILE as i64,
                _ => -20,
            };
            assert_eq!(answer, expected, "{}", text.name);
        }
    }
}
