//! Files for the print program.

use second::bounds::{FILE, PROGRAM_INPUT, PROGRAM_OUTPUT};
use second::generate::spelling::Parts;
use second::generate::Case;

use super::{built, filled};

/// The bounds of the programs, met by files.
pub fn bounds() -> Vec<Case> {
    let mut cases = vec![Case::chance("no input".into(), Vec::new())];
    for length in PROGRAM_INPUT - 1..=PROGRAM_INPUT + 1 {
        cases.push(Case::chance(
            format!("{length} bytes, accepted by the calls"),
            numbers(length),
        ));
        // The bound is on the bytes as they come, padding included.
        cases.push(Case::chance(
            format!("{length} bytes, most of them padding"),
            padding(length),
        ));
        // Too much input comes before whatever is wrong with it: a type without a name.
        let mut unnamed = vec![0; length];
        unnamed[1] = 1;
        cases.push(Case::chance(format!("{length} bytes, refused"), unnamed));
    }
    for length in [PROGRAM_OUTPUT - 2, PROGRAM_OUTPUT, PROGRAM_OUTPUT + 2] {
        let label = format!("a listing of {length} bytes");
        cases.push(Case::chance(label, string(length)));
    }
    // More than a pipe holds: the program ends before it has all of it.
    cases.push(Case::chance("a megabyte".into(), vec![0; FILE]));
    cases
}

/// An accepted file of this length with a short listing: some numbers of eight bytes, and a name that fills it up.
fn numbers(length: usize) -> Vec<u8> {
    let objects = length / 8 - 4;
    let text = filled(length, |name| {
        format!(
            "pair\t1\t1\nstr\t{name}\ntype\t1\t0\t-\t{objects}\t1\nnew\t10\t1\n{}",
            "val\t-7\n".repeat(objects),
        )
    });
    built(&text)
}

/// An accepted file of this length, every number of which has nine bytes: some values, and a name that fills it up.
fn padding(length: usize) -> Vec<u8> {
    let objects = length / 9 - 20;
    let spelt = |name: usize| {
        let values = "7 ".repeat(objects);
        let name = "x".repeat(name);
        let text = format!(
            "1 ={:08X} '{name} 1 1 0 {objects:X} 0 1 0 B 1 ^ [ {values}]",
            name.len()
        );
        Parts::of(&text).nine()
    };
    let least = spelt(1).len();
    spelt(1 + length - least)
}

/// A file of one string whose listing has this length, an even one: two digits for each byte, and 14 bytes beside them.
fn string(listing: usize) -> Vec<u8> {
    let bytes = (listing - 14) / 2;
    let end = u32::try_from(bytes).expect("a short string");
    let mut file = vec![1];
    file.extend(end.to_be_bytes());
    file.resize(file.len() + bytes, b'x');
    file.push(0);
    file
}
