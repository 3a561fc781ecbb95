//! What several tests need.
#![allow(dead_code)]

use second::bounds::{FILE, OBJECTS, TABLE};
use second::generate::notation;
use second::Refusal;

/// Bytes in the short notation.
pub fn bytes(text: &str) -> Vec<u8> {
    notation::bytes(text)
}

pub fn check(file: &[u8]) -> Result<(), Refusal> {
    second::check(file, &mut vec![0; TABLE])
}

/// The refusal number of a file, 0 for none.
pub fn number(file: &[u8]) -> u8 {
    check(file).err().map_or(0, |refusal| refusal.number)
}

pub fn listing(file: &[u8]) -> Result<Vec<u8>, u8> {
    growing(8 << 20, |out| {
        second::listing(file, &mut vec![0; TABLE], out)
    })
}

pub fn build(text: &[u8]) -> Result<Vec<u8>, u8> {
    growing(FILE, |out| second::build(text, &mut vec![0; TABLE], out))
}

/// Lends little room first, and much only where that is not enough: most
/// outputs are small, and clearing megabytes for each would take its time.
fn growing(much: usize, call: impl Fn(&mut [u8]) -> Result<usize, Refusal>) -> Result<Vec<u8>, u8> {
    let mut out = vec![0; 1 << 14];
    let mut answer = call(&mut out);
    if answer.is_err_and(|refusal| refusal.number == 19) {
        out = vec![0; much];
        answer = call(&mut out);
    }
    let length = answer.map_err(|refusal| refusal.number)?;
    out.truncate(length);
    Ok(out)
}

pub fn count_values(file: &[u8], name: &[u8], field: &[u8], kind: u64) -> Result<usize, u8> {
    second::count_values(file, name, field, kind, &mut vec![0; TABLE])
        .map_err(|refusal| refusal.number)
}

/// A field's values: how many is asked first, and just that much room is lent.
/// Both calls have to say the same, a refusal too.
pub fn values_of(file: &[u8], name: &[u8], field: &[u8], kind: u64) -> Result<Vec<i64>, u8> {
    let count = count_values(file, name, field, kind);
    let mut out = vec![0; count.unwrap_or(OBJECTS as usize)];
    let filled = second::fill_values(file, name, field, kind, &mut vec![0; TABLE], &mut out);
    assert_eq!(filled.map_err(|refusal| refusal.number), count);
    count.map(|_| out)
}

pub fn objects(file: &[u8], name: &[u8]) -> Result<usize, u8> {
    second::objects(file, name, &mut vec![0; TABLE]).map_err(|refusal| refusal.number)
}
