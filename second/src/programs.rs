//! The paper's two small programs: standard input to standard output.

use std::io::{Read, Write};

use crate::bounds::{PROGRAM_INPUT, PROGRAM_OUTPUT, TABLE};
use crate::calls;
use crate::refusal::{Refusal, LIMIT};

/// A call from bytes to bytes.
type Call = fn(&[u8], &mut [u32], &mut [u8]) -> Result<usize, Refusal>;

/// What the print program writes for this input, and whether it accepted it.
pub fn print(input: &[u8]) -> (bool, Vec<u8>) {
    answer(input, calls::listing)
}

/// What the build program writes for this input, and whether it accepted it.
pub fn build(input: &[u8]) -> (bool, Vec<u8>) {
    answer(input, calls::build)
}

/// Runs one of the programs between two streams; answers whether it accepted.
pub fn run(
    program: fn(&[u8]) -> (bool, Vec<u8>),
    input: impl Read,
    mut output: impl Write,
) -> std::io::Result<bool> {
    let mut bytes = Vec::new();
    // One byte more than is taken is enough to know that there are too many.
    input
        .take(PROGRAM_INPUT as u64 + 1)
        .read_to_end(&mut bytes)?;
    let (accepted, text) = program(&bytes);
    output.write_all(&text)?;
    output.flush()?;
    Ok(accepted)
}

fn answer(input: &[u8], call: Call) -> (bool, Vec<u8>) {
    let mut out = vec![0; PROGRAM_OUTPUT];
    let outcome = if input.len() > PROGRAM_INPUT {
        Err(Refusal::of_call(LIMIT))
    } else {
        call(input, &mut vec![0; TABLE], &mut out)
    };
    match outcome {
        Ok(length) => {
            out.truncate(length);
            (true, out)
        }
        Err(refusal) => (false, format!("refused\t{}\n", refusal.number).into_bytes()),
    }
}
