//! How a program is given its input.

use std::io::{self, ErrorKind, Write};
use std::thread;
use std::time::Duration;

use second::generate::random::Random;

/// The most pauses in one input: each takes a millisecond.
const PAUSES: u64 = 12;

#[derive(Clone, Copy, Debug, PartialEq, Eq)]
pub enum Feed {
    /// All at once.
    Whole,
    /// In pieces with pauses between them, of sizes that follow from the seed.
    Pieces(u64),
}

impl Feed {
    /// Where the input is cut: rising, from 0 to its length.
    pub fn cuts(self, length: usize) -> Vec<usize> {
        let mut cuts = vec![0, length];
        if let Feed::Pieces(seed) = self {
            let mut random = Random::new(seed);
            cuts.extend((0..PAUSES).map(|_| random.index(length + 1)));
            // The first byte alone, and the last one.
            cuts.extend([1.min(length), length.saturating_sub(1)]);
        }
        cuts.sort_unstable();
        cuts.dedup();
        cuts
    }

    /// Writes the input and closes the pipe. A program that has seen enough may be gone before all is written.
    pub fn write(self, mut pipe: impl Write, input: &[u8]) -> io::Result<()> {
        for cut in self.cuts(input.len()).windows(2) {
            match pipe.write_all(&input[cut[0]..cut[1]]) {
                Err(error) if error.kind() == ErrorKind::BrokenPipe => return Ok(()),
                outcome => outcome?,
            }
            if self != Feed::Whole {
                thread::sleep(Duration::from_millis(1));
            }
        }
        Ok(())
    }
}
