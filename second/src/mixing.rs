//! A quick way to find names by their bytes.
//!
//! The maps of the standard library mix bytes one by one, to withstand anyone
//! who chooses names that come to the same number. Names can be long, so here
//! eight bytes are mixed at once, and four times eight side by side. Where the
//! mixing begins is chance, as it is in the standard library.

use std::collections::hash_map::RandomState;
use std::collections::HashMap;
use std::hash::{BuildHasher, Hasher};

/// A map that is quick for names.
pub type Mixed<K, V> = HashMap<K, V, Mixing>;

/// Where the mixing begins.
pub struct Mixing {
    seed: u64,
}

impl Default for Mixing {
    fn default() -> Self {
        let seed = RandomState::new().build_hasher().finish();
        Mixing { seed }
    }
}

impl BuildHasher for Mixing {
    type Hasher = Mixer;

    #[inline]
    fn build_hasher(&self) -> Mixer {
        Mixer { state: self.seed }
    }
}

pub struct Mixer {
    state: u64,
}

impl Hasher for Mixer {
    #[inline]
    fn write(&mut self, bytes: &[u8]) {
        let (blocks, rest) = bytes.as_chunks::<32>();
        if !blocks.is_empty() {
            self.state = mixed_blocks(self.state, blocks);
        }
        let (words, rest) = rest.as_chunks::<8>();
        for &word in words {
            self.write_u64(u64::from_le_bytes(word));
        }
        let mut last = [0; 8];
        last[..rest.len()].copy_from_slice(rest);
        self.write_u64(u64::from_le_bytes(last));
    }

    #[inline]
    fn write_u64(&mut self, word: u64) {
        self.state = mixed(self.state, word);
    }

    #[inline]
    fn write_u32(&mut self, word: u32) {
        self.write_u64(u64::from(word));
    }

    #[inline]
    fn write_usize(&mut self, word: usize) {
        self.write_u64(word as u64);
    }

    #[inline]
    fn finish(&self) -> u64 {
        self.state
    }
}

/// Any odd number with about as many bits set as not.
const FACTOR: u64 = 0x9E37_79B9_7F4A_7C15;

/// Both halves of a product of twice the width: every bit of the word has a
/// part in every bit of the outcome.
#[inline]
fn mixed(state: u64, word: u64) -> u64 {
    let product = u128::from(state ^ word) * u128::from(FACTOR);
    (product as u64 ^ (product >> 64) as u64).wrapping_add(FACTOR)
}

/// Four words at a time, each with a state of its own, so that none has to
/// wait for another.
fn mixed_blocks(seed: u64, blocks: &[[u8; 32]]) -> u64 {
    let mut states = [1, 2, 3, 4].map(|number| mixed(seed, number));
    for block in blocks {
        let (words, _) = block.as_chunks::<8>();
        for (state, &word) in states.iter_mut().zip(words) {
            *state = mixed(*state, u64::from_le_bytes(word));
        }
    }
    states.into_iter().fold(seed, mixed)
}
