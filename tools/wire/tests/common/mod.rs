//! What several tests need.

#![allow(dead_code)]

use wire::engine::Engine;
use wire::format::layout::Type;

/// Gives back stored bytes, whatever goes in.
pub struct Replay(pub Vec<u8>);

impl Engine for Replay {
    fn run(&mut self, _: &[u8], output: &mut [u8]) -> usize {
        let len = self.0.len().min(output.len());
        output[..len].copy_from_slice(&self.0[..len]);
        len
    }
}

/// A word that the type holds: an end of its range, or anything in between.
pub fn a_word(of: Type, rng: &mut oracle::prng::Prng) -> u64 {
    let (least, most) = of.range();
    let any = rng.range(least, most);
    let word = rng.one_of([least, most, any]);
    if of.holds(word) {
        word
    } else {
        least
    }
}
