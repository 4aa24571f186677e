//! What the comparisons share: item tables, deep inputs, nested ellipses, pairs of a recipe and a supplier's text, other expanders, dirty
//! tables, refusals, calls of expansion; and the tables of docs/BENCHMARKS.md.

pub mod bench;
pub mod deep;
pub mod ellipses;
pub mod filing;
pub mod pairs;
pub mod scheme;
pub mod tables;

use grebetallboy::{Error, Refused};
use inputs::Random;

/// What a call says that does not accept.
pub fn refusal(error: Error) -> Refused {
    error.refused().unwrap_or_else(|| panic!("{error}"))
}

/// Ground, steps, sum and length of a call.
pub fn expanded(items: &[u32], fuel: u32, work: &mut [u32], core: &mut [u32]) -> (u32, u32, u32, u32) {
    match grebetallboy::expand(items, fuel, work, core) {
        Ok(run) => (0, run.steps, run.sum, run.length as u32),
        Err(error) => {
            let refused = refusal(error);
            (refused.ground, refused.steps, refused.sum, 0)
        }
    }
}

/// A table with one word throughout, or zeros with a few words among them.
pub fn dirty(random: &mut Random, length: usize) -> Vec<u32> {
    let word = random.below(1 << 30) as u32;
    if length == 0 || random.chance(50) {
        return vec![word; length];
    }
    let mut table = vec![0; length];
    (0..random.below(5)).for_each(|_| table[random.below(length)] = word + 1);
    table
}

/// Bytes of the same kind.
pub fn dirty_bytes(random: &mut Random, length: usize) -> Vec<u8> {
    dirty(random, length).into_iter().map(|word| word as u8).collect()
}
