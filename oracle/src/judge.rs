//! What the Rust makes of ids.

use crate::bitvector::BitVector;
use crate::boomphf::{hashmod, Context, Mphf};
use crate::bounds::{LEVEL_LIMIT, MIN_BITS};
use std::panic;

/// `Mphf::new`, or none where it panics. The panic is not written.
pub fn build(gamma: f64, ids: &[u64]) -> Option<Mphf<u64>> {
    let hook = panic::take_hook();
    panic::set_hook(Box::new(|_| {}));
    let index = panic::catch_unwind(|| Mphf::new(gamma, ids)).ok();
    panic::set_hook(hook);
    index
}

/// An index of levels that no build made, with the ranks that `compute_ranks` gives them.
pub fn of_levels(levels: Vec<BitVector>) -> Mphf<u64> {
    let mut index = Mphf::new(2.0, &[]);
    index.bitvecs = Mphf::<u64>::compute_ranks(levels);
    index
}

/// How many bits all levels have set, which is how many ids an index has.
pub fn count(index: &Mphf<u64>) -> u64 {
    index.bitvecs.iter().map(|(level, _)| level.len()).sum()
}

/// The words that hold a set.
pub fn words(set: &BitVector) -> Vec<u64> {
    (0..set.num_words()).map(|word| set.get_word(word)).collect()
}

/// The sizes of an index's levels; their words, one level after another; their samples likewise.
pub fn stores(index: &Mphf<u64>) -> [Vec<u64>; 3] {
    let levels = index.bitvecs.iter();
    [
        levels.clone().map(|(level, _)| level.capacity()).collect(),
        levels.clone().flat_map(|(level, _)| words(level)).collect(),
        levels.flat_map(|(_, samples)| samples.to_vec()).collect(),
    ]
}

/// Level and position of an id in an index.
pub fn found(index: &Mphf<u64>, id: u64) -> Option<[u64; 2]> {
    found_in(index.bitvecs.iter().map(|(level, _)| level), id)
}

/// The first level that has the id's bit, and the bit's position.
pub fn found_in<'a>(levels: impl Iterator<Item = &'a BitVector>, id: u64) -> Option<[u64; 2]> {
    (0..).zip(levels).find_map(|(level, bits)| {
        let position = hashmod(level, &id, bits.capacity());
        bits.contains(position).then_some([level, position])
    })
}

/// How many ids remain after the last level of a build, by the Rust's own steps: its panic does not tell.
pub fn remaining(gamma: f64, ids: &[u64]) -> u64 {
    let mut ids = ids.to_vec();
    for level in 0..LEVEL_LIMIT {
        let mut context = Context::new(std::cmp::max(MIN_BITS, (gamma * ids.len() as f64) as u64), level);
        ids.iter().for_each(|id| context.find_collisions_sync(id));
        ids.retain(|id| context.filter(id).is_some());
    }
    ids.len() as u64
}
