//! Indexes set by hand, so that rows come from late levels: no ids are known whose index has so many.

use crate::bitvector::BitVector;
use crate::boomphf::{hashmod, Mphf};
use crate::draw::Draw;
use crate::judge;

/// The first level whose seed word an earlier one has.
pub const FIRST_AGAIN: u64 = 32;

/// An index with levels of these sizes, and its ids: `each` of them have their bit at each level from 32 on, in the order of the levels. No other bit is set.
pub fn index(draw: &mut Draw, sizes: &[u64], each: u64) -> (Mphf<u64>, Vec<u64>) {
    let mut levels: Vec<BitVector> = sizes.iter().map(|size| BitVector::new(*size)).collect();
    let mut ids = Vec::new();
    for level in FIRST_AGAIN..sizes.len() as u64 {
        for _ in 0..each {
            let id = unseen(draw, &levels);
            let bits = &mut levels[level as usize];
            bits.insert(hashmod(level, &id, bits.capacity()));
            ids.push(id);
        }
    }
    (judge::of_levels(levels), ids)
}

/// An id that has its bit in none of the levels.
fn unseen(draw: &mut Draw, levels: &[BitVector]) -> u64 {
    loop {
        let id = draw.next();
        if judge::found_in(levels.iter(), id).is_none() {
            return id;
        }
    }
}
