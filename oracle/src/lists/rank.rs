//! Samples and ranks of the set bits, by boomphf's `compute_ranks` and `get_rank`, in levels of builds and in drawn ones.

use super::{draw, words};
use crate::bitvector::BitVector;
use crate::boomphf::Mphf;
use crate::bounds::{MAX_GAMMA, MIN_BITS, SAMPLE_BITS};
use crate::draw::Draw;
use crate::ids::random;
use crate::judge::of_levels;
use crate::list::List;

/// `set bits in earlier levels, set bits with this level, how many words, words, samples`
pub fn samples() -> List {
    let mut list = List::default();
    for index in indexes(&mut draw(15)) {
        let mut before = 0;
        for (level, samples) in index.bitvecs.iter() {
            let after = before + level.len();
            let asked = vec![before, after, level.num_words() as u64];
            list.case(&[asked, words(level), samples.to_vec()].concat());
            before = after;
        }
    }
    list
}

/// `position, rank, how many words, words, samples`
pub fn ranks() -> List {
    let mut draw = draw(16);
    let mut list = List::default();
    for index in indexes(&mut draw) {
        for (number, (level, samples)) in index.bitvecs.iter().enumerate() {
            for position in positions(&mut draw, level.capacity()) {
                let asked = vec![position, index.get_rank(position, number), level.num_words() as u64];
                list.case(&[asked, words(level), samples.to_vec()].concat());
            }
        }
    }
    list
}

/// Indexes over drawn ids, and others whose levels are drawn too.
fn indexes(draw: &mut Draw) -> Vec<Mphf<u64>> {
    let mut indexes = Vec::new();
    for (ids, gamma) in [
        (0, 2.0),
        (1, 2.0),
        (100, MAX_GAMMA),
        (300, 4.0),
        (500, 1.1),
        (1000, 1.5),
        (1000, 2.0),
    ] {
        indexes.push(Mphf::new(gamma, &random(draw, ids)));
    }
    for _ in 0..16 {
        indexes.push(of_levels((0..3).map(|_| level(draw)).collect()));
    }
    indexes
}

/// A level with none, few, half, most or all of the bits.
fn level(draw: &mut Draw) -> BitVector {
    let mut level = BitVector::new(MIN_BITS + draw.below(2000));
    let often = [0, 1, 8, 15, 16][draw.below(5) as usize];
    for bit in 0..level.capacity() {
        if draw.below(16) < often {
            level.insert(bit);
        }
    }
    level
}

/// Positions around the ends of the first words and samples, and others.
fn positions(draw: &mut Draw, size: u64) -> Vec<u64> {
    let ends = [
        0,
        1,
        63,
        64,
        65,
        SAMPLE_BITS - 1,
        SAMPLE_BITS,
        SAMPLE_BITS + 1,
        size - 1,
    ];
    let drawn = (0..6).map(|_| draw.below(size));
    ends.into_iter()
        .filter(|position| *position < size)
        .chain(drawn)
        .collect()
}
