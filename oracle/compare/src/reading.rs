//! The calls read plainly: what each answers, and what it leaves in every store, by `docs/REFERENCE.md`. It is written with no care for time, and
//! has nothing of boomphf, of the oracle's mixer or of the proved code, bounds included.

pub mod bounds;
pub mod image;
pub mod index;
pub mod set;

use bounds::SAMPLE_WORDS;

/// The result of a call on flat stores that answers none, and that of one that is refused.
pub const NONE: u64 = u64::MAX;

pub fn refused(number: u64) -> u64 {
    NONE - number
}

/// Words of a level or a set.
pub fn words_for(bits: u64) -> usize {
    ((bits + 63) / 64) as usize
}

/// Samples of a level.
pub fn samples_for(bits: u64) -> usize {
    (words_for(bits) + SAMPLE_WORDS - 1) / SAMPLE_WORDS
}

/// Bit b is bit b mod 64 of word b / 64.
pub fn has(words: &[u64], bit: u64) -> bool {
    words[(bit / 64) as usize] >> (bit % 64) & 1 == 1
}

pub fn packed(bits: &[bool]) -> Vec<u64> {
    let mut words = vec![0; words_for(bits.len() as u64)];
    for (bit, set) in bits.iter().enumerate() {
        words[bit / 64] |= u64::from(*set) << (bit % 64);
    }
    words
}

/// The content and then 0, in so many places.
fn filled(content: Vec<u64>, places: usize) -> Vec<u64> {
    let mut store = content;
    assert!(store.len() <= places);
    store.resize(places, 0);
    store
}

/// The store with the content at its front.
fn fronted<T: Clone>(content: &[T], store: &[T]) -> Vec<T> {
    [content, &store[content.len()..]].concat()
}
