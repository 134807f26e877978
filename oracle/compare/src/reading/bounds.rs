//! The bounds as the reading has them, each once, and what follows from them.

/// Gamma is above this,
pub const MIN_GAMMA: f64 = 1.01;

/// and at most this.
pub const MAX_GAMMA: f64 = 16.0;

pub const MAX_IDS: u64 = 1_048_576;

/// Of a level.
pub const MIN_BITS: u64 = 255;

/// Of a level, and of a set.
pub const MAX_BITS: u64 = 16_777_216;

/// How many levels a build runs at most.
pub const LEVEL_LIMIT: usize = 100;

/// How many sizes the list in a head has.
pub const HEAD_SIZES: usize = 100;

/// The most levels that a head may name.
pub const MAX_LEVELS: usize = 100;

/// How many words a sample stands for,
pub const SAMPLE_WORDS: usize = 8;

/// and how many bits.
pub const SAMPLE_BITS: usize = 64 * SAMPLE_WORDS;

/// The only kind of hash that is known: the plain mixer.
pub const PLAIN: u64 = 0;

/// Where a head as numbers has its kind,
pub const KIND: usize = 0;

/// its id count,
pub const IDS: usize = 1;

/// its level count,
pub const LEVELS: usize = 2;

/// and its sizes.
pub const SIZES: usize = 3;

/// How many numbers a head is.
pub const HEAD: usize = SIZES + HEAD_SIZES;

/// What `out` of a build needs: the value that a refusal carries, and the head.
pub const OUT: usize = 1 + HEAD;

/// What `place` of a lookup needs: level and position.
pub const PLACE: usize = 2;

/// A block of an image in bytes,
pub const BLOCK_BYTES: usize = 512;

/// in words,
pub const BLOCK_WORDS: usize = 64;

/// and in words that carry content: all but its number, which comes first, and its check, which comes last.
pub const BLOCK_CONTENT: usize = 62;

/// The fewest bytes of an image.
pub const MIN_IMAGE: usize = 1_024;

/// The last number of the table of refusals.
pub const LAST_REFUSAL: u64 = 16;
