//! The bounds of the calls, each once; all else that follows from them is worked out. `docs/REFERENCE.md` has them with their reasons.

/// A gamma that serves most users: 3.44 bits an id, and the head.
pub const GAMMA: f64 = 1.7;

/// Gamma is above this (refusal 1),
pub const MIN_GAMMA: f64 = 1.01;

/// and at most this (refusal 2).
pub const MAX_GAMMA: f64 = 16.0;

/// How many ids an index can have (refusal 3).
pub const MAX_IDS: usize = 1_048_576;

/// The fewest bits of a level.
pub const MIN_BITS: u64 = 255;

/// The most bits of a level, and the largest capacity of a set.
pub const MAX_BITS: u64 = 16_777_216;

/// How many levels a build runs at most: ids that remain then are refused with 6.
pub const LEVEL_LIMIT: usize = 100;

/// How many sizes the list in a head has.
pub const HEAD_SIZES: usize = 100;

/// The most levels that a head may name (refusal 7).
pub const MAX_LEVELS: usize = 100;

/// How many words one sample stands for,
pub const SAMPLE_WORDS: usize = 8;

/// and how many bits.
pub const SAMPLE_BITS: u64 = 64 * SAMPLE_WORDS as u64;

/// How many bytes a block of an image is,
pub const BLOCK_BYTES: usize = 512;

/// and how many of its words are content: all but its number and its check.
pub const BLOCK_CONTENT: usize = 62;

/// How many bytes an image has at least (refusal 13): head, words and samples of the smallest index take two blocks.
pub const MIN_IMAGE: usize = 2 * BLOCK_BYTES;
