//! The bounds of what the lists are drawn from and the judge runs, each once. `docs/REFERENCE.md` has them with their reasons.

/// The f64 just above 1.01, the least gamma,
pub const LEAST_GAMMA: f64 = 1.0100000000000002;

/// and the largest.
pub const MAX_GAMMA: f64 = 16.0;

/// How many ids an index can have.
pub const MAX_IDS: u64 = 1_048_576;

/// The fewest bits of a level,
pub const MIN_BITS: u64 = 255;

/// and the most.
pub const MAX_BITS: u64 = 16_777_216;

/// How many levels a build runs at most.
pub const LEVEL_LIMIT: u64 = 100;

/// How many bits a sample stands for.
pub const SAMPLE_BITS: u64 = 512;
