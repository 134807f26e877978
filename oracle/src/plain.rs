//! The plain mixer of `docs/REFERENCE.md`, by which the oracle's `hash_with_seed` hashes.

use std::hash::Hasher;

/// The SplitMix64 step.
pub fn mix(id: u64, seed: u64) -> u64 {
    let z = id.wrapping_add(seed).wrapping_add(0x9E37_79B9_7F4A_7C15);
    let z = (z ^ (z >> 30)).wrapping_mul(0xBF58_476D_1CE4_E5B9);
    let z = (z ^ (z >> 27)).wrapping_mul(0x94D0_49BB_1331_11EB);
    z ^ (z >> 31)
}

/// The mixer in the place of `wyhash::WyHash`: it takes one u64.
pub struct PlainMixer {
    seed: u64,
    id: Option<u64>,
}

impl PlainMixer {
    pub fn with_seed(seed: u64) -> Self {
        PlainMixer { seed, id: None }
    }
}

impl Hasher for PlainMixer {
    fn write(&mut self, _: &[u8]) {
        unreachable!("ids are u64");
    }

    fn write_u64(&mut self, id: u64) {
        assert!(self.id.replace(id).is_none(), "one id is hashed at a time");
    }

    fn finish(&self) -> u64 {
        mix(self.id.expect("an id is hashed"), self.seed)
    }
}
