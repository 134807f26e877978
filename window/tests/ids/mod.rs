//! The ids that tests build indexes of.

/// So many different ids: multiples of an odd number.
pub fn ids(count: u64) -> Vec<u64> {
    (1..=count).map(|i| i.wrapping_mul(0x9E37_79B9_7F4A_7C15)).collect()
}
