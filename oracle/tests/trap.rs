//! What the Rust does where overflow is checked, as in a debug build: it is run by `--profile checked` alone.

use oracle::boomphf::hash_with_seed;
use oracle::bounds::LEVEL_LIMIT;
use std::panic::catch_unwind;

/// D11
#[test]
fn from_level_32_on_the_shift_traps() {
    for level in 0..=LEVEL_LIMIT {
        assert_eq!(catch_unwind(|| hash_with_seed(level, &0_u64)).is_ok(), level < 32);
    }
}
