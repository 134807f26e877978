//! What the Rust does at the smallest input that shows each difference of `docs/DIFFERENCES.md`.

use oracle::bitvector::BitVector;
use oracle::boomphf::{hash_with_seed, Mphf};
use oracle::bounds::LEVEL_LIMIT;
use oracle::plain::mix;
use std::panic::catch_unwind;

/// D1
#[test]
fn gamma_above_16_is_taken() {
    assert_eq!(Mphf::new(16.000000000000004, &[7_u64]).hash(&7), 0);
}

/// D2
#[test]
fn gamma_not_above_1_01_panics() {
    for gamma in [1.01, f64::NAN] {
        assert!(catch_unwind(|| Mphf::new(gamma, &[7_u64])).is_err());
    }
}

/// D3
#[test]
fn an_id_given_twice_panics() {
    assert!(catch_unwind(|| Mphf::new(2.0, &[7_u64, 7])).is_err());
}

/// D5
#[test]
fn hash_panics_for_none() {
    let none: [u64; 0] = [];
    assert!(catch_unwind(|| Mphf::new(2.0, &none).hash(&7)).is_err());
    assert_eq!(Mphf::new(2.0, &none).try_hash(&7), None);
}

/// D6
#[test]
fn a_bit_past_the_capacity_is_taken() {
    let mut set = BitVector::new(255);
    assert!(set.insert(255));
    assert!(set.contains(255));
    assert!(set.remove(255));
}

/// D7
#[test]
fn ones_of_a_multiple_of_64_holds_64_too_many() {
    assert_eq!(BitVector::ones(0).len(), 64);
    assert_eq!(BitVector::ones(64).len(), 128);
    assert_eq!(BitVector::ones(65).len(), 65);
}

/// D8
#[test]
fn insert_all_asks_for_equal_word_counts_alone() {
    let mut one = BitVector::new(1);
    let mut two = BitVector::new(2);
    two.insert(1);
    assert!(one.insert_all(&two));
    assert!(one.contains(1));
    assert!(catch_unwind(|| BitVector::new(1).insert_all(&BitVector::new(65))).is_err());
}

/// D12
#[test]
fn a_bit_past_the_capacity_is_counted() {
    let mut set = BitVector::new(255);
    set.insert(255);
    assert_eq!(set.len(), 1);
    assert!(!set.is_empty());
}

/// D13
#[test]
fn eq_left_goes_past_the_capacities() {
    assert!(BitVector::new(1).eq_left(&BitVector::new(2), 2));
}

/// D11 is of builds with overflow checks: `trap.rs`. This is the build that is compared.
#[test]
fn a_release_build_shifts_modulo_64() {
    for level in 0..=LEVEL_LIMIT {
        assert_eq!(hash_with_seed(level, &0_u64), mix(0, 1 << (2 * level % 64)));
    }
    assert_eq!(hash_with_seed(32, &0_u64), hash_with_seed(0, &0_u64));
}
