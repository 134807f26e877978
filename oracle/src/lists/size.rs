//! Sizes of levels: `gamma's bits, remaining ids, size, words`.

use crate::bitvector::BitVector;
use crate::bounds::{LEAST_GAMMA, MAX_GAMMA, MAX_IDS, MIN_BITS};
use crate::draw::Draw;
use crate::list::List;

pub fn sizes() -> List {
    let mut draw = super::draw(3);
    let mut list = List::default();
    for gamma in [LEAST_GAMMA, MAX_GAMMA, 1.5, 1.7, 2.0] {
        for ids in [0, 1, 2, 151, 170, 171, 1000, MAX_IDS - 1, MAX_IDS] {
            case(&mut list, gamma, ids);
        }
    }
    for _ in 0..400 {
        let ids = remaining(&mut draw);
        case(&mut list, random(&mut draw), ids);
        case(&mut list, tied(&mut draw, ids | 1), ids | 1);
        let near = near_whole(&mut draw, ids.max(300));
        for bits in near.to_bits() - 1..=near.to_bits() + 1 {
            case(&mut list, f64::from_bits(bits), ids.max(300));
        }
    }
    list
}

/// The size by the Rust's own expression, and its words.
fn case(list: &mut List, gamma: f64, ids: u64) {
    if (LEAST_GAMMA..=MAX_GAMMA).contains(&gamma) {
        let size = std::cmp::max(MIN_BITS, (gamma * ids as f64) as u64);
        let words = BitVector::new(size).num_words() as u64;
        list.case(&[gamma.to_bits(), ids, size, words]);
    }
}

/// A number of ids in bounds, small ones as likely as large ones.
fn remaining(draw: &mut Draw) -> u64 {
    let digits = draw.below(21);
    draw.below(MAX_IDS) >> digits
}

fn random(draw: &mut Draw) -> f64 {
    let (least, most) = (LEAST_GAMMA.to_bits(), MAX_GAMMA.to_bits());
    f64::from_bits(least + draw.below(most - least + 1))
}

/// A gamma in 1 to 2 whose exact product with an odd number is a half between two f64: the digits that rounding drops are a one and zeros.
fn tied(draw: &mut Draw, odd: u64) -> f64 {
    let digits = draw.next() >> 12;
    let product = (digits | 1 << 52) as u128 * odd as u128;
    let dropped = 128 - product.leading_zeros() - 53;
    if dropped == 0 {
        return random(draw);
    }
    let half = 1_u64 << (dropped - 1);
    let wanted = half.wrapping_mul(inverse(odd)) % (1 << dropped);
    f64::from_bits(1023 << 52 | (digits >> dropped << dropped) | wanted)
}

/// The inverse of an odd number modulo 2^64, by Newton's steps.
fn inverse(odd: u64) -> u64 {
    (0..6).fold(odd, |x, _| x.wrapping_mul(2_u64.wrapping_sub(odd.wrapping_mul(x))))
}

/// A gamma whose product with the ids is a whole number, or nearly.
fn near_whole(draw: &mut Draw, ids: u64) -> f64 {
    let whole = ids + draw.below(15 * ids) + 1;
    whole as f64 / ids as f64
}
