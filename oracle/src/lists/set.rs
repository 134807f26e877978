//! Acts on sets, by boomphf's `BitVector`, in the domain where it and the proved calls agree. A set is written as the words of its
//! capacity. Yes is 1, no is 0, done is 0.

use super::{draw, words};
use crate::bitvector::BitVector;
use crate::draw::Draw;
use crate::list::List;

/// Around multiples of 64.
const CAPACITIES: [u64; 14] = [0, 1, 2, 63, 64, 65, 127, 128, 129, 191, 192, 193, 255, 256];

/// Of sets with few members: around the ends of eight words, which may be passed over at once.
const SPARSE: [u64; 9] = [448, 511, 512, 513, 576, 1023, 1024, 1025, 1600];

/// `capacity, done, words before, words after`
pub fn new() -> List {
    made(&CAPACITIES, 4, BitVector::new)
}

/// `capacity, done, words before, words after`: not for multiples of 64, where the Rust's words are too many (D7)
pub fn ones() -> List {
    let capacities: Vec<u64> = CAPACITIES.into_iter().filter(|capacity| capacity % 64 != 0).collect();
    made(&capacities, 5, BitVector::ones)
}

/// `capacity, answer, words`
pub fn is_empty() -> List {
    each_set(6, |list, _, set| {
        list.case(&[vec![set.capacity(), set.is_empty().into()], words(&set)].concat())
    })
}

/// `capacity, answer, words`
pub fn len() -> List {
    each_set(7, |list, _, set| {
        list.case(&[vec![set.capacity(), set.len()], words(&set)].concat())
    })
}

/// `capacity, bit, answer, words`
pub fn contains() -> List {
    each_set(8, |list, draw, set| {
        for _ in 0..set.capacity().min(4) {
            let bit = draw.below(set.capacity());
            list.case(&[vec![set.capacity(), bit, set.contains(bit).into()], words(&set)].concat());
        }
    })
}

/// `capacity, bit, answer, words before, words after`
pub fn insert() -> List {
    at_bits(9, |set, bit| set.insert(bit))
}

/// `capacity, bit, answer, words before, words after`
pub fn remove() -> List {
    at_bits(10, |set, bit| set.remove(bit))
}

/// `capacity, answer, words before, the other's words, words after`
pub fn insert_all() -> List {
    each_set(11, |list, draw, mut set| {
        let other = match draw.below(2) {
            0 => nearly(draw, &set, set.capacity()),
            _ => drawn(draw, set.capacity()),
        };
        let before = words(&set);
        let answer = set.insert_all(&other);
        let asked = vec![set.capacity(), answer.into()];
        list.case(&[asked, before, words(&other), words(&set)].concat());
    })
}

/// `capacity, the other's capacity, bit, answer, words, the other's words`
pub fn eq_left() -> List {
    each_set(12, |list, draw, set| {
        let other_capacity = CAPACITIES[draw.below(14) as usize];
        let other = nearly(draw, &set, other_capacity);
        let bit = draw.below(set.capacity().min(other_capacity) + 1);
        let answer = set.eq_left(&other, bit);
        let asked = vec![set.capacity(), other_capacity, bit, answer.into()];
        list.case(&[asked, words(&set), words(&other)].concat());
    })
}

/// `capacity, how many, words, members`
pub fn members() -> List {
    let listed = |set: &BitVector| [vec![set.capacity(), set.len()], words(set), set.iter().collect()].concat();
    let mut list = each_set(13, |list, _, set| list.case(&listed(&set)));
    let mut draw = draw(19);
    for capacity in SPARSE {
        for members in 0..8 {
            let mut set = BitVector::new(capacity);
            for _ in 0..members {
                set.insert(draw.below(capacity));
            }
            list.case(&listed(&set));
        }
    }
    list
}

/// A set made anew, over words of a store that held anything.
fn made(capacities: &[u64], number: u64, make: impl Fn(u64) -> BitVector) -> List {
    let mut draw = draw(number);
    let mut list = List::default();
    for capacity in capacities {
        let after = words(&make(*capacity));
        let before = after.iter().map(|_| draw.next()).collect();
        list.case(&[vec![*capacity, 0], before, after].concat());
    }
    list
}

/// A list of cases made of sets of every capacity, drawn from a seed of the list's own.
fn each_set(number: u64, mut cases: impl FnMut(&mut List, &mut Draw, BitVector)) -> List {
    let mut draw = draw(number);
    let mut list = List::default();
    for capacity in CAPACITIES {
        for _ in 0..16 {
            let set = drawn(&mut draw, capacity);
            cases(&mut list, &mut draw, set);
        }
    }
    list
}

/// An act that may change the set, at four bits of each: `capacity, bit, answer, words before, words after`.
fn at_bits(number: u64, mut act: impl FnMut(&mut BitVector, u64) -> bool) -> List {
    each_set(number, |list, draw, mut set| {
        for _ in 0..set.capacity().min(4) {
            let bit = draw.below(set.capacity());
            let before = words(&set);
            let answer = act(&mut set, bit);
            let asked = vec![set.capacity(), bit, answer.into()];
            list.case(&[asked, before, words(&set)].concat());
        }
    })
}

/// A set that has about none, half or all of the bits.
fn drawn(draw: &mut Draw, capacity: u64) -> BitVector {
    let mut set = BitVector::new(capacity);
    let often = [0, 1, 8, 15, 16][draw.below(5) as usize];
    for bit in 0..capacity {
        if draw.below(16) < often {
            set.insert(bit);
        }
    }
    set
}

/// A set of another capacity with the same bits, as far as it goes, but for one at most.
fn nearly(draw: &mut Draw, set: &BitVector, capacity: u64) -> BitVector {
    let mut other = BitVector::new(capacity);
    for bit in set.iter().take_while(|bit| *bit < capacity) {
        other.insert(bit);
    }
    if capacity > 0 {
        let bit = draw.below(capacity);
        if draw.below(2) == 0 {
            other.insert(bit);
        } else {
            other.remove(bit);
        }
    }
    other
}
