//! The calls on sets: by the reading always, and by boomphf's `BitVector` in the domain where the two agree.

use crate::bench::Bench;
use crate::calls::{Act, Sets};
use crate::lent::{same_number, same_store, Compared};
use crate::reading::bounds::MAX_BITS;
use crate::reading::words_for;
use oracle::bitvector::BitVector;
use oracle::judge::words;

/// Every call on sets of about this capacity.
pub fn case(bench: &mut Bench, capacity: u64) -> Compared {
    let given = sets(bench, capacity);
    let bits = [
        bench.draw.below(capacity.max(1)),
        capacity.saturating_sub(1),
        capacity,
        bench.draw.next(),
    ];
    let bit = bench.one_of(&bits);
    for act in [
        Act::Empty,
        Act::Ones,
        Act::IsEmpty,
        Act::Len,
        Act::Contains(bit),
        Act::Insert(bit),
        Act::Remove(bit),
        Act::InsertAll,
        Act::EqLeft(bit),
        Act::Members,
    ] {
        let (result, words_after, out) = bench.set(act, &given)?;
        if result <= MAX_BITS {
            judged(act, &given, result, &words_after, &out)?;
        }
    }
    Ok(())
}

/// Two sets in stores as long as needed, longer or one word short, mostly of one capacity and alike, at times with a bit past the capacity; and a
/// store for members with any number of places.
fn sets(bench: &mut Bench, capacity: u64) -> Sets {
    let words = drawn(bench, capacity);
    let other_capacity = bench.one_of(&[capacity, capacity, capacity.wrapping_add(1), capacity / 2]);
    let mut other = match bench.draw.below(2) {
        0 => words.clone(),
        _ => drawn(bench, other_capacity),
    };
    other.resize(words_for(other_capacity.min(MAX_BITS)) + 1, 0);
    if let Some(word) = other.first_mut() {
        *word ^= bench.one_of(&[0, 0, 1]);
    }
    let members: u32 = words.iter().map(|word| word.count_ones()).sum();
    let out = bench.one_of(&[members, members + 2, members.saturating_sub(1)]) as usize;
    Sets {
        capacity,
        words,
        other_capacity,
        other,
        out: bench.anything(out),
    }
}

fn drawn(bench: &mut Bench, capacity: u64) -> Vec<u64> {
    let needed = words_for(capacity.min(MAX_BITS));
    let sparse = bench.draw.below(4);
    let mut words: Vec<u64> = (0..needed)
        .map(|_| match sparse {
            0 => 0,
            1 => 1 << bench.draw.below(64),
            2 if bench.draw.below(12) > 0 => 0,
            _ => bench.draw.next(),
        })
        .collect();
    if let (Some(last), 1..) = (words.last_mut(), capacity % 64) {
        if bench.draw.below(8) > 0 {
            *last &= (1 << (capacity % 64)) - 1;
        }
    }
    match bench.draw.below(8) {
        0 => words.truncate(needed.saturating_sub(1)),
        1 | 2 => {
            let past = 1 + bench.draw.below(3) as usize;
            words.extend(bench.anything(past));
        }
        _ => {}
    }
    words
}

/// The Rust's answer is the same, and so are its words and members; but for `ones` of a multiple of 64 (D7).
fn judged(act: Act, given: &Sets, result: u64, words_after: &[u64], out: &[u64]) -> Compared {
    let needed = words_for(given.capacity);
    let mut set = match act {
        Act::Ones if given.capacity % 64 == 0 => return Ok(()),
        Act::Ones => BitVector::ones(given.capacity),
        Act::Empty => BitVector::new(given.capacity),
        _ => vector(given.capacity, &given.words),
    };
    let answer = match act {
        Act::Empty | Act::Ones => 0,
        Act::IsEmpty => set.is_empty().into(),
        Act::Len | Act::Members => set.len(),
        Act::Contains(bit) => set.contains(bit).into(),
        Act::Insert(bit) => set.insert(bit).into(),
        Act::Remove(bit) => set.remove(bit).into(),
        Act::InsertAll => set.insert_all(&vector(given.other_capacity, &given.other)).into(),
        Act::EqLeft(bit) => set.eq_left(&vector(given.other_capacity, &given.other), bit).into(),
    };
    same_number("result by the Rust", answer, result)?;
    same_store("words by the Rust", &words(&set), &words_after[..needed])?;
    if let Act::Members = act {
        let members: Vec<u64> = set.iter().collect();
        same_store("members by the Rust", &members, &out[..members.len()])?;
    }
    Ok(())
}

fn vector(capacity: u64, words: &[u64]) -> BitVector {
    let mut set = BitVector::new(capacity);
    for (word, content) in (0..).zip(&words[..words_for(capacity)]) {
        for bit in (0..64).filter(|bit| content >> bit & 1 == 1) {
            set.insert(64 * word + bit);
        }
    }
    set
}
