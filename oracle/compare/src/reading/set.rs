//! The calls on sets, as acts on a plain set of numbers: which numbers below the capacity it has.

use super::bounds::MAX_BITS;
use super::*;

/// The set in the words, or nothing where refusal 10 is due.
fn plain(capacity: u64, words: &[u64]) -> Option<Vec<bool>> {
    let needed = room(capacity, words)?;
    let stray = (capacity..64 * needed as u64).any(|bit| has(words, bit));
    (!stray).then(|| (0..capacity).map(|bit| has(words, bit)).collect())
}

/// How many words the capacity needs, or nothing where it is above the bound or the words are too few.
fn room(capacity: u64, words: &[u64]) -> Option<usize> {
    if capacity > MAX_BITS {
        return None;
    }
    Some(words_for(capacity)).filter(|needed| *needed <= words.len())
}

fn made(capacity: u64, words: &[u64], content: bool) -> (u64, Vec<u64>) {
    match room(capacity, words) {
        Some(_) => (0, fronted(&packed(&vec![content; capacity as usize]), words)),
        None => (refused(10), words.to_vec()),
    }
}

pub fn empty(capacity: u64, words: &[u64]) -> (u64, Vec<u64>) {
    made(capacity, words, false)
}

pub fn ones(capacity: u64, words: &[u64]) -> (u64, Vec<u64>) {
    made(capacity, words, true)
}

pub fn is_empty(capacity: u64, words: &[u64]) -> u64 {
    plain(capacity, words).map_or(refused(10), |set| (!set.contains(&true)).into())
}

pub fn len(capacity: u64, words: &[u64]) -> u64 {
    plain(capacity, words).map_or(refused(10), |set| numbers(&set).len() as u64)
}

pub fn contains(capacity: u64, words: &[u64], bit: u64) -> u64 {
    match plain(capacity, words) {
        None => refused(10),
        Some(_) if bit >= capacity => refused(9),
        Some(set) => set[bit as usize].into(),
    }
}

/// Insert, or remove: the bit is then in the set, or not. Whether that is a change.
fn put(capacity: u64, words: &[u64], bit: u64, content: bool) -> (u64, Vec<u64>) {
    match contains(capacity, words, bit) {
        had @ (0 | 1) => {
            let mut set = plain(capacity, words).expect("it holds a bit or not");
            set[bit as usize] = content;
            (u64::from((had == 1) != content), fronted(&packed(&set), words))
        }
        refusal => (refusal, words.to_vec()),
    }
}

pub fn insert(capacity: u64, words: &[u64], bit: u64) -> (u64, Vec<u64>) {
    put(capacity, words, bit, true)
}

pub fn remove(capacity: u64, words: &[u64], bit: u64) -> (u64, Vec<u64>) {
    put(capacity, words, bit, false)
}

pub fn insert_all(capacity: u64, words: &[u64], other_capacity: u64, other: &[u64]) -> (u64, Vec<u64>) {
    match (plain(capacity, words), plain(other_capacity, other)) {
        (Some(set), Some(other)) if capacity == other_capacity => {
            let all: Vec<bool> = set.iter().zip(other).map(|(one, two)| *one || two).collect();
            ((all != set).into(), fronted(&packed(&all), words))
        }
        _ => (refused(10), words.to_vec()),
    }
}

pub fn eq_left(capacity: u64, words: &[u64], other_capacity: u64, other: &[u64], bit: u64) -> u64 {
    match (plain(capacity, words), plain(other_capacity, other)) {
        (Some(_), Some(_)) if bit > capacity || bit > other_capacity => refused(9),
        (Some(set), Some(other)) => (set[..bit as usize] == other[..bit as usize]).into(),
        _ => refused(10),
    }
}

pub fn members(capacity: u64, words: &[u64], out: &[u64]) -> (u64, Vec<u64>) {
    match plain(capacity, words).map(|set| numbers(&set)) {
        None => (refused(10), out.to_vec()),
        Some(members) if out.len() < members.len() => (refused(11), out.to_vec()),
        Some(members) => (members.len() as u64, fronted(&members, out)),
    }
}

fn numbers(set: &[bool]) -> Vec<u64> {
    (0..).zip(set).filter(|(_, set)| **set).map(|(bit, _)| bit).collect()
}
