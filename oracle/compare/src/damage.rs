//! Heads and stores that no build made. The Rust has no answer for most of them: the calls are compared with the reading, and with the Rust where it has.

use crate::bench::{same_given, Bench};
use crate::builds::{given, judged, lookup};
use crate::kinds;
use crate::lent::Compared;
use crate::reading::bounds::*;
use crate::reading::index::{run, Given};
use crate::reading::words_for;
use oracle::bitvector::BitVector;
use oracle::judge;

/// Lookups and row lists of an index that was damaged, in one place or a few.
pub fn case(bench: &mut Bench, gamma: f64, ids: &[u64]) -> Compared {
    let run = run(gamma, ids);
    for _ in 0..12 {
        let mut given = given(&run, bench);
        for _ in 0..1 + bench.draw.below(3) {
            damage(bench, &mut given);
        }
        if bench.draw.below(12) == 0 {
            given.head.resize(bench.one_of(&[0, 1, HEAD - 1, HEAD + 1]), 0);
        }
        let before = given.clone();
        for _ in 0..8 {
            let id = if ids.is_empty() || bench.draw.below(3) == 0 {
                bench.draw.next()
            } else {
                bench.one_of(ids)
            };
            let place = bench.one_of(&[PLACE, PLACE, PLACE, PLACE + 1, PLACE - 1, 0]);
            let place = bench.anything(place);
            bench.lookup(&given, id, &place)?;
        }
        let rows = bench.one_of(&[ids.len(), ids.len() + 1, 0]);
        let marks = words_for(rows as u64);
        let (rows, marks) = (bench.anything(rows), bench.anything(marks));
        let given_ids = &ids[..bench.one_of(&[ids.len(), ids.len(), ids.len() / 2])];
        bench.rows(&given, given_ids, &rows, &marks)?;
        same_given(&given, &before)?;
    }
    Ok(())
}

/// One place of the head, the words or the samples, or a length.
fn damage(bench: &mut Bench, given: &mut Given) {
    let levels = given.head[LEVELS].clamp(1, HEAD_SIZES as u64);
    match bench.draw.below(11) {
        0 => given.head[IDS] = other(bench, given.head[IDS], MAX_IDS),
        1 => given.head[LEVELS] = other(bench, given.head[LEVELS], MAX_LEVELS as u64),
        2 | 3 => {
            let place = SIZES + bench.draw.below(levels) as usize;
            given.head[place] = other(bench, given.head[place], MAX_BITS);
        }
        4 => given.words.truncate(given.words.len().saturating_sub(1)),
        5 => given.samples.truncate(given.samples.len().saturating_sub(1)),
        6 | 7 => {
            if let Some(place) = any_place(bench, &given.samples) {
                given.samples[place] = other(bench, given.samples[place], MAX_IDS);
            }
        }
        8 => given.head[KIND] = kinds::any(bench),
        _ => {
            if let Some(place) = any_place(bench, &given.words) {
                given.words[place] ^= bench.one_of(&[1, 1 << 63, u64::MAX]) << bench.draw.below(64);
            }
        }
    }
}

/// A number next to this one or to a bound.
pub fn other(bench: &mut Bench, number: u64, most: u64) -> u64 {
    let near = [number.wrapping_sub(1), number.wrapping_add(1)];
    let bounds = [0, MIN_BITS - 1, MIN_BITS, most, most + 1, u64::MAX];
    if bench.draw.below(2) == 0 {
        return bench.one_of(&near);
    }
    bench.one_of(&bounds)
}

fn any_place(bench: &mut Bench, store: &[u64]) -> Option<usize> {
    (!store.is_empty()).then(|| bench.draw.below(store.len() as u64) as usize)
}

/// Lookups in levels drawn bit by bit, as many as an index can have: those that the Rust's `compute_ranks` takes.
pub fn drawn(bench: &mut Bench) -> Compared {
    let levels = bench.one_of(&[1, 2, 31, 33, 34, MAX_LEVELS - 1, MAX_LEVELS]);
    let bits: Vec<BitVector> = (0..levels).map(|_| level(bench)).collect();
    let index = judge::of_levels(bits);
    let given = judged(&index);
    for _ in 0..200 {
        let id = bench.draw.next();
        lookup(bench, &index, &given, id)?;
    }
    Ok(())
}

/// A level with few of its bits, so that lookups come through to those after it, or with half.
fn level(bench: &mut Bench) -> BitVector {
    let mut level = BitVector::new(MIN_BITS + bench.draw.below(2000));
    let set = level.capacity() / bench.one_of(&[2, 50, 100, 100]);
    for _ in 0..set {
        level.insert(bench.draw.below(level.capacity()));
    }
    level
}
