//! Whole builds and lookups, by boomphf's `Mphf`. A line is a build:
//! `gamma's bits, how many ids, how many levels, how many lookups, how many words, how many samples, the ids, level sizes, words,
//! samples, the row of each id, the ids looked up, the answer of each`. The levels' words lie one after another, and so do their
//! samples. The answer of a lookup is a row, or 2^64 - 1 for none. Where the Rust panics, the line is
//! `gamma's bits, how many ids, 0, how many remain, the ids`.

use super::draw;
use crate::bounds::{LEAST_GAMMA, MAX_GAMMA};
use crate::draw::Draw;
use crate::ids::{consecutive, multiples, random, repeated};
use crate::judge::{build, remaining, stores};
use crate::list::List;

const GAMMAS: [f64; 8] = [LEAST_GAMMA, 1.1, 1.5, 1.7, 2.0, 3.0, 5.0, MAX_GAMMA];

const MOST_IDS: u64 = 3000;

pub fn builds() -> List {
    let mut draw = draw(17);
    let mut list = List::default();
    for gamma in GAMMAS {
        for count in [0, 1, 2, 170, 171] {
            let ids = random(&mut draw, count);
            case(&mut list, &mut draw, gamma, &ids);
        }
        for _ in 0..6 {
            for sort in [random, consecutive, multiples, high] {
                let count = draw.below(MOST_IDS + 1) >> draw.below(10);
                let ids = sort(&mut draw, count);
                case(&mut list, &mut draw, gamma, &ids);
            }
            let ids = repeated(&mut draw);
            case(&mut list, &mut draw, gamma, &ids);
        }
    }
    let ids = random(&mut draw, MOST_IDS);
    case(&mut list, &mut draw, 2.0, &ids);
    list
}

fn case(list: &mut List, draw: &mut Draw, gamma: f64, ids: &[u64]) {
    let count = ids.len() as u64;
    let (counts, answer) = match build(gamma, ids) {
        Some(index) => {
            let lookups = lookups(draw, ids);
            let [sizes, words, samples] = stores(&index);
            let counts = [&sizes, &lookups, &words, &samples].map(|part| part.len() as u64);
            let rows = ids.iter().map(|id| index.hash(id)).collect();
            let found = lookups
                .iter()
                .map(|id| index.try_hash(id).unwrap_or(u64::MAX))
                .collect();
            (counts.to_vec(), [sizes, words, samples, rows, lookups, found].concat())
        }
        None => (vec![0, remaining(gamma, ids)], Vec::new()),
    };
    list.case(&[&[gamma.to_bits(), count], &counts[..], ids, &answer[..]].concat());
}

/// Ids next to those of the index, and any others.
fn lookups(draw: &mut Draw, ids: &[u64]) -> Vec<u64> {
    let near: Vec<u64> = ids.iter().take(8).map(|id| id ^ 1).collect();
    near.into_iter().chain((0..16).map(|_| draw.next())).collect()
}

/// Ids of which the low 52 bits are 0.
fn high(_: &mut Draw, count: u64) -> Vec<u64> {
    (0..count).map(|i| i << 52).collect()
}
