//! Lookups by boomphf's `try_hash`, each with the whole index: `id, answer, how many ids, how many levels, how many words, how many
//! samples, level sizes, words, samples`. The answer is a row, or 2^64 - 1 for none.

use super::draw;
use crate::boomphf::Mphf;
use crate::bounds::{LEAST_GAMMA, LEVEL_LIMIT, MAX_GAMMA, MIN_BITS};
use crate::draw::Draw;
use crate::ids::random;
use crate::judge::stores;
use crate::late;
use crate::list::List;

const GAMMAS: [f64; 5] = [LEAST_GAMMA, 1.5, 2.0, 5.0, MAX_GAMMA];

/// Of indexes whose rows come from level 32 on: the last level is the first of a turn of seed words, or next to it, or the last that there can be.
const LEVEL_COUNTS: [u64; 8] = [33, 34, 64, 65, 66, 96, 97, LEVEL_LIMIT];

pub fn lookups() -> List {
    let mut draw = draw(18);
    let mut list = List::default();
    for gamma in GAMMAS {
        for count in [0, 1, 2, 60, 171, 1000] {
            let ids = random(&mut draw, count);
            let index = Mphf::new(gamma, &ids);
            cases(&mut list, &mut draw, &index, &ids);
        }
    }
    for level_count in LEVEL_COUNTS {
        let sizes: Vec<u64> = (0..level_count).map(|_| MIN_BITS + draw.below(66)).collect();
        let (index, ids) = late::index(&mut draw, &sizes, 1);
        for id in ids.iter().rev().take(4) {
            case(&mut list, ids.len() as u64, &index, *id);
        }
        cases(&mut list, &mut draw, &index, &ids);
    }
    list
}

fn cases(list: &mut List, draw: &mut Draw, index: &Mphf<u64>, ids: &[u64]) {
    for id in asked(draw, ids) {
        case(list, ids.len() as u64, index, id);
    }
}

fn case(list: &mut List, count: u64, index: &Mphf<u64>, id: u64) {
    let answer = index.try_hash(&id).unwrap_or(u64::MAX);
    let stores = stores(index);
    let lengths = stores.iter().map(|store| store.len() as u64).collect();
    list.case(&[vec![id, answer, count], lengths, stores.concat()].concat());
}

/// Ids of the index, ids next to them, and any others.
fn asked(draw: &mut Draw, ids: &[u64]) -> Vec<u64> {
    let mut asked = Vec::new();
    for _ in 0..ids.len().min(6) {
        let id = ids[draw.below(ids.len() as u64) as usize];
        asked.extend([id, id ^ 1]);
    }
    asked.extend((0..4).map(|_| draw.next()));
    asked
}
