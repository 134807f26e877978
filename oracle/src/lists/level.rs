//! One level, by boomphf's `Context`: `level, size, how many ids, how many go on, the ids, words, collide's words, those that go on`.

use super::{draw, words, LEVELS};
use crate::boomphf::{hashmod, Context};
use crate::bounds::{MIN_BITS, SAMPLE_BITS};
use crate::draw::Draw;
use crate::list::List;

const SIZES: [u64; 7] = [
    MIN_BITS,
    MIN_BITS + 1,
    MIN_BITS + 2,
    SAMPLE_BITS - 1,
    SAMPLE_BITS,
    SAMPLE_BITS + 1,
    600,
];

const MOST_IDS: u64 = 200;

pub fn levels() -> List {
    let mut draw = draw(14);
    let mut list = List::default();
    for level in LEVELS {
        for size in SIZES {
            for ids in [
                random(&mut draw),
                consecutive(&mut draw),
                crowded(&mut draw, level, size),
            ] {
                case(&mut list, level, size, &ids);
            }
        }
        let id = draw.next();
        for times in 0..5 {
            case(&mut list, level, MIN_BITS, &vec![id; times]);
        }
    }
    list
}

fn case(list: &mut List, level: u64, size: u64, ids: &[u64]) {
    let mut context = Context::new(size, level);
    ids.iter().for_each(|id| context.find_collisions_sync(id));
    let on: Vec<u64> = ids.iter().filter_map(|id| context.filter(id)).copied().collect();
    let asked = vec![level, size, ids.len() as u64, on.len() as u64];
    list.case(&[asked, ids.to_vec(), words(&context.a), words(&context.collide), on].concat());
}

fn random(draw: &mut Draw) -> Vec<u64> {
    (0..draw.below(MOST_IDS + 1)).map(|_| draw.next()).collect()
}

fn consecutive(draw: &mut Draw) -> Vec<u64> {
    let first = draw.next() >> draw.below(64);
    (0..draw.below(MOST_IDS + 1)).map(|i| first.wrapping_add(i)).collect()
}

/// Ids with few positions, so that most share theirs with one other or more.
fn crowded(draw: &mut Draw, level: u64, size: u64) -> Vec<u64> {
    let wanted = draw.below(MOST_IDS + 1) as usize;
    let positions = 1 + draw.below(2 * wanted as u64 + 1);
    let mut ids = Vec::new();
    while ids.len() < wanted {
        let id = draw.next();
        if hashmod(level, &id, size) < positions {
            ids.push(id);
        }
    }
    ids
}
