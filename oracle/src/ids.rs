//! Sorts of ids. All but `repeated` and `doubled` have no id twice, as drawn.

use crate::boomphf::hashmod;
use crate::bounds::MIN_BITS;
use crate::draw::Draw;
use std::collections::BTreeMap;

pub fn random(draw: &mut Draw, count: u64) -> Vec<u64> {
    (0..count).map(|_| draw.next()).collect()
}

pub fn consecutive(draw: &mut Draw, count: u64) -> Vec<u64> {
    let first = draw.next() >> draw.below(64);
    (0..count).map(|i| first.wrapping_add(i)).collect()
}

/// Multiples of a power of two, all below 2^64.
pub fn multiples(draw: &mut Draw, count: u64) -> Vec<u64> {
    let power = 1 << draw.below(48).min(count.leading_zeros().into());
    (0..count).map(|i| i * power).collect()
}

/// Random ids, of which one is given again, once to three times.
pub fn repeated(draw: &mut Draw) -> Vec<u64> {
    let count = 1 + draw.below(100);
    let mut ids = random(draw, count);
    for _ in 0..1 + draw.below(3) {
        let place = draw.below(ids.len() as u64 + 1);
        ids.insert(place as usize, ids[0]);
    }
    ids
}

/// Random ids, and all of them again.
pub fn doubled(draw: &mut Draw, count: u64) -> Vec<u64> {
    random(draw, count).repeat(2)
}

/// Ids that collide at so many of the smallest levels: each shares its positions in all of them with another. They are picked from so many drawn ones.
pub fn colliding(draw: &mut Draw, from: u64, levels: u64) -> Vec<u64> {
    let mut alike: BTreeMap<Vec<u64>, Vec<u64>> = BTreeMap::new();
    for id in random(draw, from) {
        let positions = (0..levels).map(|level| hashmod(level, &id, MIN_BITS)).collect();
        alike.entry(positions).or_default().push(id);
    }
    alike.into_values().filter(|ids| ids.len() > 1).flatten().collect()
}
