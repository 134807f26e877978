//! What gamma does to an index of a million ids: its shape, which is the same on every machine, and time, which is not.

use crate::boomphf::Mphf;
use crate::draw::Draw;
use crate::ids::random;
use crate::judge::{found, stores};
use std::fmt;
use std::time::{Duration, Instant};

pub const IDS: u64 = 1_000_000;
pub const GAMMAS: [f64; 6] = [1.1, 1.7, 2.0, 4.0, 8.0, 16.0];

/// The ids of the index, and as many others.
pub fn ids() -> [Vec<u64>; 2] {
    [11, 12].map(|seed| random(&mut Draw::new(seed), IDS))
}

/// Shown as the first columns of a table.
pub struct Shape {
    gamma: f64,
    bits_an_id: f64,
    levels: usize,
    /// Levels that a lookup of an id tries, on the average.
    tried: f64,
    /// How many of a hundred other ids get a row.
    foreign: f64,
}

impl Shape {
    pub const COLUMNS: &'static str = "| gamma | bits an id | levels | levels tried | of 100 others, with a row |";

    pub fn of(gamma: f64, [ids, others]: &[Vec<u64>; 2]) -> Shape {
        let index = Mphf::new(gamma, ids);
        let [sizes, words, samples] = stores(&index);
        let each = |sum: u64| sum as f64 / IDS as f64;
        let level = |id: &u64| found(&index, *id).expect("each id has its bit")[0];
        let with_row = others.iter().filter(|id| index.try_hash(id).is_some()).count();
        Shape {
            gamma,
            bits_an_id: each(64 * (words.len() + samples.len()) as u64),
            levels: sizes.len(),
            tried: each(ids.iter().map(|id| level(id) + 1).sum()),
            foreign: 100.0 * each(with_row as u64),
        }
    }
}

impl fmt::Display for Shape {
    fn fmt(&self, f: &mut fmt::Formatter) -> fmt::Result {
        let (gamma, bits, levels, tried) = (self.gamma, self.bits_an_id, self.levels, self.tried);
        write!(
            f,
            "| {gamma} | {bits:.3} | {levels} | {tried:.2} | {:.2} |",
            self.foreign
        )
    }
}

pub fn timed<T>(times: &mut Vec<Duration>, act: impl FnOnce() -> T) -> T {
    let start = Instant::now();
    let result = act();
    times.push(start.elapsed());
    result
}

pub fn nanoseconds_an_id(time: Duration) -> f64 {
    time.as_secs_f64() * 1e9 / IDS as f64
}

/// The least time, in nanoseconds an id: what else the machine does meanwhile is in it the least.
pub fn best(times: Vec<Duration>) -> f64 {
    nanoseconds_an_id(times.into_iter().min().unwrap_or_default())
}
