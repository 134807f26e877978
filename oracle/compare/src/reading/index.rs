//! Build, lookup and row list.

use super::bounds::*;
use super::*;

/// Numbers modulo 2^64.
fn modulo(number: u128) -> u64 {
    (number % (1 << 64)) as u64
}

fn seed_word(level: usize) -> u64 {
    2_u64.pow(2 * level as u32 % 64)
}

/// Of the plain kind, as all that follows: of another kind there is no index.
fn hash(level: usize, id: u64) -> u64 {
    mixed(id, seed_word(level))
}

/// 16 is due for every other kind.
pub fn known(kind: u64) -> bool {
    kind == PLAIN
}

/// The plain mixer.
pub fn mixed(word: u64, seed_word: u64) -> u64 {
    let sum = modulo(u128::from(word) + u128::from(seed_word) + 0x9E37_79B9_7F4A_7C15);
    let first = modulo(u128::from(sum ^ (sum >> 30)) * 0xBF58_476D_1CE4_E5B9);
    let second = modulo(u128::from(first ^ (first >> 27)) * 0x94D0_49BB_1331_11EB);
    second ^ (second >> 31)
}

pub fn position(level: usize, id: u64, size: u64) -> u64 {
    let hash = hash(level, id);
    let folded = (hash % (1 << 32)) ^ (hash >> 32);
    folded * size / (1 << 32)
}

/// The size for so many remaining ids, of a gamma in bounds: the exact product, rounded to 53 significant bits, halves to even.
pub fn size(gamma: f64, remaining: u64) -> u64 {
    let fraction_digits = 1075 - (gamma.to_bits() >> 52);
    let digits = u128::from(gamma.to_bits() % (1 << 52) + (1 << 52));
    let product = digits * u128::from(remaining);
    let dropped = (128 - product.leading_zeros()).saturating_sub(53);
    let unit = 1_u128 << dropped;
    let (whole, part) = (product / unit, product % unit);
    let up = 2 * part > unit || 2 * part == unit && whole % 2 == 1;
    let rounded = (whole + u128::from(up)) * unit;
    MIN_BITS.max((rounded >> fraction_digits) as u64)
}

/// A level as it is built.
pub struct Level {
    pub size: u64,
    pub words: Vec<u64>,
    pub samples: Vec<u64>,
}

/// The level rule of so many ids to its end, in stores without end: the levels, and how many remain after the last.
pub struct Run {
    pub count: usize,
    pub levels: Vec<Level>,
    pub remain: usize,
}

pub fn run(gamma: f64, ids: &[u64]) -> Run {
    let mut levels = Vec::new();
    let mut rest = ids.to_vec();
    let mut before = 0;
    while levels.is_empty() || levels.len() < LEVEL_LIMIT && !rest.is_empty() {
        let size = size(gamma, rest.len() as u64);
        let place = |id: u64| position(levels.len(), id, size) as usize;
        let mut owners = vec![0; size as usize];
        rest.iter().for_each(|id| owners[place(*id)] += 1);
        rest.retain(|id| owners[place(*id)] > 1);
        let bits: Vec<bool> = owners.iter().map(|owners| *owners == 1).collect();
        let words = packed(&bits);
        let samples = samples(before, &bits);
        before += ones(&bits);
        levels.push(Level { size, words, samples });
    }
    Run {
        count: ids.len(),
        levels,
        remain: rest.len(),
    }
}

fn ones(bits: &[bool]) -> u64 {
    bits.iter().filter(|bit| **bit).count() as u64
}

/// One for some words: the bits set in all earlier levels and before those words.
fn samples(mut before: u64, bits: &[bool]) -> Vec<u64> {
    let mut samples = Vec::new();
    for part in bits.chunks(SAMPLE_BITS) {
        samples.push(before);
        before += ones(part);
    }
    samples
}

/// What is lent to a build for writing.
#[derive(Clone, Debug, PartialEq)]
pub struct Stores {
    pub words: Vec<u64>,
    pub samples: Vec<u64>,
    pub collide: Vec<u64>,
    pub rest: Vec<u64>,
    pub out: Vec<u64>,
}

/// What a build is asked for: the kind, gamma, the ids, and their run where gamma and id count are in bounds.
#[derive(Clone, Copy)]
pub struct Asked<'a> {
    pub kind: u64,
    pub gamma: f64,
    pub ids: &'a [u64],
    pub run: Option<&'a Run>,
}

/// A build: its result, and the stores as it leaves them.
pub fn build(asked: Asked, before: &Stores) -> (u64, Stores) {
    let mut after = before.clone();
    if before.out.len() < OUT {
        return (refused(11), after);
    }
    after.out = fronted(&[0; OUT], &before.out);
    if let Some(number) = unbuilt(asked, before) {
        return (refused(number), after);
    }
    let run = asked.run.expect("all is in bounds");
    after.collide.fill(0);
    after.rest.fill(0);
    let (number, value) = ending(run, before);
    if number == 0 {
        after.words = filled(run.words(), before.words.len());
        after.samples = filled(run.samples(), before.samples.len());
        after.out = fronted(&[&[0], &run.head()[..]].concat(), &before.out);
        return (0, after);
    }
    after.words.fill(0);
    after.samples.fill(0);
    after.out[0] = value;
    (refused(number), after)
}

/// The refusal that is due before the first level, if one is: the kind comes before all else.
fn unbuilt(asked: Asked, stores: &Stores) -> Option<u64> {
    let Asked { kind, gamma, ids, run } = asked;
    if !known(kind) {
        return Some(16);
    }
    if gamma.is_nan() || gamma <= MIN_GAMMA {
        return Some(1);
    }
    if gamma > MAX_GAMMA {
        return Some(2);
    }
    if ids.len() as u64 > MAX_IDS {
        return Some(3);
    }
    let level_0 = &run.expect("all is in bounds").levels[0];
    (stores.rest.len() < ids.len() || stores.collide.len() < level_0.words.len()).then_some(4)
}

/// 0, or 5 or 6 with what it gives.
fn ending(run: &Run, stores: &Stores) -> (u64, u64) {
    let (mut words, mut samples) = (0, 0);
    for (number, level) in run.levels.iter().enumerate() {
        words += level.words.len();
        samples += level.samples.len();
        if words > stores.words.len() || samples > stores.samples.len() {
            return (5, number as u64);
        }
    }
    match run.remain as u64 {
        0 => (0, 0),
        remain => (6, remain),
    }
}

impl Run {
    pub fn words(&self) -> Vec<u64> {
        self.levels.iter().flat_map(|level| level.words.clone()).collect()
    }

    pub fn samples(&self) -> Vec<u64> {
        self.levels.iter().flat_map(|level| level.samples.clone()).collect()
    }

    pub fn sizes(&self) -> Vec<u64> {
        self.levels.iter().map(|level| level.size).collect()
    }

    pub fn head(&self) -> Vec<u64> {
        head(self.count as u64, &self.sizes())
    }
}

/// The head of an index of so many ids, with levels of these sizes.
pub fn head(count: u64, sizes: &[u64]) -> Vec<u64> {
    filled([&[PLAIN, count, sizes.len() as u64], sizes].concat(), HEAD)
}

/// How many words and samples the sizes of a head of any kind take; or nothing where 7 is due for its other numbers.
pub fn needs(head: &[u64]) -> Option<[usize; 2]> {
    if head[IDS] > MAX_IDS || !(1..=MAX_LEVELS as u64).contains(&head[LEVELS]) {
        return None;
    }
    let sizes = &head[SIZES..SIZES + head[LEVELS] as usize];
    let bounded = sizes.iter().all(|size| (MIN_BITS..=MAX_BITS).contains(size));
    let sum = |need: fn(u64) -> usize| sizes.iter().map(|size| need(*size)).sum();
    bounded.then(|| [sum(words_for), sum(samples_for)])
}

/// Any head and stores, as they are given to a lookup, a row list or the writer of images.
#[derive(Clone, Debug)]
pub struct Given {
    pub head: Vec<u64>,
    pub words: Vec<u64>,
    pub samples: Vec<u64>,
}

impl Given {
    fn count(&self) -> u64 {
        self.head[IDS]
    }

    pub fn sizes(&self) -> &[u64] {
        &self.head[SIZES..SIZES + self.head[LEVELS] as usize]
    }

    /// The refusal that head and stores have due, if one is: 7 for a head of another length, which has no kind to ask for; 16 for its kind; 7 for all else.
    pub fn unfit(&self) -> Option<u64> {
        if self.head.len() != HEAD {
            return Some(7);
        }
        if !known(self.head[KIND]) {
            return Some(16);
        }
        let room = |[words, samples]: [usize; 2]| words <= self.words.len() && samples <= self.samples.len();
        (!needs(&self.head).map_or(false, room)).then_some(7)
    }

    /// The row, level and position of an id, none, or 8; of an index that is not unfit.
    fn find(&self, id: u64) -> Result<Option<[u64; 3]>, u64> {
        let (mut words, mut samples) = (&self.words[..], &self.samples[..]);
        for (level, size) in self.sizes().iter().enumerate() {
            let position = position(level, id, *size);
            if has(words, position) {
                let number = position / SAMPLE_BITS as u64;
                let sample = samples[number as usize];
                if sample > MAX_IDS {
                    return Err(8);
                }
                let first = number * SAMPLE_BITS as u64;
                let row = sample + (first..position).filter(|bit| has(words, *bit)).count() as u64;
                if row >= self.count() {
                    return Err(8);
                }
                return Ok(Some([row, level as u64, position]));
            }
            words = &words[words_for(*size)..];
            samples = &samples[samples_for(*size)..];
        }
        Ok(None)
    }

    /// A lookup: its result, and `place` as it leaves it.
    pub fn lookup(&self, id: u64, place: &[u64]) -> (u64, Vec<u64>) {
        if place.len() < PLACE {
            return (refused(11), place.to_vec());
        }
        if let Some(number) = self.unfit() {
            return (refused(number), place.to_vec());
        }
        match self.find(id) {
            Ok(Some([row, level, position])) => (row, fronted(&[level, position], place)),
            Ok(None) => (NONE, place.to_vec()),
            Err(number) => (refused(number), place.to_vec()),
        }
    }

    /// A row list: its result, and rows and marks as it leaves them.
    pub fn rows(&self, ids: &[u64], rows: &[u64], marks: &[u64]) -> (u64, Vec<u64>, Vec<u64>) {
        let unchanged = |number| (refused(number), rows.to_vec(), marks.to_vec());
        if let Some(number) = self.unfit() {
            return unchanged(number);
        }
        let needed = words_for(self.count());
        if (rows.len() as u64) < self.count() || marks.len() < needed {
            return unchanged(11);
        }
        let cleared = fronted(&vec![0; needed], marks);
        match self.listed(ids) {
            Some(list) => (0, fronted(&list, rows), cleared),
            None => (refused(12), rows.to_vec(), cleared),
        }
    }

    /// The id at each row, where the ids are those of the index.
    fn listed(&self, ids: &[u64]) -> Option<Vec<u64>> {
        if ids.len() as u64 != self.count() {
            return None;
        }
        let mut list = vec![None; ids.len()];
        for id in ids {
            let [row, ..] = self.find(*id).ok()??;
            if list[row as usize].replace(*id).is_some() {
                return None;
            }
        }
        list.into_iter().collect()
    }
}
