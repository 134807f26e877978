//! Which cases are run.

use crate::bench::{Bench, Tally};
use crate::calls::Calls;
use crate::lent::{Compared, Difference};
use crate::reading::bounds::{BLOCK_CONTENT, IDS, LEVELS, MAX_BITS, MAX_GAMMA, MAX_IDS, MAX_LEVELS, MIN_GAMMA};
use crate::reading::index::Given;
use crate::{broken, builds, damage, images, kinds, late, sets};
use oracle::bounds::LEAST_GAMMA;
use oracle::draw::Draw;
use oracle::ids::{colliding, consecutive, doubled, multiples, random, repeated};
use oracle::late::FIRST_AGAIN;
use std::collections::BTreeSet;

/// How many cases of each sort.
pub struct Plan {
    /// Indexes of up to 3,000 ids, and as many with drawn levels.
    pub small: u64,
    /// Of up to 100,000.
    pub middle: u64,
    /// Of as many different ids as an index can have.
    pub largest: u64,
    /// Of half as many, each given twice.
    pub doubled: u64,
    /// Of ids that collide at so many levels, picked from so many.
    pub colliding: &'static [(u64, u64)],
    /// Of each level count from 33 on, with bits set by hand from level 32 on.
    pub late: u64,
    pub sets: u64,
    /// Sets with about the largest capacity.
    pub largest_sets: u64,
    /// Images of indexes of up to 3,000 ids, and as many of drawn levels.
    pub images: u64,
    /// Of up to 100 ids, with every bit turned and every length.
    pub small_images: u64,
    /// Of as many different ids as an index can have.
    pub largest_images: u64,
}

pub const QUICK: Plan = Plan {
    small: 1_500,
    middle: 40,
    largest: 3,
    doubled: 0,
    colliding: &[(1 << 18, 4)],
    late: 2,
    sets: 5_000,
    largest_sets: 4,
    images: 100,
    small_images: 10,
    largest_images: 2,
};

pub const LONG: Plan = Plan {
    small: 30_000,
    middle: 600,
    largest: 36,
    doubled: 1,
    colliding: &[(1 << 18, 4), (1 << 20, 4), (1 << 22, 5), (1 << 22, 5)],
    late: 40,
    sets: 200_000,
    largest_sets: 40,
    images: 3_000,
    small_images: 300,
    largest_images: 12,
};

/// The least gamma, the largest, and some between.
const GAMMAS: [f64; 9] = [LEAST_GAMMA, 1.1, 1.5, 1.7, 2.0, 2.5, 3.0, 5.0, MAX_GAMMA];

/// The f64s next to those, outside, and others that are no gamma.
const NO_GAMMAS: [f64; 9] = [
    MIN_GAMMA,
    16.000000000000004,
    0.0,
    -0.0,
    -2.0,
    f64::MAX,
    f64::INFINITY,
    f64::NEG_INFINITY,
    f64::NAN,
];

impl Plan {
    /// How many calls of each sort were equal; or the first case with a difference.
    pub fn run(&self, calls: &dyn Calls, seed: u64) -> Result<Tally, Difference> {
        let mut bench = Bench::new(calls, seed);
        bounds(&mut bench)?;
        self.drawn(&mut bench)?;
        self.largest(&mut bench)?;
        self.crafted(&mut bench)?;
        self.late(&mut bench)?;
        self.sets(&mut bench)?;
        self.images(&mut bench)?;
        complete(&bench.equal, &bench.levels)?;
        Ok(bench.equal)
    }

    fn drawn(&self, bench: &mut Bench) -> Compared {
        for _ in 0..self.small {
            index(bench, 3_000)?;
            named("drawn levels", damage::drawn(bench))?;
        }
        (0..self.middle).try_for_each(|_| index(bench, 100_000))
    }

    fn largest(&self, bench: &mut Bench) -> Compared {
        for number in 0..self.largest as usize {
            let ids = [random, consecutive, multiples][number % 3](&mut bench.draw, MAX_IDS);
            let gamma = [1.7, LEAST_GAMMA, MAX_GAMMA, gamma(&mut bench.draw)][number % 4];
            indexed(bench, gamma, &ids)?;
        }
        Ok(())
    }

    fn crafted(&self, bench: &mut Bench) -> Compared {
        for _ in 0..self.doubled {
            let ids = doubled(&mut bench.draw, MAX_IDS / 2);
            indexed(bench, 1.7, &ids)?;
        }
        self.colliding.iter().try_for_each(|(from, levels)| {
            let ids = colliding(&mut bench.draw, *from, *levels);
            indexed(bench, 1.7, &ids)
        })
    }

    fn late(&self, bench: &mut Bench) -> Compared {
        for _ in 0..self.late {
            for level_count in FIRST_AGAIN + 1..=MAX_LEVELS as u64 {
                named(&format!("{level_count} levels by hand"), late::case(bench, level_count))?;
            }
        }
        Ok(())
    }

    fn sets(&self, bench: &mut Bench) -> Compared {
        let drawn: Vec<u64> = (0..self.sets).map(|_| capacity(bench)).collect();
        let largest = LARGEST_CAPACITIES.iter().cycle().take(self.largest_sets as usize);
        for capacity in drawn.iter().chain(largest) {
            named(&format!("set of {capacity}"), sets::case(bench, *capacity))?;
        }
        Ok(())
    }

    /// Of no ids, of one and of three always; with each number of words that a fill can have; drawn; the largest.
    fn images(&self, bench: &mut Bench) -> Compared {
        for count in [0, 1, 3] {
            let ids = random(&mut bench.draw, count);
            imaged(bench, images::built(1.7, &ids), &[FITS_AND_DAMAGE, CAUSES, EVERY_BIT])?;
        }
        for fill in 0..BLOCK_CONTENT {
            let index = images::with_fill(bench, fill);
            imaged(bench, Some(index), &[FITS_AND_DAMAGE, CAUSES])?;
        }
        named("image of the largest level", images::largest_level(bench))?;
        for _ in 0..self.images {
            let (gamma, ids) = (gamma(&mut bench.draw), ids(&mut bench.draw, 3_000));
            imaged(bench, images::built(gamma, &ids), &[FITS_AND_DAMAGE, CAUSES])?;
            let index = images::drawn(bench);
            imaged(bench, Some(index), &[FITS_AND_DAMAGE, CAUSES])?;
        }
        for _ in 0..self.small_images {
            let (gamma, ids) = (gamma(&mut bench.draw), ids(&mut bench.draw, 100));
            imaged(bench, images::built(gamma, &ids), &[FITS_AND_DAMAGE, CAUSES, EVERY_BIT])?;
        }
        for number in 0..self.largest_images as usize {
            let gamma = [MAX_GAMMA, 1.7, LEAST_GAMMA][number % 3];
            let ids = random(&mut bench.draw, MAX_IDS);
            imaged(bench, images::built(gamma, &ids), &[FITS_AND_DAMAGE])?;
        }
        Ok(())
    }
}

/// On both sides of the bound.
const LARGEST_CAPACITIES: [u64; 4] = [MAX_BITS, MAX_BITS - 1, MAX_BITS + 1, u64::MAX];

/// No sort of answer that there is, is left out, and rows came from every level that there can be.
fn complete(equal: &Tally, levels: &BTreeSet<u64>) -> Compared {
    let refusals = [
        ("build", &[1, 2, 3, 4, 5, 6, 11, 16][..]),
        ("lookup", &[7, 8, 11, 16]),
        ("row list", &[7, 11, 12, 16]),
        ("set call", &[9, 10, 11]),
        ("image write", &[7, 11, 15, 16]),
        ("image read", &[11, 13, 14, 15, 16]),
    ];
    let answers = refusals.iter().flat_map(|(call, numbers)| {
        let refused = numbers.iter().map(move |number| format!("{call}, refusal {number}"));
        refused.chain([format!("{call}, answered")])
    });
    for answer in answers.chain(["lookup, none".to_string()]) {
        if !equal.contains_key(&answer) {
            return Err(Difference(format!("no case was a {answer}")));
        }
    }
    if let Some(level) = (0..MAX_LEVELS as u64).find(|level| !levels.contains(level)) {
        return Err(Difference(format!("no row came from level {level}")));
    }
    Ok(())
}

/// Gammas and id counts on the other side of their bounds.
fn bounds(bench: &mut Bench) -> Compared {
    for gamma in NO_GAMMAS {
        named(
            &format!("gamma {gamma:?}"),
            builds::out_of_bounds(bench, gamma, &[1, 2, 3]),
        )?;
    }
    let many = random(&mut bench.draw, MAX_IDS + 1);
    named("one id too many", builds::out_of_bounds(bench, 1.7, &many))
}

/// An index of a drawn sort, with damage done to it.
fn index(bench: &mut Bench, most: u64) -> Compared {
    let gamma = gamma(&mut bench.draw);
    let ids = ids(&mut bench.draw, most);
    indexed(bench, gamma, &ids)
}

fn indexed(bench: &mut Bench, gamma: f64, ids: &[u64]) -> Compared {
    let name = format!("gamma {gamma:?}, {} ids from {:?}", ids.len(), ids.first());
    named(&name, builds::case(bench, gamma, ids))?;
    named(&name, damage::case(bench, gamma, ids))
}

/// What is done with the image of an index.
type ImageCases = &'static [fn(&mut Bench, &Given) -> Compared];

/// Stores of every fit, and damage of every sort.
const FITS_AND_DAMAGE: ImageCases = &[images::case, broken::lengths, broken::drawn];

/// Every cause of a refusal, by itself and with others.
const CAUSES: ImageCases = &[images::unwritten, kinds::case, broken::mended, broken::misplaced];

/// Of images that are small.
const EVERY_BIT: ImageCases = &[broken::every_bit, broken::every_length];

/// The image of an index, if there is one.
fn imaged(bench: &mut Bench, index: Option<Given>, cases: &[ImageCases]) -> Compared {
    index.map_or(Ok(()), |index| {
        let name = format!("image of {} ids in {} levels", index.head[IDS], index.head[LEVELS]);
        let mut cases = cases.iter().copied().flatten();
        cases.try_for_each(|case| named(&name, case(bench, &index)))
    })
}

fn gamma(draw: &mut Draw) -> f64 {
    let (least, most) = (LEAST_GAMMA.to_bits(), MAX_GAMMA.to_bits());
    match draw.below(2) {
        0 => GAMMAS[draw.below(GAMMAS.len() as u64) as usize],
        _ => f64::from_bits(least + draw.below(most - least + 1)),
    }
}

/// So many ids at most, small numbers of them as likely as large ones.
fn ids(draw: &mut Draw, most: u64) -> Vec<u64> {
    let count = draw.below(most + 1) >> draw.below(10);
    let pool = (20 * count).min(MAX_IDS);
    match draw.below(10) {
        0 | 1 => random(draw, count),
        2 | 3 => consecutive(draw, count),
        4 | 5 => multiples(draw, count),
        6 => colliding(draw, pool, 2),
        7 => colliding(draw, pool, 3),
        8 => repeated(draw),
        _ => doubled(draw, count / 20),
    }
}

/// Around multiples of 64, or any.
fn capacity(bench: &mut Bench) -> u64 {
    let most = bench.one_of(&[4, 20]);
    let near = 64 * bench.draw.below(most) + bench.draw.below(3);
    match bench.draw.below(3) {
        0 => bench.draw.below(3_000),
        _ => near.saturating_sub(1),
    }
}

fn named(case: &str, compared: Compared) -> Compared {
    compared.map_err(|Difference(what)| Difference(format!("{case}: {what}")))
}
