//! Time of the calls on the largest sets, by how many members they have: boomphf's `BitVector` against the crate of window/.

use super::median;
use crate::reading::bounds::MAX_BITS;
use oracle::bitvector::BitVector;
use oracle::draw::Draw;
use oracle::gammas::timed;
use shawltide::{host, BitSet, Refusal};
use std::time::Duration;

/// A set has one number in so many, by chance; the last has none.
const ONE_IN: [u64; 4] = [2, 64, 4096, u64::MAX];
const ROUNDS: usize = 51;
/// How often a call that takes some nanoseconds is timed at once.
const MANY: u32 = 100_000;

/// A call, and its result as a number. It is called by a pointer, so that the compiler does not see two calls of the same as one.
type Call<'a> = &'a mut dyn FnMut() -> u64;

/// For each set the median of each call.
pub fn measure() -> Result<(), Refusal> {
    for one_in in ONE_IN {
        let sets = Sets::drawn(one_in)?;
        println!("members: {} of {MAX_BITS}", sets.ours.len());
        sets.members();
        sets.whole()?;
    }
    stray_bits()
}

/// The same set twice.
struct Sets {
    rust: BitVector,
    ours: BitSet,
}

impl Sets {
    fn drawn(one_in: u64) -> Result<Sets, Refusal> {
        let mut draw = Draw::new(one_in);
        let mut rust = BitVector::new(MAX_BITS);
        let mut ours = BitSet::empty(MAX_BITS)?;
        for bit in (0..MAX_BITS).filter(|_| draw.below(one_in) == 0) {
            rust.insert(bit);
            ours.insert(bit)?;
        }
        Ok(Sets { rust, ours })
    }

    /// Into a store that is there, into a new one, and one by one.
    fn members(&self) {
        let Sets { rust, ours } = self;
        let exact = ours.len() as usize;
        let [mut rust_store, mut our_store, mut long] = [exact, exact, MAX_BITS as usize].map(|places| vec![0; places]);
        let mut listed = || {
            let places = rust.iter().zip(&mut rust_store);
            places.map(|(bit, place)| *place = bit).count() as u64
        };
        let mut our_listed = || host::set_members(MAX_BITS, ours.words(), &mut our_store);
        let mut our_listed_long = || host::set_members(MAX_BITS, ours.words(), &mut long);
        report("members, into a store", 1, [&mut listed, &mut our_listed]);
        report("with room for any set", 1, [&mut listed, &mut our_listed_long]);
        assert!(rust_store == our_store && rust_store == long[..exact] && ours.iter().eq(rust_store));

        let mut collected = || rust.iter().collect::<Vec<u64>>().len() as u64;
        let mut our_collected = || ours.members().len() as u64;
        report("members, a new Vec", 1, [&mut collected, &mut our_collected]);
        report(
            "iter, the sum",
            1,
            [&mut || rust.iter().sum(), &mut || ours.iter().sum()],
        );
    }

    /// Calls on whole sets. Whether one is empty is known at its first member; what is joined is new the first time only, which takes no other time.
    fn whole(&self) -> Result<(), Refusal> {
        let Sets { rust, ours } = self;
        let (rust_again, our_again) = (rust.clone(), ours.clone());
        let (mut rust_join, mut our_join) = (BitVector::new(MAX_BITS), BitSet::empty(MAX_BITS)?);
        let calls = if ours.is_empty() { 1 } else { MANY };
        report("len", 1, [&mut || rust.len(), &mut || ours.len()]);
        report(
            "is_empty",
            calls,
            [&mut || rust.is_empty().into(), &mut || ours.is_empty().into()],
        );
        let mut joined = || rust_join.insert_all(rust).into();
        let mut our_joined = || said(our_join.insert_all(ours));
        report("insert_all", 1, [&mut joined, &mut our_joined]);
        assert!(our_join == *ours);
        let mut same = || rust.eq_left(&rust_again, MAX_BITS).into();
        let mut our_same = || said(ours.eq_left(&our_again, MAX_BITS));
        report("eq_left, of equal sets", 1, [&mut same, &mut our_same]);
        Ok(())
    }
}

/// What it takes to see that no bit at or past the capacity is set: the same calls where the capacity is a multiple of 64, so that there is none, and
/// where it is not.
fn stray_bits() -> Result<(), Refusal> {
    let [whole, part] = [MAX_BITS, MAX_BITS - 1].map(|capacity| BitSet::from_members(capacity, [0]));
    let (whole, part) = (whole?, part?);
    let mut empty = [&whole, &part].map(|set| move || u64::from(set.is_empty()));
    let mut has = [&whole, &part].map(|set| move || said(set.contains(0)));
    let [without_empty, with_empty] = &mut empty;
    let [without_has, with_has] = &mut has;
    let calls: [(&str, [Call; 2]); 2] = [
        ("is_empty", [without_empty, with_empty]),
        ("contains", [without_has, with_has]),
    ];
    for (what, calls) in calls {
        let [without, with] = medians(MANY, calls).map(shown);
        println!("{what:>24}: {without} with no place for a stray bit, {with} with one");
    }
    Ok(())
}

fn said(answer: Result<bool, Refusal>) -> u64 {
    answer.expect("the sets are sound").into()
}

fn report(what: &str, calls: u32, [rust, ours]: [Call; 2]) {
    let [rust, ours] = medians(calls, [rust, ours]);
    let times = ours / rust;
    let [rust, ours] = [rust, ours].map(shown);
    println!("{what:>24}: boomphf {rust:>9}, ours {ours:>9}, {times:.2} times");
}

fn shown(nanoseconds: f64) -> String {
    match nanoseconds < 1e3 {
        true => format!("{nanoseconds:.1} ns"),
        false => format!("{:.3} ms", nanoseconds / 1e6),
    }
}

/// One after the other, in nanoseconds a call. Both have the same results.
fn medians(calls: u32, [one, other]: [Call; 2]) -> [f64; 2] {
    let mut times: [Vec<Duration>; 2] = Default::default();
    for _ in 0..ROUNDS {
        let [one_times, other_times] = &mut times;
        let sum = timed(one_times, || (0..calls).map(|_| one()).sum::<u64>());
        let other_sum = timed(other_times, || (0..calls).map(|_| other()).sum::<u64>());
        assert_eq!(sum, other_sum);
    }
    times.map(|times| median(times).as_secs_f64() * 1e9 / f64::from(calls))
}
