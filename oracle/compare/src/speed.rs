//! Time of build and lookup at a million ids, of images, and of sets: boomphf against the crate of window/.

mod images;
pub mod sets;

use oracle::boomphf::Mphf;
use oracle::gammas::{best, ids, nanoseconds_an_id, timed, Shape, GAMMAS};
use shawltide::{Index, Refusal};
use std::error::Error;
use std::time::Duration;

const GAMMA: f64 = 1.7;
const ROUNDS: usize = 15;

/// The builds of boomphf and ours, the lookups of boomphf and ours.
type Times = [Vec<Duration>; 4];

/// At one gamma, the median of each.
pub fn measure() -> Result<(), Box<dyn Error>> {
    let [ids, _] = ids();
    let mut times = Times::default();
    for _ in 0..ROUNDS {
        round(GAMMA, &ids, &mut times)?;
    }
    let [rust_build, our_build, rust_lookup, our_lookup] = times.map(|times| nanoseconds_an_id(median(times)));
    report("build", rust_build, our_build);
    report("lookup", rust_lookup, our_lookup);
    Ok(images::measure(&ids)?)
}

/// The table of gammas, with the best of each.
pub fn gammas() -> Result<(), Box<dyn Error>> {
    let ids = ids();
    let mut times: [Times; GAMMAS.len()] = Default::default();
    for _ in 0..ROUNDS {
        for (gamma, times) in GAMMAS.iter().zip(&mut times) {
            round(*gamma, &ids[0], times)?;
        }
    }
    println!(
        "{} build, ns: boomphf | ours | lookup, ns: boomphf | ours |",
        Shape::COLUMNS
    );
    for (gamma, times) in GAMMAS.into_iter().zip(times) {
        let times = times.map(|times| format!(" {:.0} |", best(times))).concat();
        println!("{}{times}", Shape::of(gamma, &ids));
    }
    Ok(())
}

/// One after the other.
fn round(gamma: f64, ids: &[u64], times: &mut Times) -> Result<(), Refusal> {
    let [rust_build, our_build, rust_lookup, our_lookup] = times;
    let rust = timed(rust_build, || Mphf::new(gamma, ids));
    let ours = timed(our_build, || Index::build(ids, gamma))?;
    let rust_sum: u64 = timed(rust_lookup, || ids.iter().map(|id| rust.hash(id)).sum());
    let our_sum: u64 = timed(our_lookup, || {
        let row = |id: &u64| Ok(ours.lookup(*id)?.expect("each id has a row").row);
        ids.iter().map(row).sum::<Result<u64, Refusal>>()
    })?;
    assert_eq!(rust_sum, our_sum);
    Ok(())
}

fn median(mut times: Vec<Duration>) -> Duration {
    times.sort_unstable();
    times[times.len() / 2]
}

fn report(what: &str, rust: f64, ours: f64) {
    let times = ours / rust;
    println!("{what}: boomphf {rust:.1} ns an id, ours {ours:.1} ns an id, {times:.2} times");
}
