//! The table of gammas of README, by boomphf alone: on a machine where libhost.a cannot be run natively, its times are true all the same.
//!
//!     cargo run --release --offline --manifest-path oracle/Cargo.toml --target-dir target/oracle --example gammas

use oracle::boomphf::Mphf;
use oracle::gammas::{best, ids, timed, Shape, GAMMAS};
use std::time::Duration;

const ROUNDS: usize = 25;

/// Of builds and of lookups.
type Times = [Vec<Duration>; 2];

fn main() {
    let ids = ids();
    let mut times: [Times; GAMMAS.len()] = Default::default();
    for _ in 0..ROUNDS {
        for (gamma, times) in GAMMAS.iter().zip(&mut times) {
            round(*gamma, &ids[0], times);
        }
    }
    println!("{} build, ns | lookup, ns |", Shape::COLUMNS);
    for (gamma, times) in GAMMAS.into_iter().zip(times) {
        let [build, lookup] = times.map(best);
        println!("{} {build:.0} | {lookup:.0} |", Shape::of(gamma, &ids));
    }
}

fn round(gamma: f64, ids: &[u64], [builds, lookups]: &mut Times) {
    let index = timed(builds, || Mphf::new(gamma, ids));
    let sum: u64 = timed(lookups, || ids.iter().map(|id| index.hash(id)).sum());
    let count = ids.len() as u64;
    assert_eq!(sum, count * (count - 1) / 2, "each row is some id's");
}
