//! Whole indexes: a build in stores of every fit, every lookup, the row list.

use crate::bench::{same_given, same_index, Bench};
use crate::kinds;
use crate::lent::{same_number, same_store, Compared};
use crate::reading::bounds::{HEAD, OUT, PLAIN};
use crate::reading::index::{head, run, Asked, Given, Run, Stores};
use crate::reading::{words_for, NONE};
use oracle::boomphf::Mphf;
use oracle::judge;
pub use oracle::judge::found;

/// The ids at this gamma, by the Rust, the reading and the calls under test.
pub fn case(bench: &mut Bench, gamma: f64, ids: &[u64]) -> Compared {
    let run = run(gamma, ids);
    let judged = judge::build(gamma, ids);
    match &judged {
        Some(index) => same_index(&run, &judge::stores(index))?,
        None => same_number("ids that remain", run.remain as u64, judge::remaining(gamma, ids))?,
    }
    let asked = Asked {
        kind: PLAIN,
        gamma,
        ids,
        run: Some(&run),
    };
    for before in rooms(bench, &run) {
        bench.build(asked, &before)?;
        let kind = kinds::any(bench);
        kinds::unbuilt(bench, Asked { kind, ..asked }, &before)?;
    }
    if let Some(index) = judged {
        let given = given(&run, bench);
        answered(bench, &index, &given, ids)?;
        let kind = kinds::any(bench);
        kinds::unanswered(bench, &kinds::of_kind(&given, kind), ids, 16)?;
    }
    Ok(())
}

/// A build that is refused for its gamma or its id count leaves all but `out` as it was; and one that is refused for its kind, which comes first.
pub fn out_of_bounds(bench: &mut Bench, gamma: f64, ids: &[u64]) -> Compared {
    let asked = Asked {
        kind: PLAIN,
        gamma,
        ids,
        run: None,
    };
    for out in [0, HEAD, OUT, OUT + 3] {
        let mut places = || bench.draw.below(4) as usize;
        let lengths = [places(), places(), places(), places(), out];
        let before = stores(bench, lengths);
        bench.build(asked, &before)?;
        for kind in kinds::unknown(bench) {
            kinds::unbuilt(bench, Asked { kind, ..asked }, &before)?;
        }
    }
    Ok(())
}

/// Stores that hold anything: as long as needed, longer, one short of each need, and short of more than one.
fn rooms(bench: &mut Bench, run: &Run) -> Vec<Stores> {
    let needs = [
        run.words().len(),
        run.samples().len(),
        run.levels[0].words.len(),
        run.count,
        OUT,
    ];
    let mut rooms = vec![needs, needs.map(|need| need + 1 + bench.draw.below(50) as usize)];
    rooms.extend((0..needs.len()).filter_map(|store| one_short(needs, store)));
    rooms.extend((0..4).map(|_| cut(bench, needs)));
    rooms.into_iter().map(|lengths| stores(bench, lengths)).collect()
}

fn one_short(needs: [usize; 5], store: usize) -> Option<[usize; 5]> {
    let mut lengths = needs;
    lengths[store] = needs[store].checked_sub(1)?;
    Some(lengths)
}

/// Words and samples of any length up to the need, so that 5 comes at any level, and at times the others too.
fn cut(bench: &mut Bench, needs: [usize; 5]) -> [usize; 5] {
    let mut lengths = needs;
    for (store, length) in lengths.iter_mut().enumerate() {
        if store < 2 || bench.draw.below(8) == 0 {
            *length = bench.draw.below(*length as u64 + 1) as usize;
        }
    }
    lengths
}

fn stores(bench: &mut Bench, lengths: [usize; 5]) -> Stores {
    let [words, samples, collide, rest, out] = lengths.map(|length| bench.anything(length));
    Stores {
        words,
        samples,
        collide,
        rest,
        out,
    }
}

/// The index for lookups, with anything past the words and samples that it uses.
pub fn given(run: &Run, bench: &mut Bench) -> Given {
    let mut past = || {
        let places = bench.draw.below(3) as usize;
        bench.anything(places)
    };
    Given {
        head: run.head(),
        words: [run.words(), past()].concat(),
        samples: [run.samples(), past()].concat(),
    }
}

/// The Rust's index for lookups, in words and samples that it uses up.
pub fn judged(index: &Mphf<u64>) -> Given {
    let [sizes, words, samples] = judge::stores(index);
    Given {
        head: head(judge::count(index), &sizes),
        words,
        samples,
    }
}

/// Every lookup and the row list of an index, which stays as it was.
pub fn answered(bench: &mut Bench, index: &Mphf<u64>, given: &Given, ids: &[u64]) -> Compared {
    let before = given.clone();
    lookups(bench, index, given, ids)?;
    listed(bench, index, given, ids)?;
    same_given(given, &before)
}

/// Each id, and as many others, some of them next to the ids.
fn lookups(bench: &mut Bench, index: &Mphf<u64>, given: &Given, ids: &[u64]) -> Compared {
    for id in ids {
        lookup(bench, index, given, *id)?;
        let other = if bench.draw.below(4) == 0 {
            id ^ 1
        } else {
            bench.draw.next()
        };
        lookup(bench, index, given, other)?;
    }
    Ok(())
}

/// A lookup is the Rust's: the row, and where it was found.
pub fn lookup(bench: &mut Bench, index: &Mphf<u64>, given: &Given, id: u64) -> Compared {
    let place = [bench.draw.next(), bench.draw.next(), 5];
    let (result, after) = bench.lookup(given, id, &place)?;
    same_number("result by the Rust", index.try_hash(&id).unwrap_or(NONE), result)?;
    match found(index, id) {
        Some(found) => same_store("place by the Rust", &found, &after[..2]),
        None => same_store("place", &place, &after),
    }
}

/// The row list is the Rust's: at each row the id whose hash it is. In row and mark stores of every fit, for ids in another order, and for ids that are
/// not the index's.
fn listed(bench: &mut Bench, index: &Mphf<u64>, given: &Given, ids: &[u64]) -> Compared {
    let mut list = vec![0; ids.len()];
    ids.iter().for_each(|id| list[index.hash(id) as usize] = *id);
    let marks = words_for(ids.len() as u64);
    let (_, by_reading, _) = given.rows(ids, &vec![0; ids.len()], &vec![0; marks]);
    same_store("row list by the reading", &by_reading, &list)?;

    for (rows, marks) in [
        (ids.len(), marks),
        (ids.len() + 3, marks + 2),
        (ids.len().saturating_sub(1), marks),
        (ids.len(), marks.saturating_sub(1)),
    ] {
        let (rows, marks) = (bench.anything(rows), bench.anything(marks));
        let ids = shuffled(bench, ids);
        bench.rows(given, &ids, &rows, &marks)?;
    }
    for ids in strangers(bench, ids) {
        let (rows, marks) = (bench.anything(list.len()), bench.anything(marks));
        bench.rows(given, &ids, &rows, &marks)?;
    }
    Ok(())
}

fn shuffled(bench: &mut Bench, ids: &[u64]) -> Vec<u64> {
    let mut ids = ids.to_vec();
    for place in (1..ids.len()).rev() {
        ids.swap(place, bench.draw.below(place as u64 + 1) as usize);
    }
    ids
}

/// One id fewer, one more, one that is another, one in place of another.
fn strangers(bench: &mut Bench, ids: &[u64]) -> Vec<Vec<u64>> {
    let more = [ids, &[bench.draw.next()]].concat();
    if ids.is_empty() {
        return vec![more];
    }
    let mut any = || bench.draw.below(ids.len() as u64) as usize;
    let (place, from) = (any(), any());
    let mut other = ids.to_vec();
    other[place] = bench.draw.next();
    let mut again = ids.to_vec();
    again[place] = ids[from];
    vec![ids[1..].to_vec(), more, other, again]
}
