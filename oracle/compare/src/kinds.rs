//! Kinds of hash that are not known, in the calls that take one: 16 before all that is asked later, and every store as it was.

use crate::bench::Bench;
use crate::images::{unfit_numbers, unused_sizes, OTHER_LENGTHS};
use crate::lent::{same_number, Compared};
use crate::reading::bounds::*;
use crate::reading::image::FORM;
use crate::reading::index::{Asked, Given, Stores};
use crate::reading::{refused, words_for};

/// The first two, which nothing tells from a known one but their number; those of which a part is that of the known one; the last; and a drawn one, which
/// is never 0.
pub fn unknown(bench: &mut Bench) -> [u64; 8] {
    [
        1,
        2,
        1 << 8,
        1 << 32,
        1 << 63,
        (1 << 32) + 1,
        u64::MAX,
        bench.draw.next(),
    ]
}

/// One of them.
pub fn any(bench: &mut Bench) -> u64 {
    let kinds = unknown(bench);
    bench.one_of(&kinds)
}

/// The index by this kind.
pub fn of_kind(index: &Given, kind: u64) -> Given {
    let mut index = index.clone();
    index.head[KIND] = kind;
    index
}

/// A build of a kind that is not known, whatever else is wrong with it. Only a short `out` counts before.
pub fn unbuilt(bench: &mut Bench, asked: Asked, before: &Stores) -> Compared {
    let result = bench.build(asked, before)?;
    let number = if before.out.len() < OUT { 11 } else { 16 };
    same_number("result", result, refused(number))
}

/// Lookups, and row lists in stores of every fit, have this refusal. Only a short `place` counts before.
pub fn unanswered(bench: &mut Bench, given: &Given, ids: &[u64], number: u64) -> Compared {
    let id = if ids.is_empty() {
        bench.draw.next()
    } else {
        bench.one_of(ids)
    };
    for (place, number) in [(PLACE, number), (PLACE + 1, number), (PLACE - 1, 11), (0, 11)] {
        let place = bench.anything(place);
        let (result, _) = bench.lookup(given, id, &place)?;
        same_number("result", result, refused(number))?;
    }
    let marks = words_for(ids.len() as u64);
    for (ids, rows, marks) in [
        (ids, ids.len(), marks),
        (ids, 0, marks),
        (ids, ids.len(), 0),
        (&ids[ids.len() / 2..], ids.len() + 1, marks + 1),
    ] {
        let (rows, marks) = (bench.anything(rows), bench.anything(marks));
        let result = bench.rows(given, ids, &rows, &marks)?;
        same_number("result", result, refused(number))?;
    }
    Ok(())
}

/// An index by kinds that are not known, alone and with each thing that is asked later: lookups, row lists and the writer of images have 16. A head of another
/// length has no kind to ask for: 7.
pub fn case(bench: &mut Bench, index: &Given) -> Compared {
    let room = index.image(FORM).len();
    for kind in unknown(bench) {
        refused_with(bench, &of_kind(index, kind), room, 16)?;
    }
    for faulty in faults(index) {
        let kind = any(bench);
        refused_with(bench, &of_kind(&faulty, kind), room, 16)?;
    }
    for length in OTHER_LENGTHS {
        let kind = any(bench);
        let mut other = of_kind(index, kind);
        other.head.resize(length, 0);
        refused_with(bench, &other, room, 7)?;
    }
    Ok(())
}

/// Whether the image has so much room or none.
fn refused_with(bench: &mut Bench, given: &Given, room: usize, number: u64) -> Compared {
    let count = given.head.get(IDS).map_or(0, |count| *count.min(&3_000));
    let ids = bench.anything(count as usize);
    unanswered(bench, given, &ids, number)?;
    for length in [room, 0] {
        let store = bench.any_bytes(length);
        let (result, _) = bench.image_write(given, &store)?;
        same_number("result", result, refused(number))?;
    }
    Ok(())
}

/// The index with each cause of 7 and of the writer's 15, and with samples that make 8 of every row.
fn faults(index: &Given) -> Vec<Given> {
    let levels = index.head[LEVELS] as usize;
    let numbers = [unfit_numbers(levels), unused_sizes(levels)].concat();
    let heads = numbers.into_iter().map(|(place, number)| {
        let mut given = index.clone();
        given.head[place] = number;
        given
    });
    let stores = [
        |given: &mut Given| given.words.truncate(given.words.len() - 1),
        |given: &mut Given| given.samples.truncate(given.samples.len() - 1),
        |given: &mut Given| given.samples.fill(MAX_IDS + 1),
        |given: &mut Given| [&mut given.words, &mut given.samples].into_iter().for_each(Vec::clear),
    ];
    let stores = stores.map(|change| {
        let mut given = index.clone();
        change(&mut given);
        given
    });
    heads.chain(stores).collect()
}
