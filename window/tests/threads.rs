//! What the crate says of threads.

mod ids;

use ids::ids;
use shawltide::{BitSet, ImageError, Index, Iter, Kind, Place, Refusal, Room, GAMMA};
use std::thread;

const THREADS: u64 = 4;

#[test]
fn every_type_may_go_to_another_thread_and_be_shared() {
    fn may<T: Send + Sync>() {}
    may::<Index>();
    may::<ImageError>();
    may::<BitSet>();
    may::<Iter>();
    may::<Kind>();
    may::<Place>();
    may::<Refusal>();
    may::<Room>();
}

/// Each thread asks for every id, and for foreign ones of its own.
#[test]
fn threads_look_up_in_one_index() -> Result<(), Refusal> {
    let ids = ids(20_000);
    let index = Index::build(&ids, GAMMA)?;
    let rows = index.rows(&ids)?;
    thread::scope(|threads| {
        for number in 0..THREADS {
            let (index, rows) = (&index, &rows);
            threads.spawn(move || {
                for (row, id) in rows.iter().enumerate() {
                    assert_eq!(index.row(*id), Ok(Some(row)));
                    let foreign = index.row(id ^ (number + 1)).expect("a built index refuses none");
                    assert!(foreign.map_or(true, |row| row < rows.len()));
                }
            });
        }
    });
    Ok(())
}

#[test]
fn threads_build_at_once() -> Result<(), Refusal> {
    let wanted: Vec<Index> = (0..THREADS)
        .map(|number| Index::build(&ids(5_000 + number), GAMMA))
        .collect::<Result<_, _>>()?;
    thread::scope(|threads| {
        for (number, index) in (0..).zip(&wanted) {
            threads.spawn(move || assert_eq!(&Index::build(&ids(5_000 + number), GAMMA).expect("as before"), index));
        }
    });
    Ok(())
}
