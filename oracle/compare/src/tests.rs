//! The comparison finds out calls that are not as promised: each of these is wrong in one thing.

mod images;
mod kinds;
mod late;

use crate::calls::{Act, BuildStores, Calls, Proved, Sets};
use crate::lent::Lent;
use crate::plan::Plan;
use crate::reading::bounds::LAST_REFUSAL;
use crate::reading::index::Given;
use crate::reading::{refused, NONE};

const FEW: Plan = Plan {
    small: 40,
    middle: 0,
    largest: 0,
    doubled: 0,
    colliding: &[],
    late: 1,
    sets: 200,
    largest_sets: 0,
    images: 4,
    small_images: 0,
    largest_images: 0,
};

fn finds(calls: &dyn Calls) -> bool {
    FEW.run(calls, 77).is_err()
}

#[test]
fn the_proved_calls_are_equal() {
    assert!(!finds(&Proved));
}

/// A build that then does something else.
struct Build(fn(&mut u64, &mut BuildStores));

impl Calls for Build {
    fn build(&self, kind: u64, gamma: f64, ids: &[u64], stores: BuildStores) -> u64 {
        let mut stores = stores;
        let [words, samples, collide, rest, out] = &mut stores;
        let mut result = Proved.build(kind, gamma, ids, [words, samples, collide, rest, out]);
        (self.0)(&mut result, &mut stores);
        result
    }
}

#[test]
fn wrong_builds_are_found() {
    for wrong in [
        |_, stores| add_to_last(stores, 0),
        |_, stores| add_to_last(stores, 1),
        |_, stores| add_to_last(stores, 2),
        |_, stores| add_to_last(stores, 3),
        |_, stores| add_to_last(stores, 4),
        |_, stores| stores[0].iter_mut().take(1).for_each(|word| *word ^= 1 << 17),
        |result, stores| {
            if *result == refused(6) {
                stores[4][0] -= 1;
            }
        },
        |result, stores| {
            if *result == refused(5) {
                stores[4][0] += 1;
            }
        },
        |result, _| {
            if *result == refused(6) {
                *result = refused(5);
            }
        },
        |result, _| {
            if *result == refused(3) {
                *result = refused(4);
            }
        },
    ] as [fn(&mut u64, &mut BuildStores); 10]
    {
        assert!(finds(&Build(wrong)));
    }
}

fn add_to_last(stores: &mut BuildStores, store: usize) {
    if let Some(last) = stores[store].last_mut() {
        *last = last.wrapping_add(1);
    }
}

/// A lookup that then says something else.
struct Lookup(fn(u64, &mut [u64]) -> u64);

impl Calls for Lookup {
    fn lookup(&self, given: &Given, id: u64, place: &mut [u64]) -> u64 {
        let result = Proved.lookup(given, id, place);
        (self.0)(result, place)
    }
}

#[test]
fn wrong_lookups_are_found() {
    for wrong in [
        |result, _| if result == 1 { 0 } else { result },
        |result, _| if result == NONE { 0 } else { result },
        |result, _| if result == refused(8) { NONE } else { result },
        |result, place| {
            if result < refused(LAST_REFUSAL) {
                place.swap(0, 1);
            }
            result
        },
        |result, place| {
            if result == NONE {
                place.fill(0);
            }
            result
        },
        |result, place| {
            if let Some(later) = place.get_mut(2) {
                *later = 0;
            }
            result
        },
    ] as [fn(u64, &mut [u64]) -> u64; 6]
    {
        assert!(finds(&Lookup(wrong)));
    }
}

/// A row list that then leaves something else.
struct Rows(fn(u64, &mut [u64], &mut [u64]));

impl Calls for Rows {
    fn rows(&self, given: &Given, ids: &[u64], rows: &mut [u64], marks: &mut [u64]) -> u64 {
        let result = Proved.rows(given, ids, rows, marks);
        (self.0)(result, rows, marks);
        result
    }
}

#[test]
fn wrong_row_lists_are_found() {
    for wrong in [
        |result, rows, _| {
            if result == 0 && rows.len() > 1 {
                rows.swap(0, 1);
            }
        },
        |result, rows, _| {
            if result == refused(12) {
                rows.fill(0);
            }
        },
        |_, _, marks| {
            if let Some(first) = marks.first_mut() {
                *first = 1;
            }
        },
        |_, _, marks| {
            if let Some(last) = marks.last_mut() {
                *last = 0;
            }
        },
    ] as [fn(u64, &mut [u64], &mut [u64]); 4]
    {
        assert!(finds(&Rows(wrong)));
    }
}

/// A call on sets that then says or leaves something else.
struct Set(fn(Act, u64, &mut [u64], &mut [u64]) -> u64);

impl Calls for Set {
    fn set(&self, act: Act, given: &Sets, words: &mut [u64], out: &mut [u64]) -> u64 {
        let result = Proved.set(act, given, words, out);
        (self.0)(act, result, words, out)
    }
}

#[test]
fn wrong_set_calls_are_found() {
    for wrong in [
        |act, result, _, _| {
            if let (Act::Insert(_), 0) = (act, result) {
                1
            } else {
                result
            }
        },
        |act, result, _, _| {
            if let (Act::EqLeft(_), 0) = (act, result) {
                1
            } else {
                result
            }
        },
        |act, result, words, _| {
            if let (Act::Remove(_), 0 | 1) = (act, result) {
                words[0] |= 1;
            }
            result
        },
        |act, result, _, out| {
            if let (Act::Members, Some(last)) = (act, out.last_mut()) {
                *last = 0;
            }
            result
        },
        |_, result, _, _| if result == refused(9) { refused(10) } else { result },
    ] as [fn(Act, u64, &mut [u64], &mut [u64]) -> u64; 5]
    {
        assert!(finds(&Set(wrong)));
    }
}

#[test]
fn a_store_knows_what_lies_beside_it() {
    let mut store = Lent::new(&[1, 2, 3]);
    assert!(store.holds("store", &[1, 2, 3]).is_ok());
    assert!(store.holds("store", &[1, 2, 4]).is_err());
    assert!(store.holds("store", &[1, 2]).is_err());
    let place = store.content().as_mut_ptr();
    unsafe { *place.add(3) = 0 };
    assert!(store.holds("store", &[1, 2, 3]).is_err());
}

#[test]
fn bytes_lie_as_far_past_a_multiple_of_eight_as_is_said() {
    for past in 0..8 {
        let mut store = Lent::at(past, &[1, 2, 3]);
        assert!(store.holds("store", &[1, 2, 3]).is_ok());
        let place = store.content().as_mut_ptr();
        assert_eq!(place as usize % 8, past);
        unsafe { *place.sub(1) = 0 };
        assert!(store.holds("store", &[1, 2, 3]).is_err());
    }
}
