//! Lookups by other seed words.

use super::finds;
use crate::calls::{Calls, Proved};
use crate::reading::bounds::LAST_REFUSAL;
use crate::reading::index::Given;
use crate::reading::{has, refused, words_for, NONE};
use oracle::boomphf::{fastmod, fold};
use oracle::plain::mix;

/// A lookup that goes by these seed words of levels. Where they lead to another place, it says that one.
struct Seeded(fn(u32) -> u64);

impl Seeded {
    fn found(&self, given: &Given, id: u64) -> Option<[u64; 2]> {
        let mut words = &given.words[..];
        for (level, size) in (0..).zip(given.sizes()) {
            let position = fastmod(fold(mix(id, (self.0)(level))), *size as u32);
            if has(words, position) {
                return Some([level.into(), position]);
            }
            words = &words[words_for(*size)..];
        }
        None
    }
}

impl Calls for Seeded {
    fn lookup(&self, given: &Given, id: u64, place: &mut [u64]) -> u64 {
        let result = Proved.lookup(given, id, place);
        if (refused(LAST_REFUSAL)..NONE).contains(&result) {
            return result;
        }
        match self.found(given, id) {
            Some(found) => {
                place[..2].copy_from_slice(&found);
                result
            }
            None => NONE,
        }
    }
}

fn right(level: u32) -> u64 {
    1 << (2 * (level % 32))
}

#[test]
fn the_right_seed_words_are_equal() {
    assert!(!finds(&Seeded(right)));
}

/// Pushed out from level 32 on, all 1, pushed out from level 64 on, again after 31 levels, and wrong at the last level alone.
#[test]
fn wrong_seed_words_are_found() {
    for wrong in [
        |level| 4_u64.checked_pow(level).unwrap_or(0),
        |level| 4_u64.checked_pow(level).unwrap_or(1),
        |level| if level < 64 { right(level) } else { 0 },
        |level| right(level % 31),
        |level| if level < 99 { right(level) } else { 0 },
    ] as [fn(u32) -> u64; 5]
    {
        assert!(finds(&Seeded(wrong)));
    }
}
