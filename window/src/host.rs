//! The fifteen calls of libhost.a over slices, for a front end that keeps its own stores. `docs/REFERENCE.md` says what each takes, answers and leaves;
//! [`Room`](crate::Room) says how long the stores of a build and of an image have to be.
//!
//! The result is a value, [`NONE`], or `NONE - r` for refusal r ([`Refusal::number`](crate::Refusal::number)). No call panics, whatever it is given.
//!
//! ```
//! use shawltide::host::{set_insert, NONE};
//! let mut words = [0; 4];
//! assert_eq!(set_insert(255, &mut words, 200), 1);
//! assert_eq!(words, [0, 0, 0, 1 << 8]);
//! assert_eq!(set_insert(255, &mut words, 255), NONE - 9);
//! ```

// What the calls ask of a host is what a slice of Rust is: a pointer that is aligned and not null, a true length, and for a `&mut` no other
// slice over the same places. Nothing else is asked: no call has a precondition.

use crate::bounds::HEAD_SIZES;

/// The result for none.
pub const NONE: u64 = u64::MAX;

/// How many numbers a head is: kind, id count, level count, sizes.
pub const HEAD: usize = HEAD_SIZES + 3;

/// How many places `out` of a build or of a reading needs: one for the value that a refusal carries, and the head's.
pub const OUT: usize = HEAD + 1;

/// How many places `place` of a lookup needs: level and position.
pub const PLACE: usize = 2;

mod c {
    extern "C" {
        pub fn shawltide_set_empty(capacity: u64, words: *mut u64, words_len: usize) -> u64;
        pub fn shawltide_set_ones(capacity: u64, words: *mut u64, words_len: usize) -> u64;
        pub fn shawltide_set_is_empty(capacity: u64, words: *const u64, words_len: usize) -> u64;
        pub fn shawltide_set_len(capacity: u64, words: *const u64, words_len: usize) -> u64;
        pub fn shawltide_set_contains(capacity: u64, words: *const u64, words_len: usize, bit: u64) -> u64;
        pub fn shawltide_set_insert(capacity: u64, words: *mut u64, words_len: usize, bit: u64) -> u64;
        pub fn shawltide_set_remove(capacity: u64, words: *mut u64, words_len: usize, bit: u64) -> u64;
        pub fn shawltide_set_insert_all(
            capacity: u64,
            words: *mut u64,
            words_len: usize,
            other_capacity: u64,
            other: *const u64,
            other_len: usize,
        ) -> u64;
        pub fn shawltide_set_eq_left(
            capacity: u64,
            words: *const u64,
            words_len: usize,
            other_capacity: u64,
            other: *const u64,
            other_len: usize,
            bit: u64,
        ) -> u64;
        pub fn shawltide_set_members(
            capacity: u64,
            words: *const u64,
            words_len: usize,
            out: *mut u64,
            out_len: usize,
        ) -> u64;
        pub fn shawltide_build(
            kind: u64,
            gamma: f64,
            ids: *const u64,
            ids_len: usize,
            words: *mut u64,
            words_len: usize,
            samples: *mut u64,
            samples_len: usize,
            collide: *mut u64,
            collide_len: usize,
            rest: *mut u64,
            rest_len: usize,
            out: *mut u64,
            out_len: usize,
        ) -> u64;
        pub fn shawltide_lookup(
            head: *const u64,
            head_len: usize,
            words: *const u64,
            words_len: usize,
            samples: *const u64,
            samples_len: usize,
            id: u64,
            place: *mut u64,
            place_len: usize,
        ) -> u64;
        pub fn shawltide_rows(
            head: *const u64,
            head_len: usize,
            words: *const u64,
            words_len: usize,
            samples: *const u64,
            samples_len: usize,
            ids: *const u64,
            ids_len: usize,
            rows: *mut u64,
            rows_len: usize,
            marks: *mut u64,
            marks_len: usize,
        ) -> u64;
        pub fn shawltide_image_write(
            head: *const u64,
            head_len: usize,
            words: *const u64,
            words_len: usize,
            samples: *const u64,
            samples_len: usize,
            image: *mut u8,
            image_len: usize,
        ) -> u64;
        pub fn shawltide_image_read(
            image: *const u8,
            image_len: usize,
            words: *mut u64,
            words_len: usize,
            samples: *mut u64,
            samples_len: usize,
            out: *mut u64,
            out_len: usize,
        ) -> u64;
    }
}

/// Makes the empty set: 0.
pub fn set_empty(capacity: u64, words: &mut [u64]) -> u64 {
    unsafe { c::shawltide_set_empty(capacity, words.as_mut_ptr(), words.len()) }
}

/// Makes the set of every number below the capacity: 0.
pub fn set_ones(capacity: u64, words: &mut [u64]) -> u64 {
    unsafe { c::shawltide_set_ones(capacity, words.as_mut_ptr(), words.len()) }
}

/// 1 if the set has no number, else 0.
pub fn set_is_empty(capacity: u64, words: &[u64]) -> u64 {
    unsafe { c::shawltide_set_is_empty(capacity, words.as_ptr(), words.len()) }
}

/// How many numbers the set has.
pub fn set_len(capacity: u64, words: &[u64]) -> u64 {
    unsafe { c::shawltide_set_len(capacity, words.as_ptr(), words.len()) }
}

/// 1 if the bit is in the set, else 0.
pub fn set_contains(capacity: u64, words: &[u64], bit: u64) -> u64 {
    unsafe { c::shawltide_set_contains(capacity, words.as_ptr(), words.len(), bit) }
}

/// Puts the bit into the set: 1 if it is new, else 0.
pub fn set_insert(capacity: u64, words: &mut [u64], bit: u64) -> u64 {
    unsafe { c::shawltide_set_insert(capacity, words.as_mut_ptr(), words.len(), bit) }
}

/// Takes the bit out of the set: 1 if it was there, else 0.
pub fn set_remove(capacity: u64, words: &mut [u64], bit: u64) -> u64 {
    unsafe { c::shawltide_set_remove(capacity, words.as_mut_ptr(), words.len(), bit) }
}

/// Puts every number of the other set into the set: 1 if the set has changed, else 0.
pub fn set_insert_all(capacity: u64, words: &mut [u64], other_capacity: u64, other: &[u64]) -> u64 {
    let (words, words_len) = (words.as_mut_ptr(), words.len());
    unsafe { c::shawltide_set_insert_all(capacity, words, words_len, other_capacity, other.as_ptr(), other.len()) }
}

/// 1 if the two sets have the same numbers below the bit, else 0.
pub fn set_eq_left(capacity: u64, words: &[u64], other_capacity: u64, other: &[u64], bit: u64) -> u64 {
    let (words, words_len) = (words.as_ptr(), words.len());
    unsafe {
        c::shawltide_set_eq_left(
            capacity,
            words,
            words_len,
            other_capacity,
            other.as_ptr(),
            other.len(),
            bit,
        )
    }
}

/// Writes the members, in rising order, to the front of `out`: how many.
pub fn set_members(capacity: u64, words: &[u64], out: &mut [u64]) -> u64 {
    unsafe { c::shawltide_set_members(capacity, words.as_ptr(), words.len(), out.as_mut_ptr(), out.len()) }
}

/// Builds an index of the ids, by the kind of hash of that number ([`Kind::number`](crate::Kind::number)): 0. `out` gets the value that refusal 5 or 6
/// carries, else 0, and the head.
// As many parameters as the call has.
#[allow(clippy::too_many_arguments)]
pub fn build(
    kind: u64,
    gamma: f64,
    ids: &[u64],
    words: &mut [u64],
    samples: &mut [u64],
    collide: &mut [u64],
    rest: &mut [u64],
    out: &mut [u64],
) -> u64 {
    unsafe {
        c::shawltide_build(
            kind,
            gamma,
            ids.as_ptr(),
            ids.len(),
            words.as_mut_ptr(),
            words.len(),
            samples.as_mut_ptr(),
            samples.len(),
            collide.as_mut_ptr(),
            collide.len(),
            rest.as_mut_ptr(),
            rest.len(),
            out.as_mut_ptr(),
            out.len(),
        )
    }
}

/// The id's row, or none. `place` gets the level and the position of a row.
pub fn lookup(head: &[u64], words: &[u64], samples: &[u64], id: u64, place: &mut [u64]) -> u64 {
    unsafe {
        c::shawltide_lookup(
            head.as_ptr(),
            head.len(),
            words.as_ptr(),
            words.len(),
            samples.as_ptr(),
            samples.len(),
            id,
            place.as_mut_ptr(),
            place.len(),
        )
    }
}

/// Writes at each row the id that lookup sends there: 0.
pub fn rows(head: &[u64], words: &[u64], samples: &[u64], ids: &[u64], rows: &mut [u64], marks: &mut [u64]) -> u64 {
    unsafe {
        c::shawltide_rows(
            head.as_ptr(),
            head.len(),
            words.as_ptr(),
            words.len(),
            samples.as_ptr(),
            samples.len(),
            ids.as_ptr(),
            ids.len(),
            rows.as_mut_ptr(),
            rows.len(),
            marks.as_mut_ptr(),
            marks.len(),
        )
    }
}

/// Writes the index as an image to the front of `image`: how many blocks. Later bytes stay.
pub fn image_write(head: &[u64], words: &[u64], samples: &[u64], image: &mut [u8]) -> u64 {
    unsafe {
        c::shawltide_image_write(
            head.as_ptr(),
            head.len(),
            words.as_ptr(),
            words.len(),
            samples.as_ptr(),
            samples.len(),
            image.as_mut_ptr(),
            image.len(),
        )
    }
}

/// Reads an image, whose length is exactly that of its blocks, into `words` and `samples`: 0. `out` gets the block that refusal 14 carries, else 0,
/// and the head.
pub fn image_read(image: &[u8], words: &mut [u64], samples: &mut [u64], out: &mut [u64]) -> u64 {
    unsafe {
        c::shawltide_image_read(
            image.as_ptr(),
            image.len(),
            words.as_mut_ptr(),
            words.len(),
            samples.as_mut_ptr(),
            samples.len(),
            out.as_mut_ptr(),
            out.len(),
        )
    }
}
