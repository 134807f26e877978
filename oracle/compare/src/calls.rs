//! The calls under test. Tests of the comparison itself put others in their place, which it has to find out.

use crate::reading::image::ReadStores;
use crate::reading::index::{Given, Stores};
use shawltide::host;

/// A call on a set.
#[derive(Clone, Copy, Debug)]
pub enum Act {
    Empty,
    Ones,
    IsEmpty,
    Len,
    Contains(u64),
    Insert(u64),
    Remove(u64),
    InsertAll,
    EqLeft(u64),
    Members,
}

/// What a call on a set is given: the set, the other set where there are two, the store for members.
#[derive(Clone, Debug)]
pub struct Sets {
    pub capacity: u64,
    pub words: Vec<u64>,
    pub other_capacity: u64,
    pub other: Vec<u64>,
    pub out: Vec<u64>,
}

pub trait Calls {
    fn build(&self, kind: u64, gamma: f64, ids: &[u64], stores: BuildStores) -> u64 {
        let [words, samples, collide, rest, out] = stores;
        host::build(kind, gamma, ids, words, samples, collide, rest, out)
    }

    fn lookup(&self, given: &Given, id: u64, place: &mut [u64]) -> u64 {
        host::lookup(&given.head, &given.words, &given.samples, id, place)
    }

    fn rows(&self, given: &Given, ids: &[u64], rows: &mut [u64], marks: &mut [u64]) -> u64 {
        host::rows(&given.head, &given.words, &given.samples, ids, rows, marks)
    }

    fn image_write(&self, [head, words, samples]: [&[u64]; 3], image: &mut [u8]) -> u64 {
        host::image_write(head, words, samples, image)
    }

    fn image_read(&self, image: &[u8], [words, samples, out]: [&mut [u64]; 3]) -> u64 {
        host::image_read(image, words, samples, out)
    }

    fn set(&self, act: Act, given: &Sets, words: &mut [u64], out: &mut [u64]) -> u64 {
        let (capacity, other_capacity, other) = (given.capacity, given.other_capacity, &given.other);
        match act {
            Act::Empty => host::set_empty(capacity, words),
            Act::Ones => host::set_ones(capacity, words),
            Act::IsEmpty => host::set_is_empty(capacity, words),
            Act::Len => host::set_len(capacity, words),
            Act::Contains(bit) => host::set_contains(capacity, words, bit),
            Act::Insert(bit) => host::set_insert(capacity, words, bit),
            Act::Remove(bit) => host::set_remove(capacity, words, bit),
            Act::InsertAll => host::set_insert_all(capacity, words, other_capacity, other),
            Act::EqLeft(bit) => host::set_eq_left(capacity, words, other_capacity, other, bit),
            Act::Members => host::set_members(capacity, words, out),
        }
    }
}

/// Words, samples, collide, rest and out.
pub type BuildStores<'a> = [&'a mut [u64]; 5];

/// The proved calls.
pub struct Proved;

impl Calls for Proved {}

impl Stores {
    /// With their names, in the order of a build's parameters.
    pub fn named(&self) -> [(&'static str, &[u64]); 5] {
        [
            ("words", &self.words),
            ("samples", &self.samples),
            ("collide", &self.collide),
            ("rest", &self.rest),
            ("out", &self.out),
        ]
    }
}

impl Given {
    /// With their names, in the order of the calls' parameters.
    pub fn named(&self) -> [(&'static str, &[u64]); 3] {
        [("head", &self.head), ("words", &self.words), ("samples", &self.samples)]
    }
}

impl ReadStores {
    /// With their names, in the order of the reader's parameters.
    pub fn named(&self) -> [(&'static str, &[u64]); 3] {
        [("words", &self.words), ("samples", &self.samples), ("out", &self.out)]
    }
}
