//! Where the calls under test are called, and what they leave is compared.

use crate::calls::{Act, Calls, Sets};
use crate::lent::{same_number, same_store, Compared, Difference, Lent};
use crate::reading::bounds::LAST_REFUSAL;
use crate::reading::image::ReadStores;
use crate::reading::index::{Asked, Given, Run, Stores};
use crate::reading::{image, index, refused, set, NONE};
use oracle::draw::Draw;
use std::collections::{BTreeMap, BTreeSet};

pub type Tally = BTreeMap<String, u64>;

pub struct Bench<'a> {
    pub calls: &'a dyn Calls,
    pub draw: Draw,
    /// How many calls of each sort, with each sort of answer, were found equal.
    pub equal: Tally,
    /// The levels that rows came from.
    pub levels: BTreeSet<u64>,
    /// How many images were lent.
    images: usize,
}

impl Bench<'_> {
    pub fn new(calls: &dyn Calls, seed: u64) -> Bench<'_> {
        Bench {
            calls,
            draw: Draw::new(seed),
            equal: BTreeMap::new(),
            levels: BTreeSet::new(),
            images: 0,
        }
    }

    fn counted(&mut self, call: &str, result: u64) {
        let answer = match NONE - result {
            0 => "none".to_string(),
            number @ 1..=LAST_REFUSAL => format!("refusal {number}"),
            _ => "answered".to_string(),
        };
        *self.equal.entry(format!("{call}, {answer}")).or_default() += 1;
    }

    /// Places with anything in them.
    pub fn anything(&mut self, places: usize) -> Vec<u64> {
        (0..places).map(|_| self.draw.next()).collect()
    }

    /// Bytes with anything in them.
    pub fn any_bytes(&mut self, bytes: usize) -> Vec<u8> {
        let words = self.anything(bytes / 8 + 1);
        words.iter().flat_map(|word| word.to_le_bytes()).take(bytes).collect()
    }

    /// The image in a store of its own: 0 to 7 bytes past a multiple of 8, each in turn.
    fn lent_image(&mut self, image: &[u8]) -> Lent<u8> {
        self.images += 1;
        Lent::at(self.images % 8, image)
    }

    /// One of them.
    pub fn one_of<T: Copy>(&mut self, choices: &[T]) -> T {
        choices[self.draw.below(choices.len() as u64) as usize]
    }

    /// A build in these stores: what it answers and leaves in every one is the reading's.
    pub fn build(&mut self, asked: Asked, before: &Stores) -> Result<u64, Difference> {
        let Asked { kind, gamma, ids, .. } = asked;
        let (wanted, after) = index::build(asked, before);
        let mut lent = before.named().map(|(_, store)| Lent::new(store));
        let mut given = Lent::new(ids);
        let [words, samples, collide, rest, out] = &mut lent;
        let stores = [words, samples, collide, rest, out].map(Lent::content);
        let result = self.calls.build(kind, gamma, given.content(), stores);
        same_number("result of build", result, wanted)?;
        for (lent, (name, store)) in lent.iter_mut().zip(after.named()) {
            lent.holds(name, store)?;
        }
        given.holds("ids", ids)?;
        self.counted("build", result);
        Ok(result)
    }

    /// A lookup is the reading's: its result, and what it leaves in `place`.
    pub fn lookup(&mut self, given: &Given, id: u64, place: &[u64]) -> Result<(u64, Vec<u64>), Difference> {
        let (wanted, after) = given.lookup(id, place);
        let mut lent = Lent::new(place);
        let result = self.calls.lookup(given, id, lent.content());
        same_number("result of lookup", result, wanted)?;
        lent.holds("place", &after)?;
        self.counted("lookup", result);
        if result < refused(LAST_REFUSAL) {
            self.levels.insert(after[0]);
        }
        Ok((result, after))
    }

    /// A row list is the reading's.
    pub fn rows(&mut self, given: &Given, ids: &[u64], rows: &[u64], marks: &[u64]) -> Result<u64, Difference> {
        let (wanted, rows_after, marks_after) = given.rows(ids, rows, marks);
        let (mut rows, mut marks, mut given_ids) = (Lent::new(rows), Lent::new(marks), Lent::new(ids));
        let result = self
            .calls
            .rows(given, given_ids.content(), rows.content(), marks.content());
        same_number("result of rows", result, wanted)?;
        rows.holds("rows", &rows_after)?;
        marks.holds("marks", &marks_after)?;
        given_ids.holds("ids", ids)?;
        self.counted("row list", result);
        Ok(result)
    }

    /// The writer of images is the reading's: its result, and every byte of the image store. What it was given is as it was.
    pub fn image_write(&mut self, given: &Given, store: &[u8]) -> Result<(u64, Vec<u8>), Difference> {
        let (wanted, after) = given.write(store);
        let mut image = self.lent_image(store);
        let mut lent = given.named().map(|(_, part)| Lent::new(part));
        let [head, words, samples] = &mut lent;
        let parts = [head, words, samples].map(|part| &*part.content());
        let result = self.calls.image_write(parts, image.content());
        same_number("result of image_write", result, wanted)?;
        image.holds("image", &after)?;
        for (lent, (name, part)) in lent.iter_mut().zip(given.named()) {
            lent.holds(name, part)?;
        }
        self.counted("image write", result);
        Ok((result, after))
    }

    /// The reader of images is the reading's: its result, and what it leaves in every store. The image is as it was.
    pub fn image_read(&mut self, image: &[u8], before: &ReadStores) -> Result<(u64, ReadStores), Difference> {
        let (wanted, after) = image::read(image, before);
        let mut given = self.lent_image(image);
        let mut lent = before.named().map(|(_, store)| Lent::new(store));
        let [words, samples, out] = &mut lent;
        let stores = [words, samples, out].map(Lent::content);
        let result = self.calls.image_read(given.content(), stores);
        same_number("result of image_read", result, wanted)?;
        for (lent, (name, store)) in lent.iter_mut().zip(after.named()) {
            lent.holds(name, store)?;
        }
        given.holds("image", image)?;
        self.counted("image read", result);
        Ok((result, after))
    }

    /// A call on sets is the reading's: its result, the words and the store for members.
    pub fn set(&mut self, act: Act, given: &Sets) -> Result<(u64, Vec<u64>, Vec<u64>), Difference> {
        let (wanted, words_after, out_after) = read(act, given);
        let (mut words, mut out, other) = (Lent::new(&given.words), Lent::new(&given.out), given.other.clone());
        let result = self.calls.set(act, given, words.content(), out.content());
        same_number("result", result, wanted)?;
        words.holds("words", &words_after)?;
        out.holds("out", &out_after)?;
        same_store("other", &given.other, &other)?;
        self.counted("set call", result);
        Ok((wanted, words_after, out_after))
    }
}

/// The reading of a call on sets: result, words after, store for members after.
fn read(act: Act, given: &Sets) -> (u64, Vec<u64>, Vec<u64>) {
    let Sets {
        capacity,
        words,
        other_capacity,
        other,
        out,
    } = given;
    let (capacity, other_capacity) = (*capacity, *other_capacity);
    let unchanged = |result| (result, words.clone());
    let (result, words_after) = match act {
        Act::Empty => set::empty(capacity, words),
        Act::Ones => set::ones(capacity, words),
        Act::IsEmpty => unchanged(set::is_empty(capacity, words)),
        Act::Len => unchanged(set::len(capacity, words)),
        Act::Contains(bit) => unchanged(set::contains(capacity, words, bit)),
        Act::Insert(bit) => set::insert(capacity, words, bit),
        Act::Remove(bit) => set::remove(capacity, words, bit),
        Act::InsertAll => set::insert_all(capacity, words, other_capacity, other),
        Act::EqLeft(bit) => unchanged(set::eq_left(capacity, words, other_capacity, other, bit)),
        Act::Members => {
            let (result, members) = set::members(capacity, words, out);
            return (result, words.clone(), members);
        }
    };
    (result, words_after, out.clone())
}

/// What was lent to be read is as it was.
pub fn same_given(given: &Given, before: &Given) -> Compared {
    let mut parts = given.named().into_iter().zip(before.named());
    parts.try_for_each(|((name, part), (_, before))| same_store(name, part, before))
}

/// The Rust's index and the reading's have the same sizes, words and samples.
pub fn same_index(run: &Run, judged: &[Vec<u64>; 3]) -> Compared {
    let [sizes, words, samples] = judged;
    same_store("sizes by the reading", &run.sizes(), sizes)?;
    same_store("words by the reading", &run.words(), words)?;
    same_store("samples by the reading", &run.samples(), samples)
}
