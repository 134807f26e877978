//! A set's numbers: out of it one by one, and into it from an iterator.

use crate::host;
use crate::set::{fit, BitSet, SHOWN};
use std::fmt;
use std::iter::FusedIterator;
use std::ops::Range;

const WORD: usize = u64::BITS as usize;

/// How many words are listed at once, at most.
const AT_ONCE: usize = 32;

/// The numbers of a set in rising order, from [`BitSet::iter`]. The proved call lists those of some words, at most 32, as the iterator comes to them.
///
/// How many are left is counted when it is asked for, by `len` or `size_hint`, in time that grows with the words left: a loop asks for no count, and one
/// that asks at each step pays for each. An iterator in use, and each clone of it, keeps a store of at most 16 KiB.
#[derive(Clone)]
pub struct Iter<'a> {
    words: &'a [u64],
    /// How many of the words are listed already, or have no number.
    done: usize,
    /// What was listed last, counted from this number on,
    base: u64,
    store: Vec<u64>,
    /// and which places of the store are still to come.
    coming: Range<usize>,
}

impl<'a> Iter<'a> {
    pub(crate) fn of(set: &'a BitSet) -> Iter<'a> {
        Iter {
            words: set.words(),
            done: 0,
            base: 0,
            store: Vec::new(),
            coming: 0..0,
        }
    }

    /// Lists the numbers of the next words, from the first on that is not 0; false where there is none.
    fn list(&mut self) -> bool {
        self.done += zeros(&self.words[self.done..]);
        let rest = &self.words[self.done..];
        let next = &rest[..AT_ONCE.min(rest.len())];
        if next.is_empty() {
            return false;
        }
        // No later listing is of more words than the first. With room for any set of so many, the call has nothing to count.
        if self.store.is_empty() {
            self.store = vec![0; WORD * next.len()];
        }
        let capacity = (WORD * next.len()) as u64;
        self.base = (WORD * self.done) as u64;
        self.coming = 0..fit(host::set_members(capacity, next, &mut self.store)) as usize;
        self.done += next.len();
        true
    }
}

/// How many words are 0 before the first that is not. Eights of words are looked at first, each as a whole, which is faster.
fn zeros(words: &[u64]) -> usize {
    let empty = |eight: &&[u64]| eight.iter().fold(0, |joined, word| joined | word) == 0;
    let sure = 8 * words.chunks_exact(8).take_while(empty).count();
    sure + words[sure..].iter().take_while(|word| **word == 0).count()
}

impl Iterator for Iter<'_> {
    type Item = u64;

    #[inline]
    fn next(&mut self) -> Option<u64> {
        if self.coming.is_empty() && !self.list() {
            return None;
        }
        let number = self.base + self.store[self.coming.start];
        self.coming.start += 1;
        Some(number)
    }

    fn size_hint(&self) -> (usize, Option<usize>) {
        let rest = &self.words[self.done..];
        let left = self.coming.len() + fit(host::set_len((WORD * rest.len()) as u64, rest)) as usize;
        (left, Some(left))
    }

    fn count(self) -> usize {
        self.len()
    }

    fn fold<B, F: FnMut(B, u64) -> B>(mut self, start: B, mut step: F) -> B {
        let mut folded = start;
        loop {
            let base = self.base;
            let numbers = self.store[self.coming.clone()].iter().map(|number| base + number);
            folded = numbers.fold(folded, &mut step);
            if !self.list() {
                return folded;
            }
        }
    }
}

impl ExactSizeIterator for Iter<'_> {}

/// How many numbers are still to come, and the first few.
impl fmt::Debug for Iter<'_> {
    fn fmt(&self, f: &mut fmt::Formatter) -> fmt::Result {
        let first: Vec<u64> = self.clone().take(SHOWN).collect();
        f.debug_struct("Iter")
            .field("left", &self.len())
            .field("first", &first)
            .finish()
    }
}

impl FusedIterator for Iter<'_> {}

impl<'a> IntoIterator for &'a BitSet {
    type Item = u64;
    type IntoIter = Iter<'a>;

    fn into_iter(self) -> Iter<'a> {
        self.iter()
    }
}

/// The set of the numbers, with the least capacity that has room for them: the largest number and one more, or 0 where there are none.
///
/// # Panics
///
/// Where a number is not below [`MAX_BITS`](crate::MAX_BITS). [`BitSet::from_members`] takes a capacity, and refuses instead.
///
/// ```
/// let set: shawltide::BitSet = [3, 200, 64, 3].into_iter().collect();
/// assert_eq!(set.capacity(), 201);
/// assert_eq!(set.members(), [3, 64, 200]);
/// ```
impl FromIterator<u64> for BitSet {
    fn from_iter<I: IntoIterator<Item = u64>>(numbers: I) -> BitSet {
        let numbers: Vec<u64> = numbers.into_iter().collect();
        let capacity = numbers.iter().max().map_or(0, |most| most.saturating_add(1));
        BitSet::from_members(capacity, numbers).unwrap_or_else(|refusal| panic!("a set up to {capacity}: {refusal}"))
    }
}

/// Puts the numbers in, as [`BitSet::insert`] does each. The capacity stays as it is.
///
/// # Panics
///
/// Where a number is not below the capacity; those before it are in the set then.
///
/// ```
/// let mut set = shawltide::BitSet::empty(255)?;
/// set.extend([3, 64]);
/// set.extend(0..2);
/// assert_eq!(set.members(), [0, 1, 3, 64]);
/// # Ok::<(), shawltide::Refusal>(())
/// ```
impl Extend<u64> for BitSet {
    fn extend<I: IntoIterator<Item = u64>>(&mut self, numbers: I) {
        for number in numbers {
            self.insert(number)
                .unwrap_or_else(|refusal| panic!("{number}: {refusal}"));
        }
    }
}

impl<'a> Extend<&'a u64> for BitSet {
    fn extend<I: IntoIterator<Item = &'a u64>>(&mut self, numbers: I) {
        self.extend(numbers.into_iter().copied());
    }
}

#[cfg(test)]
mod tests {
    use super::*;
    use crate::{Refusal, MAX_BITS};

    /// Numbers on both sides of the ends of words.
    fn numbers() -> Vec<u64> {
        let ends = (0..20).flat_map(|word| [64 * word, 64 * word + 1, 64 * word + 63]);
        ends.filter(|number| number % 5 != 0).collect()
    }

    /// Sets of so many words: with every number, with gaps of some lengths, and with numbers that lie close here and far apart there.
    fn sets(words: u64) -> Result<Vec<BitSet>, Refusal> {
        let capacity = 64 * words;
        let even = [1, 7, 63, 64, 65, 600, 5_000].map(|gap| (0..capacity).step_by(gap).collect());
        let wider: Vec<u64> = (0..words).map(|i| 32 * i * i).filter(|n| *n < capacity).collect();
        let mixed: Vec<u64> = (0..capacity).filter(|n| n % 3_000 > 2_300 || n % 577 == 0).collect();
        let all = even.into_iter().chain([vec![], wider, mixed]);
        all.map(|numbers| BitSet::from_members(capacity, numbers)).collect()
    }

    /// None, and so many that a listing ends with the last of them, or on either side of it.
    const WORDS: [u64; 10] = [0, 1, 2, 31, 32, 33, 63, 64, 65, 97];

    /// Places on either side of the end of a listing.
    fn places(set: &BitSet) -> Vec<usize> {
        let ends = [0, WORD * AT_ONCE, 2 * WORD * AT_ONCE, set.len() as usize];
        let near = ends.into_iter().flat_map(|end| end.saturating_sub(1)..end + 2);
        near.filter(|place| *place as u64 <= set.len()).collect()
    }

    #[test]
    fn one_by_one_they_are_the_members() -> Result<(), Refusal> {
        let empty = BitSet::empty(300)?;
        let ones = BitSet::ones(300)?;
        let some = BitSet::from_members(1_300, numbers())?;
        for set in [empty, ones, some, BitSet::empty(0)?] {
            assert!(set.iter().eq(set.members()));
            assert!((&set).into_iter().eq(set.members()));
        }
        for words in WORDS {
            for set in sets(words)? {
                assert!(set.iter().eq(set.members()));
            }
        }
        Ok(())
    }

    #[test]
    fn no_word_is_overlooked() -> Result<(), Refusal> {
        for number in (0..19).map(|word| 64 * word + 5) {
            let set = BitSet::from_members(64 * 19, [number])?;
            assert!(set.iter().eq([number]));
            assert!(set.iter().eq(set.members()));
        }
        Ok(())
    }

    #[test]
    fn how_many_come_is_known() -> Result<(), Refusal> {
        for words in WORDS {
            for set in sets(words)? {
                let mut iter = set.iter();
                for left in (0..set.len() as usize).rev() {
                    assert_eq!(iter.len(), left + 1);
                    iter.next().expect("there are more");
                }
                assert_eq!((iter.len(), iter.next(), iter.next(), iter.len()), (0, None, None, 0));
            }
        }
        Ok(())
    }

    #[test]
    fn all_at_once_from_any_place_on() -> Result<(), Refusal> {
        for set in WORDS.into_iter().map(sets).collect::<Result<Vec<_>, _>>()?.concat() {
            let members = set.members();
            for place in places(&set) {
                let mut iter = set.iter();
                assert!(iter.by_ref().take(place).eq(members[..place].iter().copied()));
                let mut rest = vec![];
                iter.clone().for_each(|number| rest.push(number));
                assert_eq!(rest, members[place..]);
                assert_eq!(iter.count(), rest.len());
            }
        }
        Ok(())
    }

    #[test]
    fn a_copy_goes_on_by_itself() -> Result<(), Refusal> {
        for set in sets(97)? {
            let members = set.members();
            for place in places(&set) {
                let mut iter = set.iter();
                iter.by_ref().take(place).for_each(drop);
                let copy = iter.clone();
                assert!(iter.eq(members[place..].iter().copied()));
                assert!(copy.eq(members[place..].iter().copied()));
            }
        }
        Ok(())
    }

    #[test]
    fn shown_in_one_short_line() -> Result<(), Refusal> {
        let set = BitSet::ones(MAX_BITS)?;
        let mut iter = set.iter();
        iter.next();
        let wanted = "Iter { left: 16777215, first: [1, 2, 3, 4, 5, 6, 7, 8] }";
        assert_eq!(format!("{iter:?}"), wanted);
        assert_eq!(iter.next(), Some(1));
        assert_eq!(format!("{:?}", BitSet::empty(9)?.iter()), "Iter { left: 0, first: [] }");
        Ok(())
    }

    #[test]
    fn collected_sets_have_the_least_capacity() {
        for (numbers, capacity) in [
            (vec![], 0),
            (vec![0], 1),
            (vec![63, 5, 63], 64),
            (vec![MAX_BITS - 1, 0], MAX_BITS),
        ] {
            let set: BitSet = numbers.iter().copied().collect();
            let mut wanted = numbers;
            wanted.sort_unstable();
            wanted.dedup();
            assert_eq!((set.capacity(), set.members()), (capacity, wanted));
        }
    }

    #[test]
    fn a_set_comes_back_from_its_numbers() -> Result<(), Refusal> {
        let set = BitSet::from_members(1_300, numbers())?;
        assert_eq!(BitSet::from_members(1_300, &set)?, set);
        assert_eq!(BitSet::from_words(1_300, set.clone().into_words())?, set);
        let mut other = BitSet::empty(1_300)?;
        other.extend(&numbers());
        assert_eq!(other, set);
        Ok(())
    }

    #[test]
    fn numbers_outside_are_refused() {
        assert_eq!(BitSet::from_members(64, [63, 64]), Err(Refusal::BitOutside));
        assert_eq!(BitSet::from_members(MAX_BITS + 1, []), Err(Refusal::UnfitSet));
    }
}
