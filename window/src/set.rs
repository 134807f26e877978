use crate::bounds::MAX_BITS;
use crate::host;
use crate::members::Iter;
use crate::refusal::{answer, Refusal};
use crate::room::words_for;
use std::fmt;

/// How many numbers `Debug` shows.
pub(crate) const SHOWN: usize = 8;

/// A set of numbers below a capacity, one bit each.
///
/// A capacity above [`MAX_BITS`] is refused with 10, a number that is not below the capacity with 9.
///
/// ```
/// use shawltide::{BitSet, Refusal};
/// let mut set = BitSet::empty(255)?;
/// assert!(set.insert(200)?);
/// assert!(!set.insert(200)?);
/// assert_eq!(set.members(), [200]);
/// assert_eq!(set.insert(255), Err(Refusal::BitOutside));
/// assert_eq!(set.iter().sum::<u64>(), 200);
/// # Ok::<(), Refusal>(())
/// ```
#[derive(Clone, PartialEq, Eq)]
pub struct BitSet {
    capacity: u64,
    /// As many words as the capacity needs, with no bit at or past the capacity: what the calls ask of a set.
    words: Vec<u64>,
}

impl BitSet {
    /// The set of no numbers.
    pub fn empty(capacity: u64) -> Result<BitSet, Refusal> {
        BitSet::made(capacity, host::set_empty)
    }

    /// The set of every number below the capacity.
    ///
    /// ```
    /// assert_eq!(shawltide::BitSet::ones(64)?.len(), 64);
    /// # Ok::<(), shawltide::Refusal>(())
    /// ```
    pub fn ones(capacity: u64) -> Result<BitSet, Refusal> {
        BitSet::made(capacity, host::set_ones)
    }

    fn made(capacity: u64, make: fn(u64, &mut [u64]) -> u64) -> Result<BitSet, Refusal> {
        let mut words = vec![0; needed(capacity)];
        answer(make(capacity, &mut words), 0)?;
        Ok(BitSet { capacity, words })
    }

    /// A set kept elsewhere: bit b is bit b mod 64 of word b / 64. Refused with 10 are too few words and a bit at or past the capacity.
    ///
    /// ```
    /// use shawltide::{BitSet, Refusal};
    /// assert_eq!(BitSet::from_words(65, vec![0, 1])?.members(), [64]);
    /// assert_eq!(BitSet::from_words(65, vec![0, 2]), Err(Refusal::UnfitSet));
    /// # Ok::<(), Refusal>(())
    /// ```
    pub fn from_words(capacity: u64, mut words: Vec<u64>) -> Result<BitSet, Refusal> {
        answer(host::set_is_empty(capacity, &words), 0)?;
        words.truncate(needed(capacity));
        Ok(BitSet { capacity, words })
    }

    /// The set of the numbers, given in any order; one may be given again. Refused are a capacity above the bound (10) and a number that is not
    /// below the capacity (9).
    ///
    /// ```
    /// use shawltide::{BitSet, Refusal};
    /// assert_eq!(BitSet::from_members(255, [200, 3, 3])?.members(), [3, 200]);
    /// assert_eq!(BitSet::from_members(255, [255]), Err(Refusal::BitOutside));
    /// # Ok::<(), Refusal>(())
    /// ```
    pub fn from_members(capacity: u64, numbers: impl IntoIterator<Item = u64>) -> Result<BitSet, Refusal> {
        let mut set = BitSet::empty(capacity)?;
        for number in numbers {
            set.insert(number)?;
        }
        Ok(set)
    }

    pub fn capacity(&self) -> u64 {
        self.capacity
    }

    pub fn words(&self) -> &[u64] {
        &self.words
    }

    /// The words, as many as the capacity needs.
    pub fn into_words(self) -> Vec<u64> {
        self.words
    }

    pub fn is_empty(&self) -> bool {
        fit(host::set_is_empty(self.capacity, &self.words)) == 1
    }

    /// How many numbers the set has.
    pub fn len(&self) -> u64 {
        fit(host::set_len(self.capacity, &self.words))
    }

    pub fn contains(&self, bit: u64) -> Result<bool, Refusal> {
        said(host::set_contains(self.capacity, &self.words, bit))
    }

    /// Puts a number in, and says whether it is new.
    pub fn insert(&mut self, bit: u64) -> Result<bool, Refusal> {
        said(host::set_insert(self.capacity, &mut self.words, bit))
    }

    /// Takes a number out, and says whether it was there.
    pub fn remove(&mut self, bit: u64) -> Result<bool, Refusal> {
        said(host::set_remove(self.capacity, &mut self.words, bit))
    }

    /// Puts every number of another set of the same capacity in, and says whether anything changed. Another capacity is refused with 10.
    pub fn insert_all(&mut self, other: &BitSet) -> Result<bool, Refusal> {
        said(host::set_insert_all(
            self.capacity,
            &mut self.words,
            other.capacity,
            &other.words,
        ))
    }

    /// Whether both sets have the same numbers below `bit`, which is beyond neither capacity (9).
    pub fn eq_left(&self, other: &BitSet, bit: u64) -> Result<bool, Refusal> {
        said(host::set_eq_left(
            self.capacity,
            &self.words,
            other.capacity,
            &other.words,
            bit,
        ))
    }

    /// The numbers of the set, in rising order.
    pub fn members(&self) -> Vec<u64> {
        let mut members = vec![0; self.len() as usize];
        fit(host::set_members(self.capacity, &self.words, &mut members));
        members
    }

    /// The numbers of the set, in rising order, one by one: with no store for all of them.
    pub fn iter(&self) -> Iter<'_> {
        Iter::of(self)
    }
}

/// The capacity, how many numbers the set has, and the first few.
///
/// ```
/// let set = shawltide::BitSet::from_members(255, [200, 3])?;
/// assert_eq!(format!("{set:?}"), "BitSet { capacity: 255, len: 2, first: [3, 200] }");
/// # Ok::<(), shawltide::Refusal>(())
/// ```
impl fmt::Debug for BitSet {
    fn fmt(&self, f: &mut fmt::Formatter) -> fmt::Result {
        let first: Vec<u64> = self.iter().take(SHOWN).collect();
        f.debug_struct("BitSet")
            .field("capacity", &self.capacity)
            .field("len", &self.len())
            .field("first", &first)
            .finish()
    }
}

/// How many words a capacity needs; none for one above the bound, which every call refuses.
fn needed(capacity: u64) -> usize {
    if capacity > MAX_BITS {
        return 0;
    }
    words_for(capacity)
}

fn said(result: u64) -> Result<bool, Refusal> {
    Ok(answer(result, 0)? == 1)
}

/// The value of a call on words that hold a set of the capacity, and with room for what it writes: it is not refused.
pub(crate) fn fit(result: u64) -> u64 {
    answer(result, 0).expect("the words hold a set of the capacity")
}

#[cfg(test)]
mod tests {
    use super::*;
    use std::collections::BTreeSet;

    #[test]
    fn acts_as_a_plain_set() -> Result<(), Refusal> {
        let mut set = BitSet::empty(300)?;
        let mut plain = BTreeSet::new();
        for i in 0..2_000 {
            let bit = i * i * 7 % 300;
            if i % 3 == 0 {
                assert_eq!(set.remove(bit)?, plain.remove(&bit));
            } else {
                assert_eq!(set.insert(bit)?, plain.insert(bit));
            }
            assert_eq!(set.contains(bit)?, plain.contains(&bit));
        }
        assert_eq!(set.len(), plain.len() as u64);
        assert!(set.members().iter().eq(&plain));
        Ok(())
    }

    #[test]
    fn two_sets() -> Result<(), Refusal> {
        let mut low = BitSet::from_words(128, vec![5, 0])?;
        let high = BitSet::from_words(128, vec![1, 1])?;
        assert!(low.eq_left(&high, 2)?);
        assert!(!low.eq_left(&high, 3)?);
        assert!(low.insert_all(&high)?);
        assert!(!low.insert_all(&high)?);
        assert_eq!(low.words(), [5, 1]);
        Ok(())
    }

    #[test]
    fn the_largest_set() -> Result<(), Refusal> {
        let mut set = BitSet::ones(MAX_BITS)?;
        assert_eq!(set.len(), MAX_BITS);
        assert!(set.remove(MAX_BITS - 1)?);
        assert_eq!(set.members().len() as u64, MAX_BITS - 1);
        Ok(())
    }

    #[test]
    fn shown_in_one_short_line() -> Result<(), Refusal> {
        let shown = format!("{:?}", BitSet::ones(MAX_BITS)?);
        let wanted = "BitSet { capacity: 16777216, len: 16777216, first: [0, 1, 2, 3, 4, 5, 6, 7] }";
        assert_eq!(shown, wanted);
        Ok(())
    }

    #[test]
    fn refused_sets() -> Result<(), Refusal> {
        for capacity in [MAX_BITS + 1, u64::MAX] {
            assert_eq!(BitSet::empty(capacity), Err(Refusal::UnfitSet));
            assert_eq!(BitSet::ones(capacity), Err(Refusal::UnfitSet));
        }
        assert_eq!(BitSet::from_words(65, vec![0]), Err(Refusal::UnfitSet));
        let mut set = BitSet::empty(255)?;
        let other = BitSet::ones(256)?;
        assert_eq!(set.insert_all(&other), Err(Refusal::UnfitSet));
        assert_eq!(set.contains(255), Err(Refusal::BitOutside));
        assert_eq!(set.remove(u64::MAX), Err(Refusal::BitOutside));
        assert_eq!(set.eq_left(&other, 256), Err(Refusal::BitOutside));
        assert!(set.is_empty());
        Ok(())
    }

    #[test]
    fn words_past_the_capacity_are_dropped() -> Result<(), Refusal> {
        assert_eq!(BitSet::from_words(64, vec![1, 2, 3])?.words(), [1]);
        assert_eq!(BitSet::from_words(0, vec![9])?, BitSet::empty(0)?);
        Ok(())
    }
}
