use crate::bounds::{BLOCK_BYTES, MAX_BITS, MAX_GAMMA, MAX_IDS, MIN_GAMMA, MIN_IMAGE};
use crate::host::NONE;
use std::{error, fmt};

/// Why a call was refused: a case for each number of the table in `docs/REFERENCE.md`, with the value that it carries. That page says what each leaves
/// in memory. As text, a refusal says what is wrong and what to do about it.
///
/// ```
/// use shawltide::{Index, Refusal};
/// let refusal = Index::build(&[7, 7], 2.0).unwrap_err();
/// assert_eq!(refusal, Refusal::IdsRemain(2));
/// assert_eq!(refusal.number(), 6);
/// assert_eq!(refusal.to_string(), "refusal 6: 2 ids remain after the last level; give each id once");
/// ```
#[derive(Clone, Copy, Debug, PartialEq, Eq, Hash)]
#[non_exhaustive]
pub enum Refusal {
    /// 1: gamma is not above 1.01, or is NaN.
    GammaTooSmall,
    /// 2: gamma is above 16.
    GammaTooLarge,
    /// 3: more than 1,048,576 ids.
    TooManyIds,
    /// 4: the rest store or the collide store of a build is too short.
    ShortWorkStore,
    /// 5: the word store or the sample store of a build has no room for this level.
    NoRoomForLevel(u64),
    /// 6: so many ids remain after level 99.
    IdsRemain(u64),
    /// 7: the head is not one of an index, or its words or samples are too short for it.
    UnfitHead,
    /// 8: a lookup finds a set bit whose sample or row cannot be.
    UnfitRow,
    /// 9: the bit is not below the capacity.
    BitOutside,
    /// 10: the words do not hold a set of the capacity, or the capacities are unequal.
    UnfitSet,
    /// 11: a store for answers is too short.
    ShortOutput,
    /// 12: the ids of a row list are not those of the index.
    WrongIds,
    /// 13: an image is shorter than 1,024 bytes, or not whole blocks of 512.
    UnfitLength,
    /// 14: this block of an image has a wrong number or a wrong check, and no block before it has.
    BadBlock(u64),
    /// 15: what the blocks of an image hold is no index; or a head that is to be written has a size past its levels that is not 0.
    UnfitContent,
    /// 16: the kind of hash that the head, the image or the caller of a build names is not known to this version.
    UnknownKind,
}

impl Refusal {
    /// The number in the table.
    pub fn number(self) -> u64 {
        match self {
            Refusal::GammaTooSmall => 1,
            Refusal::GammaTooLarge => 2,
            Refusal::TooManyIds => 3,
            Refusal::ShortWorkStore => 4,
            Refusal::NoRoomForLevel(_) => 5,
            Refusal::IdsRemain(_) => 6,
            Refusal::UnfitHead => 7,
            Refusal::UnfitRow => 8,
            Refusal::BitOutside => 9,
            Refusal::UnfitSet => 10,
            Refusal::ShortOutput => 11,
            Refusal::WrongIds => 12,
            Refusal::UnfitLength => 13,
            Refusal::BadBlock(_) => 14,
            Refusal::UnfitContent => 15,
            Refusal::UnknownKind => 16,
        }
    }

    /// The refusal of that number, with the value that 5, 6 or 14 carries.
    pub fn from_number(number: u64, value: u64) -> Option<Refusal> {
        Some(match number {
            1 => Refusal::GammaTooSmall,
            2 => Refusal::GammaTooLarge,
            3 => Refusal::TooManyIds,
            4 => Refusal::ShortWorkStore,
            5 => Refusal::NoRoomForLevel(value),
            6 => Refusal::IdsRemain(value),
            7 => Refusal::UnfitHead,
            8 => Refusal::UnfitRow,
            9 => Refusal::BitOutside,
            10 => Refusal::UnfitSet,
            11 => Refusal::ShortOutput,
            12 => Refusal::WrongIds,
            13 => Refusal::UnfitLength,
            14 => Refusal::BadBlock(value),
            15 => Refusal::UnfitContent,
            16 => Refusal::UnknownKind,
            _ => return None,
        })
    }
}

impl fmt::Display for Refusal {
    fn fmt(&self, f: &mut fmt::Formatter) -> fmt::Result {
        write!(f, "refusal {}: ", self.number())?;
        self.wrong(f)?;
        match self.advice() {
            Some(advice) => write!(f, "; {advice}"),
            None => Ok(()),
        }
    }
}

impl Refusal {
    /// What is wrong.
    fn wrong(&self, f: &mut fmt::Formatter) -> fmt::Result {
        match self {
            Refusal::GammaTooSmall => write!(f, "gamma is not above {MIN_GAMMA}"),
            Refusal::GammaTooLarge => write!(f, "gamma is above {MAX_GAMMA}"),
            Refusal::TooManyIds => write!(f, "there are more than {MAX_IDS} ids"),
            Refusal::ShortWorkStore => write!(f, "the rest store or the collide store is too short"),
            Refusal::NoRoomForLevel(level) => write!(f, "the words or the samples have no room for level {level}"),
            Refusal::IdsRemain(ids) => write!(f, "{ids} ids remain after the last level"),
            Refusal::UnfitHead => write!(f, "the head does not fit its bounds, its words or its samples"),
            Refusal::UnfitRow => write!(f, "the index is damaged: the id's sample or row cannot be"),
            Refusal::BitOutside => write!(f, "the bit is not below the capacity"),
            Refusal::UnfitSet => write!(
                f,
                "the words hold no set of the capacity, it is above {MAX_BITS}, or two capacities are unequal"
            ),
            Refusal::ShortOutput => write!(f, "a store for the answer is too short"),
            Refusal::WrongIds => write!(f, "the ids are not those of the index"),
            Refusal::UnfitLength => write!(
                f,
                "the image is shorter than {MIN_IMAGE} bytes or not whole blocks of {BLOCK_BYTES}: it was cut off, or is none"
            ),
            Refusal::BadBlock(block) => write!(f, "block {block} of the image is damaged"),
            Refusal::UnfitContent => write!(
                f,
                "there is no whole index of this form: the image was cut off, or written by something else"
            ),
            Refusal::UnknownKind => write!(f, "this kind of hash is not known to this version"),
        }
    }

    /// What to do about it, where that is not said by the bound itself.
    fn advice(&self) -> Option<&'static str> {
        Some(match self {
            Refusal::GammaTooSmall | Refusal::GammaTooLarge => return None,
            Refusal::TooManyIds => "share them out among several indexes",
            Refusal::ShortWorkStore => "lend a place for each id, and one for each word of level 0",
            Refusal::NoRoomForLevel(_) => "lend more of both",
            Refusal::IdsRemain(_) => "give each id once",
            Refusal::UnfitHead => "take all three as one build left them",
            Refusal::UnfitRow => "build it again",
            Refusal::BitOutside => "make the set larger",
            Refusal::UnfitSet => "make each set empty or of ones first, and keep its capacity",
            Refusal::ShortOutput => "lend as many places as the call writes",
            Refusal::WrongIds => "give those that it was built of, each once",
            Refusal::UnfitLength => "take the image whole, or build it again",
            Refusal::BadBlock(_) => "take another copy of it, or build it again",
            Refusal::UnfitContent => "build it again",
            Refusal::UnknownKind => "take kind 0 (plain), or a version that knows the kind",
        })
    }
}

impl error::Error for Refusal {}

/// What a call's result says: a value or none as it is, or the refusal, with what it carries.
pub(crate) fn answer(result: u64, carried: u64) -> Result<u64, Refusal> {
    Refusal::from_number(NONE - result, carried).map_or(Ok(result), Err)
}

#[cfg(test)]
mod tests {
    use super::*;
    use std::collections::HashSet;

    #[test]
    fn numbers_come_back() {
        for number in 1..=16 {
            let refusal = Refusal::from_number(number, 30).expect("the table has it");
            assert_eq!(refusal.number(), number);
            assert_eq!(answer(NONE - number, 30), Err(refusal));
            assert!(refusal.to_string().starts_with(&format!("refusal {number}: ")));
            let says_the_bound = number < 3;
            assert_ne!(refusal.to_string().contains("; "), says_the_bound);
        }
        assert_eq!(Refusal::from_number(0, 30), None);
        assert_eq!(Refusal::from_number(17, 30), None);
    }

    #[test]
    fn refusals_can_be_keys() {
        let all: HashSet<_> = (1..=16).map(|number| Refusal::from_number(number, 30)).collect();
        assert_eq!(all.len(), 16);
        assert!(all.contains(&Some(Refusal::IdsRemain(30))));
    }

    #[test]
    fn values_stay() {
        for value in [0, 1, MAX_BITS, NONE - 17, NONE] {
            assert_eq!(answer(value, 30), Ok(value));
        }
    }

    #[test]
    fn five_six_and_fourteen_carry_a_value() {
        assert!(Refusal::NoRoomForLevel(99).to_string().contains(" level 99;"));
        assert!(Refusal::IdsRemain(17).to_string().contains(" 17 ids "));
        assert!(Refusal::BadBlock(475_666).to_string().contains(" block 475666 "));
    }
}
