use crate::bounds::{BLOCK_BYTES, BLOCK_CONTENT, LEVEL_LIMIT, MAX_BITS, MAX_LEVELS, MIN_BITS, SAMPLE_WORDS};
use crate::host;

/// All levels of different ids are expected to take less than so many times what level 0 takes: e^(1 / gamma) times, but for the smallest levels.
const LIKELY_LEVELS: usize = 3;

/// The content of an image begins with a word for its form, before the head.
const FORM_WORDS: usize = 1;

/// Places for words and for samples: what a front end that calls [`host::build`] or [`host::image_read`] itself has to lend.
/// [`Index::build`](crate::Index::build) and [`Index::from_image`](crate::Index::from_image) see to it by themselves.
///
/// ```
/// use shawltide::Room;
/// let first = Room::of_first_level(1_000, 1.7);
/// assert_eq!((first.words, first.samples), (27, 4));
/// let likely = Room::likely(1_000, 1.7);
/// assert_eq!((likely.words, likely.samples), (3 * 27 + 400, 3 * 4 + 100));
/// let enough = Room::enough(1_000, 1.7);
/// assert_eq!((enough.words, enough.samples), (2_700, 400));
/// ```
#[derive(Clone, Copy, Debug, PartialEq, Eq, Hash)]
pub struct Room {
    pub words: usize,
    pub samples: usize,
}

impl Room {
    /// What a level of so many bits takes.
    pub fn of_level(bits: u64) -> Room {
        let words = words_for(bits);
        Room {
            words,
            samples: (words + SAMPLE_WORDS - 1) / SAMPLE_WORDS,
        }
    }

    /// What level 0 of so many ids takes, the largest level; its words are also what the collide store of a build needs. Level 0 has `gamma * ids` bits,
    /// rounded down, but at least [`MIN_BITS`]. What is out of bounds is cut to them: the build refuses it.
    pub fn of_first_level(ids: usize, gamma: f64) -> Room {
        let bits = (gamma * ids as f64) as u64;
        Room::of_level(bits.clamp(MIN_BITS, MAX_BITS))
    }

    /// What different ids are expected to take, and more. A build that is refused with 5 all the same can be run again in [`Room::enough`].
    pub fn likely(ids: usize, gamma: f64) -> Room {
        let first = Room::of_first_level(ids, gamma).times(LIKELY_LEVELS);
        first.plus(Room::of_level(MIN_BITS).times(LEVEL_LIMIT))
    }

    /// Enough for any ids: no level is larger than the first. No build in it is refused with 5. For a few ids it is a little less than
    /// [`Room::likely`], which does no harm.
    pub fn enough(ids: usize, gamma: f64) -> Room {
        Room::of_first_level(ids, gamma).times(LEVEL_LIMIT)
    }

    /// What the largest index takes that a head can name, and so the largest that an image can hold.
    pub fn largest() -> Room {
        Room::of_level(MAX_BITS).times(MAX_LEVELS)
    }

    /// Enough for the index of an image of so many bytes: its content is words, but for the head, and samples. No level has more samples to its words
    /// than the smallest.
    pub fn of_image(bytes: usize) -> Room {
        let content = bytes / BLOCK_BYTES * BLOCK_CONTENT;
        let least = Room::of_level(MIN_BITS);
        Room {
            words: content,
            samples: content / (least.words + least.samples) * least.samples,
        }
    }

    /// How many bytes the image of an index takes that uses so much: what [`host::image_write`] has to be lent.
    ///
    /// ```
    /// use shawltide::Index;
    /// let index = Index::build(&[10, 20, 30], 2.0)?;
    /// assert_eq!(index.room().image_bytes(), index.to_image()?.len());
    /// # Ok::<(), shawltide::Refusal>(())
    /// ```
    pub fn image_bytes(self) -> usize {
        let content = (FORM_WORDS + host::HEAD)
            .saturating_add(self.words)
            .saturating_add(self.samples);
        let blocks = content / BLOCK_CONTENT + usize::from(content % BLOCK_CONTENT > 0);
        blocks.saturating_mul(BLOCK_BYTES)
    }

    fn times(self, levels: usize) -> Room {
        Room {
            words: levels * self.words,
            samples: levels * self.samples,
        }
    }

    pub(crate) fn plus(self, other: Room) -> Room {
        Room {
            words: self.words + other.words,
            samples: self.samples + other.samples,
        }
    }
}

/// How many words so many bits need.
pub(crate) fn words_for(bits: u64) -> usize {
    (bits / 64 + u64::from(bits % 64 > 0)) as usize
}

#[cfg(test)]
mod tests {
    use super::*;
    use crate::bounds::{GAMMA, MAX_GAMMA, MAX_IDS, SAMPLE_BITS};

    #[test]
    fn of_levels() {
        for (bits, words, samples) in [
            (0, 0, 0),
            (1, 1, 1),
            (MIN_BITS, 4, 1),
            (SAMPLE_BITS, SAMPLE_WORDS, 1),
            (SAMPLE_BITS + 1, SAMPLE_WORDS + 1, 2),
            (MAX_BITS, 262_144, 32_768),
            (u64::MAX, 1 << 58, 1 << 55),
        ] {
            assert_eq!(Room::of_level(bits), Room { words, samples });
        }
    }

    #[test]
    fn of_first_levels() {
        let least = Room::of_level(MIN_BITS);
        for (ids, gamma) in [(0, GAMMA), (151, 1.69), (7, f64::NAN), (7, -1.0)] {
            assert_eq!(Room::of_first_level(ids, gamma), least);
        }
        let most = Room::of_level(MAX_BITS);
        for (ids, gamma) in [
            (MAX_IDS, MAX_GAMMA),
            (MAX_IDS + 1, MAX_GAMMA),
            (usize::MAX, f64::INFINITY),
        ] {
            assert_eq!(Room::of_first_level(ids, gamma), most);
        }
        assert_eq!(Room::of_first_level(151, GAMMA), Room::of_level(256));
    }
}
