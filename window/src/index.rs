use crate::bounds::MAX_IDS;
use crate::host;
use crate::kind::Kind;
use crate::refusal::{answer, Refusal};
use crate::room::{words_for, Room};
use std::fmt;

/// Places of a head: the number of the kind, the id count, the level count, and from there on the sizes.
const KIND: usize = 0;
const COUNT: usize = 1;
const LEVELS: usize = 2;
const SIZES: usize = 3;

/// An index of ids: gives each its row.
///
/// Any number of threads may ask one index at once, with no lock: no call changes it.
#[derive(Clone, PartialEq, Eq)]
pub struct Index {
    /// Kind, id count, level count, sizes.
    head: [u64; host::HEAD],
    words: Vec<u64>,
    samples: Vec<u64>,
}

/// Where a lookup found an id.
#[derive(Clone, Copy, Debug, PartialEq, Eq, Hash)]
pub struct Place {
    pub row: u64,
    /// The level whose bit gave the row, and the bit's position there.
    pub level: u64,
    pub position: u64,
}

impl Index {
    /// Builds an index of the ids, by the plain kind of hash. Their order makes no difference.
    ///
    /// Gamma is above 1.01 and at most 16. More makes a larger index, of fewer levels; [`GAMMA`](crate::GAMMA) is right for most, and README has a table.
    ///
    /// Refused are gamma out of its bounds (1, 2), more than [`MAX_IDS`] ids (3), and ids that remain after the last level (6): an id given twice
    /// always does, and for different ids it is not to be expected; `first_repeat` says which. No other refusal comes: the stores are as large as
    /// they need to be.
    ///
    /// ```
    /// use shawltide::{Index, Refusal};
    /// let index = Index::build(&[30, 10, 20], 2.0)?;
    /// assert_eq!(index, Index::build(&[10, 20, 30], 2.0)?);
    /// assert_eq!(index.len(), 3);
    /// assert_eq!(Index::build(&[10], 1.01), Err(Refusal::GammaTooSmall));
    /// # Ok::<(), Refusal>(())
    /// ```
    pub fn build(ids: &[u64], gamma: f64) -> Result<Index, Refusal> {
        Index::build_with(Kind::Plain, ids, gamma)
    }

    /// Builds an index of the ids by any kind of hash; else as [`Index::build`]. Nothing can be said of the rows that two kinds give an id.
    ///
    /// ```
    /// use shawltide::{Index, Kind, Refusal};
    /// let index = Index::build_with(Kind::Plain, &[10, 20, 30], 2.0)?;
    /// assert_eq!(index.kind(), Ok(Kind::Plain));
    /// # Ok::<(), Refusal>(())
    /// ```
    pub fn build_with(kind: Kind, ids: &[u64], gamma: f64) -> Result<Index, Refusal> {
        match build_in(kind, ids, gamma, Room::likely(ids.len(), gamma)) {
            Err(Refusal::NoRoomForLevel(_)) => build_in(kind, ids, gamma, Room::enough(ids.len(), gamma)),
            answer => answer,
        }
    }

    /// The index that a call left in `out` and in stores, of which it keeps what it uses.
    pub(crate) fn left_in(out: &[u64; host::OUT], mut words: Vec<u64>, mut samples: Vec<u64>) -> Index {
        let mut head = [0; host::HEAD];
        head.copy_from_slice(&out[1..]);
        let sizes = head[SIZES..].iter().take(head[LEVELS] as usize);
        let used = sizes.map(|size| Room::of_level(*size)).reduce(Room::plus);
        let used = used.expect("an index has a level");
        words.truncate(used.words);
        samples.truncate(used.samples);
        words.shrink_to_fit();
        samples.shrink_to_fit();
        Index { head, words, samples }
    }

    /// An index kept elsewhere: the head (kind, id count, level count, sizes), words and samples that [`Index::parts`] or [`Index::into_parts`] gave. Any
    /// others are taken too; then a lookup may be refused with 7, 8 or 16, and the rows that it gives are not those of an index.
    pub fn from_parts(head: [u64; host::HEAD], words: Vec<u64>, samples: Vec<u64>) -> Index {
        Index { head, words, samples }
    }

    /// The head, the words and the samples, to be kept elsewhere. [`Index::to_image`] makes bytes of them, whose damage is found.
    ///
    /// ```
    /// use shawltide::{host, Index};
    /// let index = Index::build(&[10, 20, 30], 2.0)?;
    /// let (head, words, samples) = index.parts();
    /// let mut place = [0; host::PLACE];
    /// let row = host::lookup(head, words, samples, 20, &mut place);
    /// assert_eq!(index.row(20)?, Some(row as usize));
    /// # Ok::<(), shawltide::Refusal>(())
    /// ```
    pub fn parts(&self) -> (&[u64; host::HEAD], &[u64], &[u64]) {
        (&self.head, &self.words, &self.samples)
    }

    /// The head, the words and the samples, as they are.
    pub fn into_parts(self) -> ([u64; host::HEAD], Vec<u64>, Vec<u64>) {
        (self.head, self.words, self.samples)
    }

    /// The id's row. An id that is not of the index has none, or gets the row of another.
    ///
    /// Refused are only indexes that no build made ([`Index::from_parts`], or an image made by hand): with a kind that is not known (16), a head that does
    /// not fit (7) or a row that cannot be (8).
    ///
    /// ```
    /// use shawltide::Index;
    /// let names = ["ten", "twenty", "thirty"];
    /// let index = Index::build(&[10, 20, 30], 2.0)?;
    /// let mut at_row = [""; 3];
    /// for (id, name) in [10, 20, 30].into_iter().zip(names) {
    ///     at_row[index.row(id)?.expect("each id has a row")] = name;
    /// }
    /// assert_eq!(at_row[index.row(20)?.unwrap()], "twenty");
    /// # Ok::<(), shawltide::Refusal>(())
    /// ```
    pub fn row(&self, id: u64) -> Result<Option<usize>, Refusal> {
        Ok(self.lookup(id)?.map(|place| place.row as usize))
    }

    /// The row of each id of a list, in the list's order, as [`Index::row`] gives it. The ids need not be of the index, nor different.
    ///
    /// ```
    /// use shawltide::Index;
    /// let index = Index::build(&[10, 20, 30], 2.0)?;
    /// let rows = index.rows_of(&[30, 10, 30])?;
    /// assert_eq!(rows, [index.row(30)?, index.row(10)?, index.row(30)?]);
    /// # Ok::<(), shawltide::Refusal>(())
    /// ```
    pub fn rows_of(&self, ids: &[u64]) -> Result<Vec<Option<usize>>, Refusal> {
        ids.iter().map(|id| self.row(*id)).collect()
    }

    /// The id's row with the level and the position where it was found; else as [`Index::row`].
    ///
    /// ```
    /// use shawltide::Index;
    /// let index = Index::build(&[10, 20, 30], 2.0)?;
    /// let place = index.lookup(20)?.expect("20 is one of the ids");
    /// assert!(place.row < 3 && place.level < index.levels() as u64);
    /// assert_eq!(Index::build(&[], 2.0)?.lookup(20)?, None);
    /// # Ok::<(), shawltide::Refusal>(())
    /// ```
    pub fn lookup(&self, id: u64) -> Result<Option<Place>, Refusal> {
        let mut place = [0; host::PLACE];
        let result = host::lookup(&self.head, &self.words, &self.samples, id, &mut place);
        let row = answer(result, 0)?;
        let [level, position] = place;
        Ok((row != host::NONE).then_some(Place { row, level, position }))
    }

    /// The row list: at each row the id that lookup sends there.
    ///
    /// The ids are those of the index, in any order. Others are refused with 12: too few or too many, one without a row, two on one row.
    ///
    /// ```
    /// use shawltide::{Index, Refusal};
    /// let index = Index::build(&[10, 20, 30], 2.0)?;
    /// let rows = index.rows(&[30, 20, 10])?;
    /// assert_eq!(rows[index.row(10)?.unwrap()], 10);
    /// assert_eq!(index.rows(&[10, 20]), Err(Refusal::WrongIds));
    /// # Ok::<(), Refusal>(())
    /// ```
    pub fn rows(&self, ids: &[u64]) -> Result<Vec<u64>, Refusal> {
        let count = self.len().min(MAX_IDS);
        let mut rows = vec![0; count];
        let mut marks = vec![0; words_for(count as u64)];
        let result = host::rows(&self.head, &self.words, &self.samples, ids, &mut rows, &mut marks);
        answer(result, 0)?;
        Ok(rows)
    }

    /// By which kind of hash the index was built. Refused with 16 is a number that is not known, which only a head has that no build made and no image
    /// gave ([`Index::from_parts`]).
    ///
    /// ```
    /// use shawltide::{Index, Kind, GAMMA};
    /// let index = Index::build(&[10, 20, 30], GAMMA)?;
    /// assert_eq!(index.kind()?, Kind::Plain);
    /// # Ok::<(), shawltide::Refusal>(())
    /// ```
    pub fn kind(&self) -> Result<Kind, Refusal> {
        Kind::try_from(self.head[KIND])
    }

    /// How many ids the index has.
    pub fn len(&self) -> usize {
        self.head[COUNT] as usize
    }

    pub fn is_empty(&self) -> bool {
        self.len() == 0
    }

    /// How many levels the index has.
    pub fn levels(&self) -> usize {
        self.head[LEVELS] as usize
    }

    /// How many words and samples there are.
    pub fn room(&self) -> Room {
        Room {
            words: self.words.len(),
            samples: self.samples.len(),
        }
    }

    /// How many bits the words and the samples take. The head takes [`host::HEAD`] numbers more, 824 bytes.
    pub fn bits(&self) -> usize {
        64 * (self.words.len() + self.samples.len())
    }
}

/// Its kind and counts, and not its content.
///
/// ```
/// let index = shawltide::Index::build(&[10, 20, 30], 2.0)?;
/// assert_eq!(format!("{index:?}"), "Index { kind: Plain, ids: 3, levels: 1, words: 4, samples: 1 }");
/// # Ok::<(), shawltide::Refusal>(())
/// ```
impl fmt::Debug for Index {
    fn fmt(&self, f: &mut fmt::Formatter) -> fmt::Result {
        let known = self.kind();
        let kind: &dyn fmt::Debug = match &known {
            Ok(kind) => kind,
            Err(_) => &self.head[KIND],
        };
        f.debug_struct("Index")
            .field("kind", kind)
            .field("ids", &self.len())
            .field("levels", &self.levels())
            .field("words", &self.words.len())
            .field("samples", &self.samples.len())
            .finish()
    }
}

/// A build in so much room.
fn build_in(kind: Kind, ids: &[u64], gamma: f64, room: Room) -> Result<Index, Refusal> {
    let mut words = vec![0; room.words];
    let mut samples = vec![0; room.samples];
    let mut collide = vec![0; Room::of_first_level(ids.len(), gamma).words];
    let mut rest = vec![0; ids.len().min(MAX_IDS)];
    let mut out = [0; host::OUT];
    let kind = kind.number();
    let result = host::build(
        kind,
        gamma,
        ids,
        &mut words,
        &mut samples,
        &mut collide,
        &mut rest,
        &mut out,
    );
    answer(result, out[0])?;
    Ok(Index::left_in(&out, words, samples))
}

#[cfg(test)]
mod tests {
    use super::*;
    use crate::GAMMA;
    use std::collections::HashSet;

    /// Different ids: multiples of an odd number.
    fn ids(count: u64) -> Vec<u64> {
        (1..=count).map(|i| i.wrapping_mul(0x9E37_79B9_7F4A_7C15)).collect()
    }

    #[test]
    fn each_row_belongs_to_one_id() -> Result<(), Refusal> {
        for (count, gamma) in [
            (1, 2.0),
            (2, 16.0),
            (171, 1.5),
            (5_000, 1.0100000000000002),
            (50_000, GAMMA),
        ] {
            let ids = ids(count);
            let index = Index::build(&ids, gamma)?;
            let mut owners = vec![0; ids.len()];
            for id in &ids {
                let place = index.lookup(*id)?.expect("each id has a row");
                assert!(place.level < index.levels() as u64);
                owners[place.row as usize] += 1;
            }
            assert!(owners.iter().all(|owners| *owners == 1));
        }
        Ok(())
    }

    #[test]
    fn the_row_list_is_by_level_and_position() -> Result<(), Refusal> {
        let ids = ids(3_000);
        let index = Index::build(&ids, 1.1)?;
        let rows = index.rows(&ids)?;
        let places: Vec<Place> = rows
            .iter()
            .map(|id| Ok(index.lookup(*id)?.expect("each id has a row")))
            .collect::<Result<_, Refusal>>()?;
        assert!(places.iter().map(|place| place.row).eq(0..3_000));
        assert_eq!(places.iter().collect::<HashSet<_>>().len(), 3_000);
        let order: Vec<_> = places.iter().map(|place| (place.level, place.position)).collect();
        assert!(order.windows(2).all(|two| two[0] < two[1]));
        let mut listed = rows;
        listed.sort_unstable();
        let mut wanted = ids;
        wanted.sort_unstable();
        assert_eq!(listed, wanted);
        Ok(())
    }

    #[test]
    fn no_ids() -> Result<(), Refusal> {
        let index = Index::build(&[], GAMMA)?;
        assert!(index.is_empty());
        assert_eq!((index.levels(), index.bits()), (1, 64 * 5));
        assert_eq!(index.lookup(0)?, None);
        assert_eq!(index.rows(&[])?, []);
        Ok(())
    }

    #[test]
    fn the_order_makes_no_difference() -> Result<(), Refusal> {
        let mut ids = ids(4_000);
        let index = Index::build(&ids, GAMMA)?;
        ids.reverse();
        ids.swap(17, 3_000);
        assert_eq!(Index::build(&ids, GAMMA)?, index);
        Ok(())
    }

    #[test]
    fn foreign_ids_get_none_or_a_row_below_the_count() -> Result<(), Refusal> {
        let index = Index::build(&ids(1_000), GAMMA)?;
        let found: Vec<_> = (0..1_000).map(|id| index.lookup(id)).collect::<Result<_, _>>()?;
        assert!(found.iter().flatten().all(|place| place.row < 1_000));
        assert!(found.contains(&None));
        Ok(())
    }

    #[test]
    fn rows_alone_and_of_a_list() -> Result<(), Refusal> {
        let index = Index::build(&ids(300), GAMMA)?;
        let asked: Vec<u64> = ids(300).into_iter().chain(0..300).rev().collect();
        let rows = index.rows_of(&asked)?;
        assert!(rows.contains(&None));
        for (id, row) in asked.iter().zip(&rows) {
            let place = index.lookup(*id)?;
            assert_eq!(*row, place.map(|place| place.row as usize));
            assert_eq!(index.row(*id)?, *row);
        }
        assert_eq!(index.rows_of(&[])?, []);
        Ok(())
    }

    #[test]
    fn shown_in_one_short_line() -> Result<(), Refusal> {
        let shown = format!("{:?}", Index::build(&ids(100_000), GAMMA)?);
        assert!(
            shown.starts_with("Index { kind: Plain, ids: 100000, levels: "),
            "{shown}"
        );
        assert!(shown.len() < 80, "{shown}");
        Ok(())
    }

    #[test]
    fn refused_builds() {
        for gamma in [1.01, 0.0, -2.0, f64::NAN, f64::NEG_INFINITY] {
            assert_eq!(Index::build(&[1], gamma), Err(Refusal::GammaTooSmall));
        }
        for gamma in [16.000000000000004, f64::MAX, f64::INFINITY] {
            assert_eq!(Index::build(&[1], gamma), Err(Refusal::GammaTooLarge));
        }
        assert_eq!(Index::build(&vec![0; MAX_IDS + 1], GAMMA), Err(Refusal::TooManyIds));
        assert_eq!(Index::build(&[7, 8, 7], GAMMA), Err(Refusal::IdsRemain(2)));
    }

    #[test]
    fn room_is_always_enough() {
        let mut twice = ids(2_000);
        twice.extend_from_within(..);
        let tried = build_in(Kind::Plain, &twice, GAMMA, Room::likely(twice.len(), GAMMA));
        assert!(matches!(tried, Err(Refusal::NoRoomForLevel(_))));
        assert_eq!(Index::build(&twice, GAMMA), Err(Refusal::IdsRemain(4_000)));
    }

    #[test]
    fn an_index_kept_elsewhere() -> Result<(), Refusal> {
        let ids = ids(600);
        let index = Index::build(&ids, GAMMA)?;
        let (head, words, samples) = index.clone().into_parts();
        assert_eq!(index.parts(), (&head, &words[..], &samples[..]));
        assert_eq!(Index::from_parts(head, words.clone(), samples.clone()), index);

        let short = Index::from_parts(head, words[1..].to_vec(), samples.clone());
        assert_eq!(short.lookup(ids[0]), Err(Refusal::UnfitHead));
        assert_eq!(short.rows(&ids), Err(Refusal::UnfitHead));

        let mut endless = head;
        endless[COUNT] = u64::MAX;
        let endless = Index::from_parts(endless, words.clone(), samples.clone());
        assert_eq!(endless.rows(&ids), Err(Refusal::UnfitHead));

        let high = vec![MAX_IDS as u64 + 1; samples.len()];
        let damaged = Index::from_parts(head, words, high);
        assert_eq!(damaged.lookup(ids[0]), Err(Refusal::UnfitRow));
        assert_eq!(damaged.row(ids[0]), Err(Refusal::UnfitRow));
        assert_eq!(damaged.rows_of(&ids[..1]), Err(Refusal::UnfitRow));
        assert_eq!(damaged.rows(&ids), Err(Refusal::WrongIds));
        Ok(())
    }

    #[test]
    fn a_kind_that_is_not_known() -> Result<(), Refusal> {
        let ids = ids(600);
        let index = Index::build(&ids, GAMMA)?;
        assert_eq!(index.kind(), Ok(Kind::Plain));
        for kind in [1, 2, 1 << 8, 1 << 32, u64::MAX] {
            let (mut head, words, samples) = index.clone().into_parts();
            head[KIND] = kind;
            let foreign = Index::from_parts(head, words, samples);
            assert_eq!(foreign.kind(), Err(Refusal::UnknownKind));
            assert_eq!(foreign.lookup(ids[0]), Err(Refusal::UnknownKind));
            assert_eq!(foreign.row(ids[0]), Err(Refusal::UnknownKind));
            assert_eq!(foreign.rows_of(&ids[..1]), Err(Refusal::UnknownKind));
            assert_eq!(foreign.rows(&ids), Err(Refusal::UnknownKind));
            assert_eq!(foreign.to_image(), Err(Refusal::UnknownKind));
            assert!(format!("{foreign:?}").starts_with(&format!("Index {{ kind: {kind}, ids: 600, ")));
            assert_ne!(foreign, index);
        }
        Ok(())
    }
}
