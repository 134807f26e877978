//! Kinds that are not known, in every call that has one: refused with 16, in their turn, and nothing changes.

mod ids;
mod plain;

use ids::ids;
use plain::{FORM, OLDER_FORM};
use shawltide::bounds::MAX_IDS;
use shawltide::host::{self, HEAD, NONE, OUT, PLACE};
use shawltide::{Index, Kind, Refusal, Room, GAMMA};

/// Among them such as look like a known one to whoever takes only their low bits.
const UNKNOWN: [u64; 8] = [1, 2, 1 << 8, 1 << 16, 1 << 32, (1 << 32) + 1, 1 << 63, u64::MAX];

/// Results: done, and refusals 7, 11, 15 and 16.
const DONE: u64 = 0;
const UNFIT_HEAD: u64 = NONE - 7;
const SHORT_OUTPUT: u64 = NONE - 11;
const UNFIT_CONTENT: u64 = NONE - 15;
const UNKNOWN_KIND: u64 = NONE - 16;

/// Places of a head, and of the content of an image, which has the form before it.
const KIND: usize = 0;
const COUNT: usize = 1;
const LEVELS: usize = 2;
const SIZES: usize = 3;

/// How many ids the indexes have: enough for an image of four blocks.
const IDS: usize = 2_000;

/// What stores hold before a call.
const BEFORE: u64 = 0xA5A5;

/// An index of some ids, the head with another kind.
struct Foreign {
    ids: Vec<u64>,
    head: [u64; HEAD],
    words: Vec<u64>,
    samples: Vec<u64>,
}

impl Foreign {
    fn of(kind: u64) -> Result<Foreign, Refusal> {
        let ids = ids(IDS as u64);
        let (mut head, words, samples) = Index::build(&ids, GAMMA)?.into_parts();
        head[KIND] = kind;
        Ok(Foreign {
            ids,
            head,
            words,
            samples,
        })
    }

    /// Its head, and heads that do not fit either, as their counts or sizes are wrong.
    fn heads(&self) -> Vec<[u64; HEAD]> {
        let mut heads = vec![self.head];
        for (place, number) in [
            (COUNT, MAX_IDS as u64 + 1),
            (LEVELS, 0),
            (LEVELS, u64::MAX),
            (SIZES, 0),
            (SIZES, u64::MAX),
            (SIZES + 99, 1),
        ] {
            let mut head = self.head;
            head[place] = number;
            heads.push(head);
        }
        heads
    }
}

/// A build of some ids in stores of the caller.
struct Build {
    words: Vec<u64>,
    samples: Vec<u64>,
    collide: Vec<u64>,
    rest: Vec<u64>,
    out: Vec<u64>,
}

impl Build {
    fn in_stores(places: [usize; 4], out: usize) -> Build {
        let [words, samples, collide, rest] = places.map(|places| vec![BEFORE; places]);
        let out = vec![BEFORE; out];
        Build {
            words,
            samples,
            collide,
            rest,
            out,
        }
    }

    fn run(&mut self, kind: u64, gamma: f64, ids: &[u64]) -> u64 {
        let Build {
            words,
            samples,
            collide,
            rest,
            out,
        } = self;
        host::build(kind, gamma, ids, words, samples, collide, rest, out)
    }

    fn stores_are_as_before(&self) -> bool {
        let stores = [&self.words, &self.samples, &self.collide, &self.rest];
        stores.iter().all(|store| store.iter().all(|word| *word == BEFORE))
    }
}

/// The crate and the calls know the same kinds.
#[test]
fn known_kinds() {
    let room = Room::enough(3, GAMMA);
    for number in (0..1_000).chain(UNKNOWN) {
        let mut build = Build::in_stores([room.words, room.samples, 4, 3], OUT);
        let result = build.run(number, GAMMA, &[10, 20, 30]);
        match Kind::from_number(number) {
            Some(kind) => assert_eq!((result, build.out[1 + KIND]), (DONE, kind.number())),
            None => assert_eq!(result, UNKNOWN_KIND, "kind {number}"),
        }
    }
    assert!(UNKNOWN.iter().all(|number| Kind::from_number(*number).is_none()));
}

/// Whatever else is wrong with it: gamma, the ids, which are too many or given twice, stores that are too short.
#[test]
fn builds() {
    let room = Room::enough(IDS, GAMMA);
    let enough = [room.words, room.samples, Room::of_first_level(IDS, GAMMA).words, IDS];
    let (some, twice, many) = (ids(IDS as u64), vec![7; IDS], vec![7; MAX_IDS + 1]);
    for kind in UNKNOWN {
        for gamma in [GAMMA, 1.01, 17.0, f64::NAN] {
            for ids in [&some, &twice, &many] {
                for places in [enough, [0; 4]] {
                    let mut build = Build::in_stores(places, OUT + 2);
                    assert_eq!(build.run(kind, gamma, ids), UNKNOWN_KIND);
                    assert!(build.stores_are_as_before());
                    assert_eq!(build.out, [&[0; OUT][..], &[BEFORE; 2]].concat());
                }
            }
        }
        let mut build = Build::in_stores(enough, OUT - 1);
        assert_eq!(build.run(kind, GAMMA, &some), SHORT_OUTPUT);
        assert!(build.stores_are_as_before());
        assert_eq!(build.out, [BEFORE; OUT - 1]);
    }
}

#[test]
fn lookups() -> Result<(), Refusal> {
    for kind in UNKNOWN {
        let foreign = Foreign::of(kind)?;
        let (words, samples, id) = (&foreign.words[..], &foreign.samples[..], foreign.ids[0]);
        let mut place = [BEFORE; PLACE + 1];
        for head in foreign.heads() {
            for (words, samples) in [(words, samples), (&[], samples), (words, &[]), (&[], &[])] {
                assert_eq!(host::lookup(&head, words, samples, id, &mut place), UNKNOWN_KIND);
            }
            for length in [0, 1, HEAD - 1] {
                let short = &head[..length];
                assert_eq!(host::lookup(short, words, samples, id, &mut place), UNFIT_HEAD);
                assert_eq!(host::lookup(short, words, samples, id, &mut place[..1]), SHORT_OUTPUT);
            }
            let long = [&head[..], &[0]].concat();
            assert_eq!(host::lookup(&long, words, samples, id, &mut place), UNFIT_HEAD);
            assert_eq!(host::lookup(&head, words, samples, id, &mut place[..1]), SHORT_OUTPUT);
        }
        assert_eq!(place, [BEFORE; PLACE + 1]);
    }
    Ok(())
}

#[test]
fn row_lists() -> Result<(), Refusal> {
    for kind in UNKNOWN {
        let foreign = Foreign::of(kind)?;
        let Foreign {
            ids, words, samples, ..
        } = &foreign;
        let (mut rows, mut marks) = ([BEFORE; IDS], [BEFORE; IDS / 64 + 1]);
        for head in foreign.heads() {
            for (ids, words) in [
                (&ids[..], &words[..]),
                (&ids[1..], words),
                (&[7; IDS], words),
                (ids, &[]),
            ] {
                assert_eq!(
                    host::rows(&head, words, samples, ids, &mut rows, &mut marks),
                    UNKNOWN_KIND
                );
                assert_eq!(
                    host::rows(&head, words, samples, ids, &mut [], &mut marks),
                    UNKNOWN_KIND
                );
                assert_eq!(host::rows(&head, words, samples, ids, &mut rows, &mut []), UNKNOWN_KIND);
            }
            let short = &head[..HEAD - 1];
            assert_eq!(
                host::rows(short, words, samples, ids, &mut rows, &mut marks),
                UNFIT_HEAD
            );
        }
        assert_eq!((rows, marks), ([BEFORE; IDS], [BEFORE; IDS / 64 + 1]));
    }
    Ok(())
}

#[test]
fn images_that_are_written() -> Result<(), Refusal> {
    for kind in UNKNOWN {
        let foreign = Foreign::of(kind)?;
        let (words, samples) = (&foreign.words[..], &foreign.samples[..]);
        let mut image = vec![7; Index::build(&foreign.ids, GAMMA)?.to_image()?.len()];
        for head in foreign.heads() {
            for (words, samples) in [(words, samples), (&[], samples), (words, &[])] {
                assert_eq!(host::image_write(&head, words, samples, &mut image), UNKNOWN_KIND);
                assert_eq!(host::image_write(&head, words, samples, &mut []), UNKNOWN_KIND);
            }
            let short = &head[..HEAD - 1];
            assert_eq!(host::image_write(short, words, samples, &mut image), UNFIT_HEAD);
        }
        assert!(image.iter().all(|byte| *byte == 7));
    }
    Ok(())
}

/// What a reading of blocks with this content answers. It is refused, and leaves the stores, the later places of `out` and a head of zeros.
fn refused_reading(content: &[u64], words: usize, samples: usize) -> u64 {
    let image = plain::blocks(content);
    let (mut words, mut samples) = (vec![BEFORE; words], vec![BEFORE; samples]);
    let mut out = [BEFORE; OUT + 1];
    let result = host::image_read(&image, &mut words, &mut samples, &mut out);
    assert!(words.iter().chain(&samples).all(|word| *word == BEFORE));
    assert_eq!((&out[..OUT], out[OUT]), (&[0; OUT][..], BEFORE));
    result
}

/// Contents of either form that hold no index, the kind apart: sizes that cannot be, more or fewer blocks than it takes, no zeros at the end.
fn broken(form: u64, foreign: &Foreign) -> Vec<Vec<u64>> {
    let content = |head: &[u64; HEAD]| plain::content(form, head, &foreign.words, &foreign.samples);
    let whole = content(&foreign.head);
    assert_ne!(whole.len() % 62, 0, "the last block has room for more");
    let mut broken: Vec<Vec<u64>> = foreign.heads()[1..].iter().map(content).collect();
    broken.push(whole[..whole.len() - 62].to_vec());
    broken.push([&whole[..], &[0; 62]].concat());
    broken.push([&whole[..], &[1]].concat());
    broken
}

#[test]
fn images_that_are_read() -> Result<(), Refusal> {
    for kind in UNKNOWN {
        let foreign = Foreign::of(kind)?;
        let (words, samples) = (foreign.words.len(), foreign.samples.len());
        let whole = plain::content(FORM, &foreign.head, &foreign.words, &foreign.samples);
        let image = plain::image(&foreign.head, &foreign.words, &foreign.samples);
        assert_eq!(Index::from_image(&image), Err(Refusal::UnknownKind));
        for content in broken(FORM, &foreign).iter().chain([&whole]) {
            assert_eq!(refused_reading(content, words, samples), UNKNOWN_KIND);
            assert_eq!(refused_reading(content, 0, 0), UNKNOWN_KIND);
        }
    }
    Ok(())
}

/// Length and blocks are asked before the kind, and before them the length of `out`.
#[test]
fn what_is_asked_before_the_kind_of_an_image() -> Result<(), Refusal> {
    let foreign = Foreign::of(1)?;
    let mut image = plain::image(&foreign.head, &foreign.words, &foreign.samples);
    let mut out = [BEFORE; OUT - 1];
    assert_eq!(host::image_read(&image, &mut [], &mut [], &mut out), SHORT_OUTPUT);
    assert_eq!(out, [BEFORE; OUT - 1]);
    assert_eq!(Index::from_image(&image[1..]), Err(Refusal::UnfitLength));
    assert_eq!(Index::from_image(&image[..512]), Err(Refusal::UnfitLength));
    let last = image.len() - 1;
    image[last] ^= 1;
    assert_eq!(Index::from_image(&image), Err(Refusal::BadBlock(last as u64 / 512)));
    Ok(())
}

/// A form that is none is found before the kind, and a content of the older form has no kind: what follows the form is its id count.
#[test]
fn forms_without_a_kind() -> Result<(), Refusal> {
    for kind in UNKNOWN.into_iter().chain([0]) {
        let foreign = Foreign::of(kind)?;
        let (words, samples) = (foreign.words.len(), foreign.samples.len());
        for form in [0, 3, u64::MAX] {
            let content = plain::content(form, &foreign.head, &foreign.words, &foreign.samples);
            assert_eq!(refused_reading(&content, words, samples), UNFIT_CONTENT);
        }
        for content in broken(OLDER_FORM, &foreign) {
            assert_eq!(refused_reading(&content, words, samples), UNFIT_CONTENT);
        }
        let mut content = plain::content(FORM, &foreign.head, &foreign.words, &foreign.samples);
        content[0] = OLDER_FORM;
        assert_eq!(refused_reading(&content, words, samples), UNFIT_CONTENT);
        let content = plain::content(OLDER_FORM, &foreign.head, &foreign.words, &foreign.samples);
        assert_eq!(refused_reading(&content, words - 1, samples), SHORT_OUTPUT);
        let read = Index::from_image(&plain::blocks(&content))?;
        assert_eq!(read, Index::build(&foreign.ids, GAMMA)?);
    }
    Ok(())
}
