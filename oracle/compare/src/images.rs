//! Images of indexes: written and read in stores of every fit, and not written for heads that cannot be.

use crate::bench::{same_given, Bench};
use crate::lent::{same_number, same_store, Compared};
use crate::reading::bounds::*;
use crate::reading::image::{blocks, front, image, ReadStores, FORM, FORMS, OLDER};
use crate::reading::index::{head, run, Given};
use crate::reading::{refused, samples_for, words_for};
use oracle::plain;

/// The index of the ids, in words and samples that it uses up; nothing where ids remain.
pub fn built(gamma: f64, ids: &[u64]) -> Option<Given> {
    let run = run(gamma, ids);
    (run.remain == 0).then(|| Given {
        head: run.head(),
        words: run.words(),
        samples: run.samples(),
    })
}

/// Levels that no build made, few or as many as there can be.
pub fn drawn(bench: &mut Bench) -> Given {
    let levels = bench.one_of(&[1, 2, 3, 31, MAX_LEVELS - 1, MAX_LEVELS]);
    let most = bench.one_of(&[1, 300, 3_000]);
    let sizes: Vec<u64> = (0..levels).map(|_| MIN_BITS + bench.draw.below(most)).collect();
    of_sizes(bench, &sizes)
}

/// One level, or two, that leave so many words of the last block to the fill; in the older form one more, or none and a block less.
pub fn with_fill(bench: &mut Bench, fill: usize) -> Given {
    let places = 4 * BLOCK_CONTENT - front(FORM) - fill;
    let taken = |size: &u64| words_for(*size) + samples_for(*size);
    let one = |places: usize| {
        let mut sizes = (MIN_BITS..=MAX_BITS).step_by(64);
        sizes
            .find(|size| taken(size) >= places)
            .filter(|size| taken(size) == places)
    };
    let two = || one(places - taken(&MIN_BITS)).map(|size| vec![MIN_BITS, size]);
    let sizes = one(places).map(|size| vec![size]).or_else(two);
    of_sizes(bench, &sizes.expect("one level or two take any number of places"))
}

/// Levels of these sizes with anything in their words and samples.
fn of_sizes(bench: &mut Bench, sizes: &[u64]) -> Given {
    let words = sizes.iter().map(|size| words_for(*size)).sum();
    let samples = sizes.iter().map(|size| samples_for(*size)).sum();
    Given {
        head: head(bench.draw.below(MAX_IDS + 1), sizes),
        words: bench.anything(words),
        samples: bench.anything(samples),
    }
}

/// The image of an index that uses up its words and samples, and the older one, which is read and not written.
pub fn case(bench: &mut Bench, index: &Given) -> Compared {
    let [older, image] = FORMS.map(|form| index.image(form));
    checked(&older)?;
    checked(&image)?;
    written(bench, index, &image)?;
    loaded(bench, index, &older, &image)?;
    loaded(bench, index, &image, &image)
}

/// The numbers and checks of its blocks, by the oracle's mixer.
fn checked(image: &[u8]) -> Compared {
    for (number, words) in (0..).zip(blocks(image)) {
        let check = words[..63].iter().fold(0, |check, word| plain::mix(check ^ word, 0));
        same_number("block number", words[0], number)?;
        same_number("check by the oracle's mixer", words[63], check)?;
    }
    Ok(())
}

/// In stores at every address modulo 8 that are as long as needed; in others, with anything past what the index uses.
fn written(bench: &mut Bench, index: &Given, image: &[u8]) -> Compared {
    for _ in 0..8 {
        let store = bench.any_bytes(image.len());
        let (result, after) = bench.image_write(index, &store)?;
        same_number("blocks", result, (image.len() / BLOCK_BYTES) as u64)?;
        same_store("image", &after, image)?;
    }
    let longer = image.len() + 1 + bench.draw.below(2 * BLOCK_BYTES as u64) as usize;
    let shorter = bench.draw.below(image.len() as u64) as usize;
    for length in [
        longer,
        image.len() + 1,
        image.len() - 1,
        image.len() - BLOCK_BYTES,
        shorter,
        0,
    ] {
        let mut index = index.clone();
        for part in [&mut index.words, &mut index.samples] {
            let past = bench.draw.below(3) as usize;
            part.extend(bench.anything(past));
        }
        let store = bench.any_bytes(length);
        let (result, _) = bench.image_write(&index, &store)?;
        same_number(
            "written",
            (result < refused(LAST_REFUSAL)).into(),
            (length >= image.len()).into(),
        )?;
    }
    Ok(())
}

/// In stores as long as needed, from every address modulo 8; in longer ones, from which it is written again, whatever its form, in the form that is
/// written; in ones that are short.
fn loaded(bench: &mut Bench, index: &Given, image: &[u8], in_form: &[u8]) -> Compared {
    let [words, samples] = [index.words.len(), index.samples.len()];
    for _ in 0..8 {
        let stores = stores(bench, [words, samples, OUT]);
        let (result, after) = bench.image_read(image, &stores)?;
        same_number("result", result, 0)?;
        same_given(&index_in(after), index)?;
    }
    let stores_longer = stores(bench, [words + 3, samples + 2, OUT + 3]);
    let (_, after) = bench.image_read(image, &stores_longer)?;
    let (_, again) = bench.image_write(&index_in(after), &vec![0; in_form.len()])?;
    same_store("image written again", &again, in_form)?;
    let any_words = bench.draw.below(words as u64) as usize;
    for lengths in [
        [words - 1, samples, OUT],
        [words, samples - 1, OUT],
        [words, samples, OUT - 1],
        [any_words, samples + 1, OUT + 1],
        [0, 0, OUT],
        [words, samples, 0],
    ] {
        let stores = stores(bench, lengths);
        let (result, _) = bench.image_read(image, &stores)?;
        same_number("result", result, refused(11))?;
    }
    Ok(())
}

/// Words, samples and out with anything in them.
pub fn stores(bench: &mut Bench, lengths: [usize; 3]) -> ReadStores {
    let [words, samples, out] = lengths.map(|length| bench.anything(length));
    ReadStores { words, samples, out }
}

fn index_in(stores: ReadStores) -> Given {
    Given {
        head: stores.out[1..OUT].to_vec(),
        words: stores.words,
        samples: stores.samples,
    }
}

/// A level of the most bits that there can be, and one of a bit more: that is 7, and 15 in an image, though there is room for it and its blocks are right.
pub fn largest_level(bench: &mut Bench) -> Compared {
    for (size, written, read) in [(MAX_BITS, None, 0), (MAX_BITS + 1, Some(refused(7)), refused(15))] {
        let index = of_sizes(bench, &[size]);
        let [older, image] = [(OLDER, &index.head[IDS..]), (FORM, &index.head)]
            .map(|(form, head)| image(&[&[form], head, &index.words, &index.samples].concat()));
        let (result, _) = bench.image_write(&index, &vec![0; image.len()])?;
        same_number("result", result, written.unwrap_or((image.len() / BLOCK_BYTES) as u64))?;
        for image in [older, image] {
            let before = stores(bench, [index.words.len(), index.samples.len(), OUT]);
            let (result, _) = bench.image_read(&image, &before)?;
            same_number("result", result, read)?;
        }
    }
    Ok(())
}

/// Half of a word, which a number in bounds does not reach.
const HALF: u64 = 1 << 32;

/// Lengths that no head has.
pub const OTHER_LENGTHS: [usize; 6] = [0, 1, 2, HEAD - 2, HEAD - 1, HEAD + 1];

/// Places of a head of so many levels, with numbers that cannot be there: 7 in a head, 15 in an image.
pub fn unfit_numbers(levels: usize) -> Vec<(usize, u64)> {
    let ids = [MAX_IDS + 1, HALF, u64::MAX];
    let counts = [0, MAX_LEVELS as u64 + 1, HALF + levels as u64, u64::MAX];
    let sizes = [0, MIN_BITS - 1, MAX_BITS + 1, HALF + MIN_BITS, u64::MAX];
    let at = |place: usize, numbers: &[u64]| numbers.iter().map(move |number| (place, *number)).collect();
    let last = SIZES + levels - 1;
    let places: [Vec<(usize, u64)>; 4] = [at(IDS, &ids), at(LEVELS, &counts), at(SIZES, &sizes), at(last, &sizes)];
    places.concat()
}

/// The first and the last place past so many levels' sizes, if there is one, with sizes that an unused one cannot have: 15.
pub fn unused_sizes(levels: usize) -> Vec<(usize, u64)> {
    let unused = SIZES + levels..HEAD;
    let ends = unused.clone().take(1).chain(unused.last());
    ends.flat_map(|place| [1, MIN_BITS, u64::MAX].map(|size| (place, size)))
        .collect()
}

/// Heads and stores that the writer refuses: 7 before 15, and both whether the image has room or not.
pub fn unwritten(bench: &mut Bench, index: &Given) -> Compared {
    let room = index.image(FORM).len();
    unfit(bench, index, room)?;
    let mut stray = index.clone();
    for (place, size) in unused_sizes(index.head[LEVELS] as usize) {
        stray.head.clone_from(&index.head);
        stray.head[place] = size;
        not_written(bench, &stray, room, 15)?;
    }
    unfit(bench, &stray, room)
}

/// The head with a number that cannot be, with too few or too many numbers, or with a store that is one short.
fn unfit(bench: &mut Bench, index: &Given, room: usize) -> Compared {
    let mut given = index.clone();
    for (place, number) in unfit_numbers(index.head[LEVELS] as usize) {
        let right = std::mem::replace(&mut given.head[place], number);
        not_written(bench, &given, room, 7)?;
        given.head[place] = right;
    }
    for length in OTHER_LENGTHS {
        given.head.resize(length, 0);
        not_written(bench, &given, room, 7)?;
        given.head.clone_from(&index.head);
    }
    for store in [
        |given: &mut Given| given.words.pop(),
        |given: &mut Given| given.samples.pop(),
    ] {
        let mut given = index.clone();
        store(&mut given);
        not_written(bench, &given, room, 7)?;
    }
    Ok(())
}

fn not_written(bench: &mut Bench, given: &Given, room: usize, number: u64) -> Compared {
    for length in [room, room - 1, 0] {
        let store = bench.any_bytes(length);
        let (result, _) = bench.image_write(given, &store)?;
        same_number("result", result, refused(number))?;
    }
    Ok(())
}
