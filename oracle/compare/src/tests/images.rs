//! Writers and readers of images that are wrong in one thing.

use super::finds;
use crate::calls::{Calls, Proved};
use crate::images;
use crate::reading::bounds::*;
use crate::reading::image::{blocks, check, front, image, FORM, FORMS, OLDER};
use crate::reading::index::{mixed, needs, Given};
use crate::reading::refused;
use std::fs;

pub type Index<'a> = [&'a [u64]; 3];
pub type Stores<'a> = [&'a mut [u64]; 3];
pub type Blocks = Vec<Vec<u64>>;

/// Another writer in the place of the proved one.
pub struct Writer(pub fn(Index, &mut [u8]) -> u64);

impl Calls for Writer {
    fn image_write(&self, index: Index, image: &mut [u8]) -> u64 {
        (self.0)(index, image)
    }
}

/// Another reader.
pub struct Reader(pub fn(&[u8], Stores) -> u64);

impl Calls for Reader {
    fn image_read(&self, image: &[u8], stores: Stores) -> u64 {
        (self.0)(image, stores)
    }
}

/// The reading's image of no ids, of this form: how its first block begins, and the check of that. Checks were worked out apart from it.
fn image_of_no_ids_is(form: u64, front: &[u64], check: u64) {
    let index = images::built(1.7, &[]).expect("no id remains");
    let mut wanted = [[0_u64; BLOCK_WORDS]; 2];
    wanted[0][..front.len()].copy_from_slice(front);
    wanted[0][63] = check;
    wanted[1][0] = 1;
    wanted[1][63] = 0x500D_6DC3_17C9_B17F;
    assert_eq!(blocks(&index.image(form)), wanted);
}

#[test]
fn the_images_of_no_ids_are_these() {
    image_of_no_ids_is(OLDER, &[0, 1, 0, 1, 255], 0x8D6B_1AF2_7A72_025E);
    image_of_no_ids_is(FORM, &[0, 2, 0, 0, 1, 255], 0x349B_9DF1_613B_3DE0);
}

/// The reading writes the older form as the version did that wrote it: those images are kept, with count and gamma for a name.
#[test]
fn older_images_are_those_that_were_kept() {
    let folder = fs::read_dir("../../window/tests/images").expect("the window's tests have them");
    let mut compared = 0;
    for entry in folder {
        let path = entry.expect("a folder can be read").path();
        let name = path.file_name().expect("a file has one").to_string_lossy();
        if let Some((count, gamma)) = name
            .strip_suffix(".image")
            .and_then(|name| name.split_once("-ids-gamma-"))
        {
            let last: u64 = count.parse().expect("a count");
            let ids: Vec<u64> = (1..=last).map(|i| i.wrapping_mul(0x9E37_79B9_7F4A_7C15)).collect();
            let index = images::built(gamma.parse().expect("a gamma"), &ids).expect("no id remains");
            assert!(
                index.image(OLDER) == fs::read(&path).expect("a file can be read"),
                "{name}"
            );
            compared += 1;
        }
    }
    assert_eq!(compared, 10);
}

pub fn bytes(blocks: &Blocks) -> Vec<u8> {
    blocks.concat().iter().flat_map(|word| word.to_le_bytes()).collect()
}

/// The blocks after a change. Checks that were right still are, and those that were wrong are wrong.
pub fn kept(blocks: &mut Blocks, change: impl Fn(&mut Blocks)) {
    let errors: Vec<u64> = blocks.iter().map(|words| words[63] ^ check(&words[..63])).collect();
    change(blocks);
    for (words, error) in blocks.iter_mut().zip(errors) {
        words[63] = error ^ check(&words[..63]);
    }
}

/// Checks that start at 0 for those that start at 1, and the other way round.
fn restarted(blocks: &mut Blocks) {
    for words in blocks {
        let from_one = words[..63].iter().fold(1, |check, word| mixed(check ^ word, 0));
        words[63] ^= check(&words[..63]) ^ from_one;
    }
}

fn turned_round(blocks: &mut Blocks) {
    blocks.iter_mut().flatten().for_each(|word| *word = word.swap_bytes());
}

/// Content words from this one on.
fn content_from(blocks: &mut Blocks, first: usize) -> impl Iterator<Item = &mut u64> {
    blocks.iter_mut().flat_map(|words| &mut words[1..63]).skip(first)
}

/// Where the content has what a head has at this place, by the form that it says it is of.
fn at(blocks: &Blocks, place: usize) -> usize {
    front(blocks[0][1]) - HEAD + place
}

/// Where the content ends by its head, if that can be.
fn end(blocks: &mut Blocks) -> Option<usize> {
    let [first, front] = [at(blocks, 0), at(blocks, HEAD)];
    let head: Vec<u64> = content_from(blocks, first).take(HEAD).map(|word| *word).collect();
    needs(&head).map(|[words, samples]| front + words + samples)
}

/// The number of the head at this place is another.
fn another(blocks: &mut Blocks, place: usize, number: impl Fn(u64) -> u64) {
    let word = 1 + at(blocks, place);
    kept(blocks, |blocks| blocks[0][word] = number(blocks[0][word]));
}

/// A writer that is right but for the blocks that it leaves.
fn writes(index: Index, image: &mut [u8], change: impl Fn(&mut Blocks)) -> u64 {
    let result = Proved.image_write(index, image);
    if result < refused(LAST_REFUSAL) {
        let written = &mut image[..BLOCK_BYTES * result as usize];
        let mut blocks = blocks(written);
        change(&mut blocks);
        written.copy_from_slice(&bytes(&blocks));
    }
    result
}

#[test]
fn writers_of_other_blocks_are_found() {
    for wrong in [
        |index, image| writes(index, image, restarted),
        |index, image| writes(index, image, turned_round),
        // Another block number, another content word 0, a fill that is not 0.
        |index, image| writes(index, image, |blocks| kept(blocks, |blocks| blocks[1][0] = 2)),
        |index, image| writes(index, image, |blocks| kept(blocks, |blocks| blocks[0][1] = 1)),
        |index, image| writes(index, image, |blocks| kept(blocks, |blocks| blocks[0][1] = 3)),
        // Another kind.
        |index, image| writes(index, image, |blocks| another(blocks, KIND, |_| 1)),
        |index, image| {
            writes(index, image, |blocks| {
                let end = end(blocks).expect("the head is one");
                kept(blocks, |blocks| content_from(blocks, end).for_each(|fill| *fill = 7));
            })
        },
    ] as [fn(Index, &mut [u8]) -> u64; 7]
    {
        assert!(finds(&Writer(wrong)));
    }
}

/// All that it is lent, and not only what the levels use.
fn whole_stores([head, words, samples]: Index, store: &mut [u8]) -> u64 {
    let result = Proved.image_write([head, words, samples], store);
    let image = image(&[&[FORM], head, words, samples].concat());
    if result < refused(LAST_REFUSAL) && image.len() <= store.len() {
        store[..image.len()].copy_from_slice(&image);
    }
    result
}

/// The older form still, with as many blocks as that takes.
fn older_form(index: Index, store: &mut [u8]) -> u64 {
    let result = Proved.image_write(index, &mut store.to_vec());
    if result >= refused(LAST_REFUSAL) {
        return result;
    }
    let [head, words, samples] = index.map(<[u64]>::to_vec);
    let older = Given { head, words, samples }.image(OLDER);
    store[..older.len()].copy_from_slice(&older);
    (older.len() / BLOCK_BYTES) as u64
}

/// It takes unused sizes for 0.
fn unused_sizes_unasked([head, words, samples]: Index, image: &mut [u8]) -> u64 {
    let mut head = head.to_vec();
    if let Some(levels @ 1..=100) = head.get(LEVELS).copied() {
        head.iter_mut().skip(SIZES + levels as usize).for_each(|size| *size = 0);
    }
    Proved.image_write([&head, words, samples], image)
}

/// The blocks that there is room for, and then 11.
fn as_far_as_it_goes(index: Index, image: &mut [u8]) -> u64 {
    let result = Proved.image_write(index, image);
    if result == refused(11) {
        let mut whole = vec![0; image.len() + (1 << 20)];
        Proved.image_write(index, &mut whole);
        let room = image.len() / BLOCK_BYTES * BLOCK_BYTES;
        image[..room].copy_from_slice(&whole[..room]);
    }
    result
}

#[test]
fn other_wrong_writers_are_found() {
    for wrong in [
        whole_stores,
        older_form,
        unused_sizes_unasked,
        as_far_as_it_goes,
        // It answers a block too many.
        |index, image| match Proved.image_write(index, image) {
            blocks @ 0..=MAX_BITS => blocks + 1,
            refusal => refusal,
        },
        // Bytes past the blocks do not stay.
        |index, image| {
            let result = Proved.image_write(index, image);
            if result < refused(LAST_REFUSAL) {
                image[BLOCK_BYTES * result as usize..].fill(0);
            }
            result
        },
        // 11 before 7 and 15.
        |index, image| match Proved.image_write(index, image) {
            unfit if unfit >= refused(LAST_REFUSAL) && image.is_empty() => refused(11),
            result => result,
        },
        // 15 before 7.
        |[head, words, samples], image| match Proved.image_write([head, words, samples], image) {
            unfit if unfit == refused(7) && head.len() == HEAD && head[LEVELS] < 100 && head[HEAD - 1] > 0 => {
                refused(15)
            }
            result => result,
        },
    ] as [fn(Index, &mut [u8]) -> u64; 8]
    {
        assert!(finds(&Writer(wrong)));
    }
}

/// A reader that sees other blocks than there are, where the length is right.
pub fn sees(image: &[u8], stores: Stores, change: impl Fn(&mut Blocks)) -> u64 {
    if image.len() < MIN_IMAGE || image.len() % BLOCK_BYTES != 0 {
        return Proved.image_read(image, stores);
    }
    let mut blocks = blocks(image);
    change(&mut blocks);
    Proved.image_read(&bytes(&blocks), stores)
}

/// A fill that is not 0 goes.
fn fill_unasked(blocks: &mut Blocks) {
    if let Some(end) = end(blocks) {
        kept(blocks, |blocks| content_from(blocks, end).for_each(|fill| *fill = 0));
    }
}

/// Blocks past those that are needed go.
fn blocks_unasked(blocks: &mut Blocks) {
    if let Some(end) = end(blocks) {
        blocks.truncate((end + BLOCK_CONTENT - 1) / BLOCK_CONTENT);
    }
}

/// Any number of levels goes, as the nearest that can be.
fn levels_unasked(blocks: &mut Blocks) {
    another(blocks, LEVELS, |levels| levels.clamp(1, MAX_LEVELS as u64));
}

/// Any form goes, as the one that is written.
fn form_unasked(blocks: &mut Blocks) {
    if !FORMS.contains(&blocks[0][1]) {
        kept(blocks, |blocks| blocks[0][1] = FORM);
    }
}

fn unused_unasked(blocks: &mut Blocks) {
    let levels = blocks[0][1 + at(blocks, LEVELS)].min(MAX_LEVELS as u64) as usize;
    let unused = at(blocks, SIZES + levels);
    kept(blocks, |blocks| {
        let unused = content_from(blocks, unused).take(MAX_LEVELS - levels);
        unused.for_each(|size| *size = 0);
    });
}

#[test]
fn readers_that_do_not_ask_are_found() {
    for wrong in [
        |image, stores| sees(image, stores, restarted),
        |image, stores| sees(image, stores, turned_round),
        |image, stores| sees(image, stores, fill_unasked),
        |image, stores| sees(image, stores, blocks_unasked),
        |image, stores| sees(image, stores, levels_unasked),
        |image, stores| sees(image, stores, unused_unasked),
        // Content word 0, the id count, the size of level 0, the number of block 1, the last check.
        |image, stores| sees(image, stores, form_unasked),
        |image, stores| sees(image, stores, |blocks| another(blocks, IDS, |count| count.min(MAX_IDS))),
        |image, stores| {
            sees(image, stores, |blocks| {
                another(blocks, SIZES, |size| size.clamp(MIN_BITS, MAX_BITS));
            })
        },
        |image, stores| sees(image, stores, |blocks| kept(blocks, |blocks| blocks[1][0] = 1)),
        |image, stores| {
            sees(image, stores, |blocks| {
                let last = blocks.last_mut().expect("there are two");
                last[63] = check(&last[..63]);
            })
        },
    ] as [fn(&[u8], Stores) -> u64; 11]
    {
        assert!(finds(&Reader(wrong)));
    }
}

/// A reader that then says or leaves something else.
pub fn reads(image: &[u8], [words, samples, out]: Stores, then: impl Fn(u64, Stores) -> u64) -> u64 {
    let result = Proved.image_read(image, [words, samples, out]);
    then(result, [words, samples, out])
}

/// The refusal where words and samples have no place, and what it gives.
pub fn without_room(image: &[u8]) -> [u64; 2] {
    let mut out = [0; OUT];
    [Proved.image_read(image, [&mut [], &mut [], &mut out]), out[0]]
}

/// 14 before 13, of the whole blocks.
fn blocks_first(image: &[u8], stores: Stores) -> u64 {
    let whole = &image[..image.len() / BLOCK_BYTES * BLOCK_BYTES];
    reads(image, stores, |result, [_, _, out]| match without_room(whole) {
        [refusal, block] if result == refused(13) && refusal == refused(14) => {
            out[0] = block;
            refusal
        }
        _ => result,
    })
}

/// 15 before 14.
fn content_first(image: &[u8], stores: Stores) -> u64 {
    reads(image, stores, |result, [_, _, out]| {
        if result == refused(14) {
            let mut mended = blocks(image);
            mended.iter_mut().for_each(|words| words[63] = check(&words[..63]));
            if without_room(&bytes(&mended))[0] == refused(15) {
                out[0] = 0;
                return refused(15);
            }
        }
        result
    })
}

/// 11 before 15, where no level has room.
fn room_first(image: &[u8], stores: Stores) -> u64 {
    reads(image, stores, |result, [words, samples, _]| {
        if result == refused(15) && (words.len() < 4 || samples.is_empty()) {
            return refused(11);
        }
        result
    })
}

/// The room of `out` is asked last.
fn out_last(image: &[u8], stores: Stores) -> u64 {
    reads(image, stores, |result, [_, _, out]| {
        if out.len() < OUT {
            return without_room(image)[0];
        }
        result
    })
}

#[test]
fn readers_that_ask_in_another_order_are_found() {
    for wrong in [blocks_first, content_first, room_first, out_last] {
        assert!(finds(&Reader(wrong)));
    }
}

/// Stores are written before this refusal is known.
pub fn writes_before(number: u64, image: &[u8], stores: Stores) -> u64 {
    let room = stores[2].len() >= OUT;
    reads(image, stores, |result, [words, samples, _]| {
        if result == refused(number) && room {
            [words, samples]
                .into_iter()
                .flatten()
                .take(1)
                .for_each(|place| *place = 0);
        }
        result
    })
}

/// What one place of `out` has is something else after such results.
pub fn says(place: usize, after: fn(u64) -> bool, image: &[u8], stores: Stores) -> u64 {
    reads(image, stores, |result, [_, _, out]| {
        if let (Some(number), true) = (out.get_mut(place), after(result)) {
            *number = number.wrapping_add(1);
        }
        result
    })
}

#[test]
fn readers_that_leave_something_else_are_found() {
    for wrong in [
        |image, stores| writes_before(11, image, stores),
        |image, stores| writes_before(15, image, stores),
        |image, stores| says(0, |result| result == refused(14), image, stores),
        |image, stores| says(0, |result| result == refused(15), image, stores),
        |image, stores| says(0, |result| result == refused(11), image, stores),
        |image, stores| says(1, |result| result == refused(13), image, stores),
        |image, stores| says(1, |result| result == 0, image, stores),
        |image, stores| says(OUT - 1, |result| result != 0, image, stores),
        |image, stores| says(OUT, |_| true, image, stores),
        |image, stores| past_the_index(0, image, stores),
        |image, stores| past_the_index(1, image, stores),
    ] as [fn(&[u8], Stores) -> u64; 11]
    {
        assert!(finds(&Reader(wrong)));
    }
}

/// The first place past the index is not 0, of words or of samples.
fn past_the_index(store: usize, image: &[u8], stores: Stores) -> u64 {
    reads(image, stores, |result, [words, samples, out]| {
        if result == 0 {
            let used = needs(&out[1..OUT]).expect("the head is one")[store];
            [words, samples][store]
                .iter_mut()
                .skip(used)
                .take(1)
                .for_each(|place| *place = 1);
        }
        result
    })
}
