//! Images, held to the plain writing of them.

mod damage;
mod ids;
mod plain;

use ids::ids;
use shawltide::bounds::{BLOCK_BYTES, MAX_BITS, MAX_IDS, MIN_BITS, MIN_IMAGE};
use shawltide::{host, Index, Refusal, Room, GAMMA};

/// Places of the content: the form, the id count, the level count, the sizes. `kinds.rs` has what is asked of the kind, which stands behind the form. A head
/// begins behind it.
const FORM: usize = 0;
const COUNT: usize = 2;
const LEVELS: usize = 3;
const SIZES: usize = 4;
const HEAD: usize = 1;

fn plain_image(index: &Index) -> Vec<u8> {
    let (head, words, samples) = index.parts();
    plain::image(head, words, samples)
}

fn plain_content(index: &Index) -> Vec<u64> {
    let (head, words, samples) = index.parts();
    plain::content(plain::FORM, head, words, samples)
}

#[test]
fn images_are_as_the_plain_writing_has_them() -> Result<(), Refusal> {
    for (count, gamma) in [
        (0, GAMMA),
        (1, 2.0),
        (3, 16.0),
        (171, 1.5),
        (5_000, 1.1),
        (60_000, GAMMA),
    ] {
        let index = Index::build(&ids(count), gamma)?;
        let image = index.to_image()?;
        assert_eq!(image, plain_image(&index));
        let read = Index::from_image(&image)?;
        assert_eq!(read, index);
        assert_eq!(read.to_image()?, image);
        let rows = index.rows(&ids(count))?;
        assert_eq!(read.rows(&ids(count))?, rows);
    }
    Ok(())
}

/// 16,777,216 bits in one level, and a hundred of the smallest, which have the most samples to their words.
#[test]
fn levels_of_any_size() -> Result<(), Refusal> {
    for sizes in [
        vec![MAX_BITS],
        vec![MIN_BITS; 100],
        (0..100).map(|i| 255 + 33 * i).collect(),
    ] {
        let room: Vec<Room> = sizes.iter().map(|size| Room::of_level(*size)).collect();
        let mut head = [0; host::HEAD];
        head[LEVELS - HEAD] = sizes.len() as u64;
        head[SIZES - HEAD..][..sizes.len()].copy_from_slice(&sizes);
        let words = (0..room.iter().map(|room| room.words as u64).sum()).collect();
        let samples = (0..room.iter().map(|room| room.samples as u64).sum()).collect();
        let index = Index::from_parts(head, words, samples);
        let image = index.to_image()?;
        assert_eq!(image, plain_image(&index));
        assert_eq!(Index::from_image(&image)?, index);
    }
    Ok(())
}

#[test]
fn what_is_past_the_used_part_is_not_in_the_image() -> Result<(), Refusal> {
    let index = Index::build(&ids(3_000), GAMMA)?;
    let (head, mut words, mut samples) = index.clone().into_parts();
    words.extend([7; 1_000]);
    samples.extend([7; 1_000]);
    let longer = Index::from_parts(head, words, samples);
    assert_eq!(longer.to_image()?, plain_image(&index));
    Ok(())
}

#[test]
fn indexes_that_no_build_made_are_not_written() -> Result<(), Refusal> {
    let index = Index::build(&ids(300), GAMMA)?;
    let (head, words, samples) = index.into_parts();
    let of = |head| Index::from_parts(head, words.clone(), samples.clone()).to_image();
    assert!(of(head).is_ok());
    let changed = |place: usize, number| {
        let mut head = head;
        head[place - HEAD] = number;
        of(head)
    };
    assert_eq!(changed(COUNT, MAX_IDS as u64 + 1), Err(Refusal::UnfitHead));
    assert_eq!(changed(LEVELS, 0), Err(Refusal::UnfitHead));
    assert_eq!(changed(LEVELS, u64::MAX), Err(Refusal::UnfitHead));
    assert_eq!(changed(SIZES, u64::MAX), Err(Refusal::UnfitHead));
    assert_eq!(changed(SIZES + 99, 255), Err(Refusal::UnfitContent));
    let short = Index::from_parts(head, words[1..].to_vec(), samples.clone());
    assert_eq!(short.to_image(), Err(Refusal::UnfitHead));
    Ok(())
}

/// Of an image of four blocks, with a fifth behind it, any length but its own is refused.
#[test]
fn lengths() -> Result<(), Refusal> {
    let image = Index::build(&ids(2_000), GAMMA)?.to_image()?;
    assert_eq!(image.len(), 4 * BLOCK_BYTES);
    damage::lengths(&image, &image[..BLOCK_BYTES]);
    Ok(())
}

#[test]
fn every_changed_bit_is_found() -> Result<(), Refusal> {
    for count in [0, 300] {
        damage::every_bit(Index::build(&ids(count), GAMMA)?.to_image()?);
    }
    Ok(())
}

#[test]
fn the_first_of_several_bad_blocks_is_told() -> Result<(), Refusal> {
    let index = Index::build(&ids(5_000), GAMMA)?;
    let mut image = index.to_image()?;
    for block in (1..image.len() / BLOCK_BYTES).rev() {
        image[block * BLOCK_BYTES + 300] ^= 0x55;
        assert_eq!(Index::from_image(&image), Err(Refusal::BadBlock(block as u64)));
    }
    let mut swapped = plain_image(&index);
    let (second, third) = swapped[2 * BLOCK_BYTES..4 * BLOCK_BYTES].split_at_mut(BLOCK_BYTES);
    second.swap_with_slice(third);
    assert_eq!(Index::from_image(&swapped), Err(Refusal::BadBlock(2)));
    Ok(())
}

/// Blocks that are all sound, and whose content is no index.
#[test]
fn content_that_is_no_index() -> Result<(), Refusal> {
    let content = plain_content(&Index::build(&ids(300), GAMMA)?);
    let levels = content[LEVELS];
    let changes = [
        (FORM, 0),
        (FORM, 3),
        (FORM, u64::MAX),
        (COUNT, MAX_IDS as u64 + 1),
        (LEVELS, 0),
        (LEVELS, levels + 1),
        (LEVELS, 101),
        (SIZES, MIN_BITS - 1),
        (SIZES, MAX_BITS + 1),
        (SIZES, MAX_BITS),
        (SIZES + levels as usize, MIN_BITS),
        (SIZES + 99, 1),
    ];
    for (place, word) in changes {
        let mut content = content.clone();
        content[place] = word;
        let image = plain::blocks(&content);
        assert_eq!(
            Index::from_image(&image),
            Err(Refusal::UnfitContent),
            "{word} at {place}"
        );
    }
    let filled = [&content[..], &[1]].concat();
    assert_ne!(content.len() % 62, 0, "the last block has room for more");
    assert_eq!(Index::from_image(&plain::blocks(&filled)), Err(Refusal::UnfitContent));
    let longer = [&content[..], &[0; 62]].concat();
    assert_eq!(Index::from_image(&plain::blocks(&longer)), Err(Refusal::UnfitContent));
    Ok(())
}

/// The two calls over slices, with stores of the caller.
#[test]
fn calls_over_slices() -> Result<(), Refusal> {
    let index = Index::build(&ids(300), GAMMA)?;
    let wanted = plain_image(&index);
    let (head, words, samples) = index.parts();
    let mut image = vec![7; wanted.len() + 3];
    assert_eq!(
        host::image_write(head, words, samples, &mut image[..wanted.len() - 1]),
        host::NONE - 11
    );
    assert_eq!(
        host::image_write(&head[1..], words, samples, &mut image),
        host::NONE - 7
    );
    assert!(image.iter().all(|byte| *byte == 7));
    let blocks = host::image_write(head, words, samples, &mut image);
    assert_eq!(blocks as usize * BLOCK_BYTES, wanted.len());
    assert_eq!(
        (&image[..wanted.len()], &image[wanted.len()..]),
        (&wanted[..], &[7; 3][..])
    );

    let (mut read_words, mut read_samples) = (vec![7; words.len() + 2], vec![7; samples.len() + 1]);
    let mut out = [7; host::OUT + 1];
    let result = host::image_read(&wanted, &mut read_words[3..], &mut read_samples, &mut out);
    assert_eq!(
        (result, &out[..host::OUT], out[host::OUT]),
        (host::NONE - 11, &[0; host::OUT][..], 7)
    );
    assert!(read_words.iter().chain(&read_samples).all(|word| *word == 7));
    assert_eq!(
        host::image_read(&wanted, &mut read_words, &mut read_samples, &mut out),
        0
    );
    assert_eq!((out[0], &out[1..host::OUT], out[host::OUT]), (0, &head[..], 7));
    assert_eq!(read_words, [words, &[0, 0]].concat());
    assert_eq!(read_samples, [samples, &[0]].concat());
    let short = host::image_read(&[], &mut [], &mut [], &mut out[..host::OUT - 1]);
    assert_eq!(short, host::NONE - 11);
    Ok(())
}

#[test]
fn room_for_images() {
    assert_eq!(Room::of_level(MIN_BITS).image_bytes(), MIN_IMAGE);
    for (words, blocks) in [(0, 2), (20, 2), (21, 3), (82, 3), (83, 4)] {
        let room = Room { words, samples: 0 };
        assert_eq!(room.image_bytes(), blocks * BLOCK_BYTES, "{words} words");
    }
    let endless = Room {
        words: usize::MAX,
        samples: usize::MAX,
    };
    assert_eq!(endless.image_bytes(), usize::MAX);
    assert_eq!(Room::largest().image_bytes(), 475_667 * BLOCK_BYTES);
    for bytes in [0, 511] {
        assert_eq!(Room::of_image(bytes), Room { words: 0, samples: 0 });
    }
    assert_eq!(
        Room::of_image(1_024),
        Room {
            words: 124,
            samples: 24
        }
    );
}
