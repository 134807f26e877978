//! Images that no writer made. What the reader makes of them is the reading's; where it is known beforehand, it is also that.

use crate::bench::Bench;
use crate::damage::other;
use crate::images::{stores, unfit_numbers, unused_sizes};
use crate::kinds;
use crate::lent::{same_number, Compared};
use crate::reading::bounds::*;
use crate::reading::image::{block, blocks, check, front, image, ReadStores, FORM, FORMS, OLDER};
use crate::reading::index::Given;
use crate::reading::refused;

/// Stores that an index uses up.
fn exact(bench: &mut Bench, index: &Given) -> ReadStores {
    stores(bench, [index.words.len(), index.samples.len(), OUT])
}

/// The image is refused with 14, which gives this block.
fn bad_block(bench: &mut Bench, image: &[u8], before: &ReadStores, block: usize) -> Compared {
    let (result, after) = bench.image_read(image, before)?;
    same_number("result", result, refused(14))?;
    same_number("bad block", after.out[0], block as u64)
}

/// Each bit of the image turned, in a form that is drawn: the block that has it is bad.
pub fn every_bit(bench: &mut Bench, index: &Given) -> Compared {
    let mut image = index.image(bench.one_of(&FORMS));
    let before = exact(bench, index);
    for byte in 0..image.len() {
        for bit in 0..8 {
            image[byte] ^= 1 << bit;
            bad_block(bench, &image, &before, byte / BLOCK_BYTES)?;
            image[byte] ^= 1 << bit;
        }
    }
    Ok(())
}

/// Every length up to 2,048 bytes.
pub fn every_length(bench: &mut Bench, index: &Given) -> Compared {
    let form = bench.one_of(&FORMS);
    of_lengths(bench, index, form, 0..=2_048)
}

/// The lengths next to each multiple of 512 that is near the image's own.
pub fn lengths(bench: &mut Bench, index: &Given) -> Compared {
    for form in FORMS {
        let blocks = index.image(form).len() / BLOCK_BYTES;
        let near = (blocks - 2..=blocks + 2).map(|blocks| BLOCK_BYTES * blocks);
        let near = near.flat_map(|length| length.saturating_sub(1)..=length + 1);
        of_lengths(bench, index, form, near)?;
    }
    Ok(())
}

/// The image of this form cut to each length, or followed by zeros or by anything.
fn of_lengths(bench: &mut Bench, index: &Given, form: u64, lengths: impl Iterator<Item = usize>) -> Compared {
    let whole = index.image(form);
    let before = exact(bench, index);
    for length in lengths {
        let past = length.saturating_sub(whole.len());
        for past in [vec![0; past], bench.any_bytes(past)] {
            let image = [&whole[..length.min(whole.len())], &past].concat();
            let (result, _) = bench.image_read(&image, &before)?;
            let wanted = match length {
                _ if length == whole.len() => 0,
                _ if length < MIN_IMAGE || length % BLOCK_BYTES != 0 => refused(13),
                _ if length < whole.len() => refused(15),
                _ => refused(14),
            };
            same_number("result", result, wanted)?;
        }
    }
    Ok(())
}

/// Blocks with right checks and wrong numbers, and whole blocks in each other's places.
pub fn misplaced(bench: &mut Bench, index: &Given) -> Compared {
    let content = index.content(bench.one_of(&FORMS));
    let parts: Vec<&[u64]> = content.chunks(BLOCK_CONTENT).collect();
    let before = exact(bench, index);
    let whole: Vec<Vec<u8>> = (0..).zip(&parts).map(|(number, part)| block(number, part)).collect();
    for _ in 0..6 {
        let second = 1 + bench.draw.below(parts.len() as u64 - 1) as usize;
        let first = bench.draw.below(second as u64) as usize;
        let mut exchanged = whole.clone();
        exchanged.swap(first, second);
        bad_block(bench, &exchanged.concat(), &before, first)?;
        let mut again = whole.clone();
        again[second] = whole[first].clone();
        bad_block(bench, &again.concat(), &before, second)?;
        let mut renumbered = whole.clone();
        renumbered[first] = block(second as u64, parts[first]);
        renumbered[second] = block(first as u64, parts[second]);
        bad_block(bench, &renumbered.concat(), &before, first)?;
        renumbered[first] = whole[first].clone();
        bad_block(bench, &renumbered.concat(), &before, second)?;
        for number in [second as u64 + 1, second as u64 | 1 << 32, u64::MAX] {
            renumbered[second] = block(number, parts[second]);
            bad_block(bench, &renumbered.concat(), &before, second)?;
        }
    }
    Ok(())
}

/// Content that is wrong or only other, in blocks with right numbers and checks: 15, 16, or the index that it is. With damage of other sorts beside it, and
/// in stores that are short, the first counts of 11 for `out`, 13, 14, 15 for content word 0, 16, 15 and 11.
pub fn mended(bench: &mut Bench, index: &Given) -> Compared {
    for form in FORMS {
        for content in wrong_contents(index, form) {
            crossed(bench, index, &image(&content), 15)?;
        }
        for content in other_contents(index, form) {
            crossed(bench, index, &image(&content), 0)?;
        }
    }
    unknown_kinds(bench, index)?;
    relabelled(bench, index)
}

/// Kinds that are not known, by themselves and with each cause of 15: 16 counts, but for content word 0.
fn unknown_kinds(bench: &mut Bench, index: &Given) -> Compared {
    let content = index.content(FORM);
    for kind in kinds::unknown(bench) {
        crossed(bench, index, &image(&edited(&content, 1 + KIND, kind)), 16)?;
    }
    for content in wrong_contents(index, FORM) {
        let number = if content[0] == FORM { 16 } else { 15 };
        let kind = kinds::any(bench);
        crossed(bench, index, &image(&edited(&content, 1 + KIND, kind)), number)?;
    }
    Ok(())
}

/// Each form called the other. An older image then has its id count for a kind, and one level at least for an id count, which leaves a size for a level
/// count. The other way round the level count is a size.
fn relabelled(bench: &mut Bench, index: &Given) -> Compared {
    let number = if index.head[IDS] == PLAIN { 15 } else { 16 };
    crossed(bench, index, &image(&edited(&index.content(OLDER), 0, FORM)), number)?;
    crossed(bench, index, &image(&edited(&index.content(FORM), 0, OLDER)), 15)
}

/// Where content of this form has what a head has at this place.
fn at(form: u64, place: usize) -> usize {
    front(form) - HEAD + place
}

/// Each cause of 15, but for the other form.
fn wrong_contents(index: &Given, form: u64) -> Vec<Vec<u64>> {
    let content = index.content(form);
    let levels = index.head[LEVELS] as usize;
    let mut head: Vec<(usize, u64)> = [unfit_numbers(levels), unused_sizes(levels)].concat();
    // One level fewer leaves a size that is not used and not 0, one more uses a size that is 0 or not there.
    head.extend([(LEVELS, levels as u64 - 1), (LEVELS, levels as u64 + 1)]);
    // A block's worth of words more.
    head.push((SIZES, index.head[SIZES] + 64 * BLOCK_CONTENT as u64));
    let in_head = head.into_iter().map(|(place, number)| (at(form, place), number));
    let forms = [0, 3, (1 << 32) + form, u64::MAX].map(|other| (0, other));
    let edited = in_head
        .chain(forms)
        .map(|(place, number)| edited(&content, place, number));
    edited.chain(wrong_lengths(&content)).collect()
}

fn edited(content: &[u64], place: usize, number: u64) -> Vec<u64> {
    let mut content = content.to_vec();
    content[place] = number;
    content
}

/// A fill that is not 0 at its first or last word, a block or two too many, a block too few where that leaves two.
fn wrong_lengths(content: &[u64]) -> Vec<Vec<u64>> {
    let needed = (content.len() + BLOCK_CONTENT - 1) / BLOCK_CONTENT;
    let whole = |blocks: usize| {
        let mut whole = content.to_vec();
        whole.resize(blocks * BLOCK_CONTENT, 0);
        whole
    };
    let mut wrong = vec![whole(needed + 1), whole(needed + 2)];
    if needed > 2 {
        wrong.push(whole(needed - 1));
    }
    let filled = whole(needed);
    for place in [content.len(), filled.len() - 1] {
        if (content.len()..filled.len()).contains(&place) {
            wrong.extend([1, 1 << 63, u64::MAX].map(|word| edited(&filled, place, word)));
        }
    }
    wrong
}

/// Other id counts, words and samples, all of which an image may have. In the older form an id count stands where the other has a kind.
fn other_contents(index: &Given, form: u64) -> Vec<Vec<u64>> {
    let content = index.content(form);
    let (first, last) = (front(form), content.len() - 1);
    let counts = [0, 1, 2, MAX_IDS].map(|count| (at(form, IDS), count));
    let edits = [(first, !content[first]), (last, !content[last])];
    let edits = counts.into_iter().chain(edits);
    edits.map(|(place, number)| edited(&content, place, number)).collect()
}

/// An image by itself has this refusal due, or none; with a bit turned it is 14, a byte short or long 13, both 13: one of these, drawn.
fn crossed(bench: &mut Bench, index: &Given, whole: &[u8], number: u64) -> Compared {
    let mut turned = whole.to_vec();
    let bit = bench.draw.below(8 * whole.len() as u64);
    turned[(bit / 8) as usize] ^= 1 << (bit % 8);
    let [cut, both] = [whole, &turned].map(|image| &image[..image.len() - 1]);
    let longer = [whole, &[0]].concat();
    let [words, samples] = [index.words.len(), index.samples.len()];
    let damaged = bench.one_of(&[(&turned[..], 14), (cut, 13), (both, 13), (&longer, 13)]);
    for (image, number) in [(whole, number), damaged] {
        let short = if number == 0 { 11 } else { number };
        for (lengths, number) in [
            ([words, samples, OUT], number),
            ([words - 1, samples, OUT], short),
            ([words, samples - 1, OUT], short),
            ([0, 0, OUT + 1], short),
            ([words, samples, OUT - 1], 11),
        ] {
            let before = stores(bench, lengths);
            let (result, _) = bench.image_read(image, &before)?;
            same_number("result", result, if number == 0 { 0 } else { refused(number) })?;
        }
    }
    Ok(())
}

/// One to three acts of damage, drawn, and at times another length.
pub fn drawn(bench: &mut Bench, index: &Given) -> Compared {
    let whole = FORMS.map(|form| blocks(&index.image(form)));
    for round in 0..12 {
        let mut blocks = whole[round % 2].clone();
        for _ in 0..1 + bench.draw.below(3) {
            damage(bench, &mut blocks);
        }
        let mut image: Vec<u8> = blocks.concat().iter().flat_map(|word| word.to_le_bytes()).collect();
        if bench.draw.below(8) == 0 {
            let length = bench.draw.below(image.len() as u64 + 2 * BLOCK_BYTES as u64);
            image.resize(length as usize, 0);
        }
        let needs = [index.words.len(), index.samples.len(), OUT];
        let lengths = needs.map(|need| bench.one_of(&[need, need, need, need + 2, need - 1]));
        let before = stores(bench, lengths);
        bench.image_read(&image, &before)?;
    }
    Ok(())
}

/// Blocks exchanged, one taken out or put in again, all numbered anew, or a word changed: half of these among the first of block 0, and most with its block's
/// check mended.
fn damage(bench: &mut Bench, blocks: &mut Vec<Vec<u64>>) {
    let [one, two] = [(); 2].map(|_| bench.draw.below(blocks.len() as u64) as usize);
    match bench.draw.below(10) {
        0 => blocks.swap(one, two),
        1 if blocks.len() > 1 => drop(blocks.remove(one)),
        2 => blocks.insert(one, blocks[two].clone()),
        3 => (0..).zip(&mut *blocks).for_each(|(number, words)| {
            words[0] = number;
            words[63] = check(&words[..63]);
        }),
        _ => {
            let any = bench.draw.below(BLOCK_WORDS as u64) as usize;
            let front = bench.draw.below(8) as usize;
            let (number, word) = bench.one_of(&[(one, any), (0, front)]);
            let most = bench.one_of(&[MAX_IDS, MAX_LEVELS as u64, MAX_BITS]);
            let words = &mut blocks[number];
            words[word] = other(bench, words[word], most);
            if bench.draw.below(8) > 0 {
                words[63] = check(&words[..63]);
            }
        }
    }
}
