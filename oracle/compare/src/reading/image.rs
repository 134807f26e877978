//! Images: an index as bytes, block by block. They are written and read by the words of the request, not by the definitions.

use super::bounds::*;
use super::index::{known, mixed, needs, Given};
use super::*;

/// Content word 0 as the writer writes it, and what follows is the whole head.
pub const FORM: u64 = 2;

/// Content word 0 of older images, which have no kind, and are of the plain one.
pub const OLDER: u64 = 1;

/// The forms that the reader takes.
pub const FORMS: [u64; 2] = [OLDER, FORM];

/// How many content words of this form stand before those of the levels: word 0 and the head, its kind or not.
pub fn front(form: u64) -> usize {
    if form == OLDER {
        HEAD
    } else {
        1 + HEAD
    }
}

/// Word 63 of a block, by the words before it.
pub fn check(words: &[u64]) -> u64 {
    words.iter().fold(0, |check, word| mixed(check ^ word, 0))
}

/// The block of this number with this content, and zeros where that ends.
pub fn block(number: u64, content: &[u64]) -> Vec<u8> {
    let mut words = filled([&[number], content].concat(), BLOCK_WORDS - 1);
    words.push(check(&words));
    words.iter().flat_map(|word| word.to_le_bytes()).collect()
}

/// As many blocks as the content takes.
pub fn image(content: &[u64]) -> Vec<u8> {
    let parts = (0..).zip(content.chunks(BLOCK_CONTENT));
    parts.flat_map(|(number, part)| block(number, part)).collect()
}

/// The words of each block of an image that is whole blocks.
pub fn blocks(image: &[u8]) -> Vec<Vec<u64>> {
    let word = |bytes: &[u8]| u64::from_le_bytes(bytes.try_into().expect("a word is 8 bytes"));
    let words = |block: &[u8]| block.chunks(8).map(word).collect();
    image.chunks(BLOCK_BYTES).map(words).collect()
}

/// Where a head that can be has a size past its levels' that is not 0.
fn stray(head: &[u64]) -> bool {
    head[SIZES + head[LEVELS] as usize..].iter().any(|size| *size != 0)
}

impl Given {
    /// What an image of this form carries of the index, if that is not unfit: nothing of the stores past what the levels use.
    pub fn content(&self, form: u64) -> Vec<u64> {
        let [words, samples] = needs(&self.head).expect("the head fits");
        let head = if form == OLDER { &self.head[IDS..] } else { &self.head };
        [&[form], head, &self.words[..words], &self.samples[..samples]].concat()
    }

    pub fn image(&self, form: u64) -> Vec<u8> {
        image(&self.content(form))
    }

    /// The writer: its result, and the image store as it leaves it.
    pub fn write(&self, store: &[u8]) -> (u64, Vec<u8>) {
        let unchanged = |number| (refused(number), store.to_vec());
        if let Some(number) = self.unfit() {
            return unchanged(number);
        }
        if stray(&self.head) {
            return unchanged(15);
        }
        let image = self.image(FORM);
        if store.len() < image.len() {
            return unchanged(11);
        }
        ((image.len() / BLOCK_BYTES) as u64, fronted(&image, store))
    }
}

/// What is lent to the reader for writing.
#[derive(Clone, Debug)]
pub struct ReadStores {
    pub words: Vec<u64>,
    pub samples: Vec<u64>,
    pub out: Vec<u64>,
}

/// The reader: its result, and the stores as it leaves them.
pub fn read(image: &[u8], before: &ReadStores) -> (u64, ReadStores) {
    let mut after = before.clone();
    if before.out.len() < OUT {
        return (refused(11), after);
    }
    after.out = fronted(&[0; OUT], &before.out);
    match loaded(image, before) {
        Err((number, value)) => {
            after.out[0] = value;
            (refused(number), after)
        }
        Ok(index) => {
            after.words = filled(index.words, before.words.len());
            after.samples = filled(index.samples, before.samples.len());
            after.out[1..OUT].copy_from_slice(&index.head);
            (0, after)
        }
    }
}

/// The index in an image, where the stores have room for it; or the number of the refusal, and what it gives.
fn loaded(image: &[u8], stores: &ReadStores) -> Result<Given, (u64, u64)> {
    if image.len() < MIN_IMAGE || image.len() % BLOCK_BYTES != 0 {
        return Err((13, 0));
    }
    let blocks = blocks(image);
    let good = |number: u64, words: &[u64]| words[0] == number && words[63] == check(&words[..63]);
    if let Some((bad, _)) = (0..).zip(&blocks).find(|(number, words)| !good(*number, words)) {
        return Err((14, bad));
    }
    let content: Vec<u64> = blocks.iter().flat_map(|words| words[1..63].to_vec()).collect();
    let index = carried(&content).map_err(|number| (number, 0))?;
    if index.words.len() > stores.words.len() || index.samples.len() > stores.samples.len() {
        return Err((11, 0));
    }
    Ok(index)
}

/// The index that whole blocks carry, if they carry one, and nothing else; or 15 for content word 0, 16 for the kind, 15 for what comes after them.
fn carried(content: &[u64]) -> Result<Given, u64> {
    let form = content[0];
    let head = match form {
        OLDER => [&[PLAIN], &content[1..HEAD]].concat(),
        FORM => content[1..1 + HEAD].to_vec(),
        _ => return Err(15),
    };
    if !known(head[KIND]) {
        return Err(16);
    }
    let [words, samples] = needs(&head).ok_or(15_u64)?;
    let front = front(form);
    let end = front + words + samples;
    let needed = (end + BLOCK_CONTENT - 1) / BLOCK_CONTENT;
    if stray(&head) || content.len() != needed * BLOCK_CONTENT || content[end..].iter().any(|word| *word != 0) {
        return Err(15);
    }
    Ok(Given {
        head,
        words: content[front..front + words].to_vec(),
        samples: content[front + words..end].to_vec(),
    })
}
