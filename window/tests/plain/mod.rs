//! Images as `docs/REFERENCE.md` says them, written apart from the library.

/// Content words of a block, between its number and its check.
const CONTENT: usize = 62;

/// The form of an image, and the older one, which has no kind.
pub const FORM: u64 = 2;
pub const OLDER_FORM: u64 = 1;

/// The image of an index of which every word and sample is used.
pub fn image(head: &[u64], words: &[u64], samples: &[u64]) -> Vec<u8> {
    blocks(&content(FORM, head, words, samples))
}

/// What the blocks hold: the form, the head, which begins with the kind, the words, the samples.
pub fn content(form: u64, head: &[u64], words: &[u64], samples: &[u64]) -> Vec<u64> {
    let head = if form == OLDER_FORM { &head[1..] } else { head };
    [&[form], head, words, samples].concat()
}

/// The blocks of a content, with zeros to the end of the last.
pub fn blocks(content: &[u64]) -> Vec<u8> {
    let mut image = Vec::new();
    for (number, part) in content.chunks(CONTENT).enumerate() {
        let mut block = vec![number as u64];
        block.extend(part);
        block.resize(1 + CONTENT, 0);
        block.push(check(&block));
        image.extend(block.iter().flat_map(|word| word.to_le_bytes()));
    }
    image
}

/// Starting at 0, each word is xored in, and then the sum is mixed.
fn check(words: &[u64]) -> u64 {
    words.iter().fold(0, |check, word| mixed(check ^ word))
}

/// The public SplitMix64 step.
pub fn mixed(word: u64) -> u64 {
    let z = word.wrapping_add(0x9E37_79B9_7F4A_7C15);
    let z = (z ^ (z >> 30)).wrapping_mul(0xBF58_476D_1CE4_E5B9);
    let z = (z ^ (z >> 27)).wrapping_mul(0x94D0_49BB_1331_11EB);
    z ^ (z >> 31)
}
