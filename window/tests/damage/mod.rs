//! Damage of images, each piece with the refusal that it has to get.

use shawltide::bounds::{BLOCK_BYTES, MIN_IMAGE};
use shawltide::{Index, Refusal};

/// Each bit by itself: refused with its block.
pub fn every_bit(mut image: Vec<u8>) {
    for place in 0..image.len() {
        for bit in 0..8 {
            image[place] ^= 1 << bit;
            let refusal = Refusal::BadBlock((place / BLOCK_BYTES) as u64);
            assert_eq!(Index::from_image(&image), Err(refusal), "bit {bit} of byte {place}");
            image[place] ^= 1 << bit;
        }
    }
}

/// Each length of an image with a block behind it that is bad there, but the image's own. Where whole blocks are missing, those that are there hold no index.
pub fn lengths(image: &[u8], block: &[u8]) {
    let own = image.len();
    let behind = [image, block].concat();
    for length in 0..=behind.len() {
        let refusal = match length {
            _ if length == own => continue,
            _ if length < MIN_IMAGE || length % BLOCK_BYTES > 0 => Refusal::UnfitLength,
            _ if length > own => Refusal::BadBlock((own / BLOCK_BYTES) as u64),
            _ => Refusal::UnfitContent,
        };
        assert_eq!(Index::from_image(&behind[..length]), Err(refusal), "{length} bytes");
    }
}
