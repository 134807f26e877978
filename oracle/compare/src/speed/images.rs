//! Time of writing an index to bytes and of reading it back, at a million ids: boomphf's by a plain loop over its words, ours as an image.

use super::{median, GAMMA};
use crate::reading::bounds::{BLOCK_BYTES, BLOCK_CONTENT, OUT};
use crate::reading::image::{front, FORM};
use oracle::boomphf::Mphf;
use oracle::gammas::timed;
use shawltide::{host, Index, Refusal};
use std::time::Duration;

/// Each takes a thousandth of a second or so.
const ROUNDS: usize = 101;

/// The median of each, and how many bytes that is in a second.
pub fn measure(ids: &[u64]) -> Result<(), Refusal> {
    let rust = Mphf::new(GAMMA, ids);
    let ours = Index::build(ids, GAMMA)?;
    let (_, words, samples) = ours.parts();
    let mut times: [Vec<Duration>; 4] = Default::default();
    let mut lengths = [0; 2];
    for _ in 0..ROUNDS {
        let [rust_write, our_write, rust_read, our_read] = &mut times;
        let bytes = timed(rust_write, || written(&rust));
        let image = timed(our_write, || image(&ours));
        let rust_again = timed(rust_read, || read(&bytes));
        let our_again = timed(our_read, || loaded(&image, [words.len(), samples.len()]));
        assert!(rust_again.map(|levels| levels.concat()) == [words, samples]);
        assert!(our_again == [words, samples]);
        lengths = [bytes.len(), image.len()];
    }
    let [rust_write, our_write, rust_read, our_read] = times.map(|times| median(times).as_secs_f64());
    report("write", lengths, [rust_write, our_write]);
    report("read", lengths, [rust_read, our_read]);
    Ok(())
}

/// For each level how many words and ranks it has, and these.
fn written(index: &Mphf<u64>) -> Vec<u8> {
    let levels = index.bitvecs.iter();
    let places: usize = levels.map(|(bits, ranks)| 2 + bits.num_words() + ranks.len()).sum();
    let mut bytes = Vec::with_capacity(8 * places);
    for (bits, ranks) in index.bitvecs.iter() {
        let words = (0..bits.num_words()).map(|word| bits.get_word(word));
        let counts = [bits.num_words() as u64, ranks.len() as u64];
        for word in counts.into_iter().chain(words).chain(ranks.iter().copied()) {
            bytes.extend_from_slice(&word.to_le_bytes());
        }
    }
    bytes
}

/// The words of each level, and the ranks of each.
fn read(bytes: &[u8]) -> [Vec<Vec<u64>>; 2] {
    let word = |bytes: &[u8]| u64::from_le_bytes(bytes.try_into().expect("a word is 8 bytes"));
    let mut words = bytes.chunks_exact(8).map(word);
    let mut levels: [Vec<Vec<u64>>; 2] = Default::default();
    while let (Some(bits), Some(ranks)) = (words.next(), words.next()) {
        for (levels, count) in levels.iter_mut().zip([bits, ranks]) {
            levels.push(words.by_ref().take(count as usize).collect());
        }
    }
    levels
}

fn image(index: &Index) -> Vec<u8> {
    let (head, words, samples) = index.parts();
    let content = front(FORM) + words.len() + samples.len();
    let blocks = (content + BLOCK_CONTENT - 1) / BLOCK_CONTENT;
    let mut image = vec![0; BLOCK_BYTES * blocks];
    assert_eq!(host::image_write(head, words, samples, &mut image), blocks as u64);
    image
}

/// Words and samples, in stores of these lengths.
fn loaded(image: &[u8], lengths: [usize; 2]) -> [Vec<u64>; 2] {
    let [mut words, mut samples] = lengths.map(|length| vec![0; length]);
    assert_eq!(host::image_read(image, &mut words, &mut samples, &mut [0; OUT]), 0);
    [words, samples]
}

fn report(what: &str, lengths: [usize; 2], [rust, ours]: [f64; 2]) {
    let rates = [(lengths[0], rust), (lengths[1], ours)].map(|(bytes, seconds)| {
        let rate = bytes as f64 / 1e6 / seconds;
        format!("{bytes} bytes in {:.3} ms, {rate:.0} MB/s", 1e3 * seconds)
    });
    println!(
        "{what}: boomphf's words {}; our image {}; {:.2} times",
        rates[0],
        rates[1],
        ours / rust
    );
}
