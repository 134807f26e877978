//! Every number that a front end may want: the bounds, the refusals, and the room of indexes. `window/tests/header.c` writes the same lines of the
//! header for C, and `tools/window-tests` compares the two.

use shawltide::bounds::*;
use shawltide::{host, Kind, Refusal, Room};

fn main() {
    bounds();
    refusals();
    levels();
    rooms();
    images();
}

fn bounds() {
    println!("GAMMA {GAMMA}\nMIN_GAMMA {MIN_GAMMA}\nMAX_GAMMA {MAX_GAMMA}");
    println!("MAX_IDS {MAX_IDS}\nMIN_BITS {MIN_BITS}\nMAX_BITS {MAX_BITS}");
    println!("LEVEL_LIMIT {LEVEL_LIMIT}\nHEAD_SIZES {HEAD_SIZES}\nMAX_LEVELS {MAX_LEVELS}");
    println!("SAMPLE_WORDS {SAMPLE_WORDS}\nSAMPLE_BITS {SAMPLE_BITS}");
    println!("HEAD {}\nOUT {}\nPLACE {}", host::HEAD, host::OUT, host::PLACE);
    println!("KIND_PLAIN {}", Kind::Plain.number());
    println!("BLOCK_BYTES {BLOCK_BYTES}\nBLOCK_CONTENT {BLOCK_CONTENT}\nMIN_IMAGE {MIN_IMAGE}");
    println!("MAX_IMAGE {}", Room::largest().image_bytes());
}

fn refusals() {
    for (name, refusal) in [
        ("GAMMA_TOO_SMALL", Refusal::GammaTooSmall),
        ("GAMMA_TOO_LARGE", Refusal::GammaTooLarge),
        ("TOO_MANY_IDS", Refusal::TooManyIds),
        ("SHORT_WORK_STORE", Refusal::ShortWorkStore),
        ("NO_ROOM_FOR_LEVEL", Refusal::NoRoomForLevel(0)),
        ("IDS_REMAIN", Refusal::IdsRemain(0)),
        ("UNFIT_HEAD", Refusal::UnfitHead),
        ("UNFIT_ROW", Refusal::UnfitRow),
        ("BIT_OUTSIDE", Refusal::BitOutside),
        ("UNFIT_SET", Refusal::UnfitSet),
        ("SHORT_OUTPUT", Refusal::ShortOutput),
        ("WRONG_IDS", Refusal::WrongIds),
        ("UNFIT_LENGTH", Refusal::UnfitLength),
        ("BAD_BLOCK", Refusal::BadBlock(0)),
        ("UNFIT_CONTENT", Refusal::UnfitContent),
        ("UNKNOWN_KIND", Refusal::UnknownKind),
    ] {
        println!("{name} {}", refusal.number());
    }
}

/// Places of words and samples.
fn levels() {
    for bits in [0, 1, 64, 65, SAMPLE_BITS, SAMPLE_BITS + 1, MAX_BITS, u64::MAX] {
        let room = Room::of_level(bits);
        println!("level of {bits} bits: {} {}", room.words, room.samples);
    }
}

/// Places of collide, then of words and samples: likely, and always enough.
fn rooms() {
    let gammas = [1.0100000000000002, 1.1, GAMMA, 2.0, MAX_GAMMA, 1e300, -1.0, f64::NAN];
    for ids in [0, 1, 150, 151, 512, 513, 1_000, 1_000_000, MAX_IDS, MAX_IDS + 1] {
        for (number, gamma) in gammas.iter().enumerate() {
            let collide = Room::of_first_level(ids, *gamma).words;
            let (likely, enough) = (Room::likely(ids, *gamma), Room::enough(ids, *gamma));
            let places = [collide, likely.words, likely.samples, enough.words, enough.samples];
            let places = places.map(|places| places.to_string()).join(" ");
            println!("room of {ids} ids, gamma {number}: {places}");
        }
    }
}

/// Bytes of the image of an index that uses so much, and what is enough for the index of an image of so many bytes.
fn images() {
    for words in [0, 4, 20, 21, 82, 83, 1_000, 1 << 40] {
        let samples = words / 8;
        let bytes = Room { words, samples }.image_bytes();
        println!("image of {words} words: {bytes}");
    }
    for bytes in [0, 511, 512, MIN_IMAGE, 2_560, 1 << 40] {
        let room = Room::of_image(bytes);
        println!("room of an image of {bytes} bytes: {} {}", room.words, room.samples);
    }
}
