//! The lists that `replay` compares the proved functions with. Each is drawn by a number stated in it, and by nothing else.

mod index;
mod level;
mod lookup;
mod rank;
mod set;
mod size;

use crate::boomphf::{fold, hash_with_seed, hashmod};
use crate::bounds::{LEVEL_LIMIT, MAX_BITS, MIN_BITS, SAMPLE_BITS};
use crate::draw::Draw;
use crate::judge::words;
use crate::list::List;

/// Every list, by the name of its file.
pub fn all() -> Vec<(&'static str, List)> {
    vec![
        ("splitmix64", splitmix64()),
        ("mixer", mixer()),
        ("fold", folds()),
        ("position", positions()),
        ("size", size::sizes()),
        ("new", set::new()),
        ("ones", set::ones()),
        ("is_empty", set::is_empty()),
        ("len", set::len()),
        ("contains", set::contains()),
        ("insert", set::insert()),
        ("remove", set::remove()),
        ("insert_all", set::insert_all()),
        ("eq_left", set::eq_left()),
        ("members", set::members()),
        ("level", level::levels()),
        ("samples", rank::samples()),
        ("rank", rank::ranks()),
        ("lookup", lookup::lookups()),
        ("build", index::builds()),
    ]
}

/// What a list, or what several share, is drawn from.
fn draw(number: u64) -> Draw {
    Draw::new(0x0073_6861_776C_0000 + number)
}

/// The first levels and the last, and both sides of the line from which seed words come again.
const LEVELS: [u64; 6] = [0, 1, 31, 32, 33, LEVEL_LIMIT - 1];

const SIZES: [u64; 6] = [MIN_BITS, MIN_BITS + 1, SAMPLE_BITS - 1, SAMPLE_BITS + 1, 2000, MAX_BITS];

/// Ids at the edges of their halves, and 300 more.
fn ids() -> Vec<u64> {
    let mut draw = draw(1);
    let edges = [0, 1, (1 << 32) - 1, (1 << 32) + 1, 1 << 63, u64::MAX];
    edges.into_iter().chain((0..300).map(|_| draw.next())).collect()
}

/// The first ids at every level and one level more, the others at one each.
fn ids_at_levels() -> Vec<(u64, u64)> {
    let levels = LEVEL_LIMIT + 1;
    let ids = (0..).zip(ids());
    ids.flat_map(|(i, id)| {
        (0..levels)
            .filter(move |level| i < 16 || i % levels == *level)
            .map(move |level| (level, id))
    })
    .collect()
}

/// `state output`: the first five outputs of the public splitmix64.c from the state 1234567, as its users quote them. They come from outside, and
/// from no code here.
fn splitmix64() -> List {
    let outputs = [
        6_457_827_717_110_365_317,
        3_203_168_211_198_807_973,
        9_817_491_932_198_370_423,
        4_593_380_528_125_082_431,
        16_408_922_859_458_223_821,
    ];
    let mut list = List::default();
    let mut state: u64 = 1_234_567;
    for output in outputs {
        list.case(&[state, output]);
        state = state.wrapping_add(0x9E37_79B9_7F4A_7C15);
    }
    list
}

/// `level id hash`
fn mixer() -> List {
    let mut list = List::default();
    for (level, id) in ids_at_levels() {
        list.case(&[level, id, hash_with_seed(level, &id)]);
    }
    list
}

/// `value folded`, of ids and of their hashes
fn folds() -> List {
    let mut list = List::default();
    for id in ids() {
        for value in [id, hash_with_seed(0, &id)] {
            list.case(&[value, u64::from(fold(value))]);
        }
    }
    list
}

/// `level size id position`: at one size after the other.
fn positions() -> List {
    let mut list = List::default();
    for ((level, id), size) in ids_at_levels().into_iter().zip(SIZES.into_iter().cycle()) {
        list.case(&[level, size, id, hashmod(level, &id, size)]);
    }
    list
}
