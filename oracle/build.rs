//! Makes the copies of boomphf's `lib.rs` and `bitvector.rs` that the oracle compiles. `docs/src` stays as it is: what a copy
//! has otherwise is listed here.

use std::{env, fs, path::Path};

/// One edit of a copy: how many places have the first text, which all get the second.
type Edit = (usize, &'static str, &'static str);

const LIB: [Edit; 12] = [
    // The copy is a module and no crate root: its opening comment is no inner doc comment, and hashmap.rs is left out.
    (26, "\n//!", "\n//"),
    (1, "mod bitvector;\npub mod hashmap;\n", "use super::bitvector;\n"),
    // The hash is the plain mixer in the place of wyhash. Its seed word is boomphf's own.
    (1, "wyhash::WyHash", "crate::plain::PlainMixer"),
    // What the oracle shows: the hash functions, and each level's bit vector with its ranks.
    (5, "#[inline]\nfn ", "#[inline]\npub fn "),
    (1, "    bitvecs: Box<[(", "    pub bitvecs: Box<[("),
    // The steps of a build: one level, with its bits and those of collide, and the ranks.
    (1, "\nstruct Context {", "\npub struct Context {"),
    (
        1,
        "    fn new(size: u64, seed: u64)",
        "    pub fn new(size: u64, seed: u64)",
    ),
    (
        1,
        "    a: BitVector,\n    collide: BitVector,\n}",
        "    pub a: BitVector,\n    pub collide: BitVector,\n}",
    ),
    (1, "    fn find_collisions_sync<", "    pub fn find_collisions_sync<"),
    (2, "    fn filter<", "    pub fn filter<"),
    (1, "    fn compute_ranks(", "    pub fn compute_ranks("),
    (1, "    fn get_rank(", "    pub fn get_rank("),
];

const BITVECTOR: [Edit; 1] = [(15, "\n//!", "\n//")];

fn main() {
    copy("lib.rs", &LIB);
    copy("bitvector.rs", &BITVECTOR);
}

fn copy(name: &str, edits: &[Edit]) {
    let source = Path::new("../docs/src/src").join(name);
    println!("cargo:rerun-if-changed={}", source.display());
    let mut text = fs::read_to_string(&source).expect("docs/src holds boomphf's source");
    for (times, old, new) in edits {
        assert_eq!(text.matches(old).count(), *times, "{name}: places of {old:?}");
        text = text.replace(old, new);
    }
    let to = Path::new(&env::var("OUT_DIR").expect("cargo sets OUT_DIR")).join(name);
    fs::write(to, text).expect("cargo's OUT_DIR can be written");
}
