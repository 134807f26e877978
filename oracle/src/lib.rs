//! boomphf 0.6.0 as the judge of the Rattle code: its source from `docs/src`, with the plain mixer for wyhash (`build.rs` lists
//! every edit), and what makes lists of its answers.

#[cfg(debug_assertions)]
compile_error!("the judge is boomphf's release build: add --release");

/// boomphf's `bitvector.rs`.
#[allow(dead_code)]
pub mod bitvector {
    include!(concat!(env!("OUT_DIR"), "/bitvector.rs"));
}

/// boomphf's `lib.rs`.
#[allow(dead_code)]
pub mod boomphf {
    include!(concat!(env!("OUT_DIR"), "/lib.rs"));
}

pub mod bounds;
pub mod draw;
pub mod gammas;
pub mod ids;
pub mod judge;
pub mod late;
pub mod list;
pub mod lists;
pub mod plain;
