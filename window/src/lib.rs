//! Ids to row numbers, with no two ids on one row, and proved so.
//!
//! An [`Index`] of n different u64 ids gives each of them a row of its own below n. A [`BitSet`] is a set of numbers below a capacity. Both are
//! safe calls over libhost.a, whose functions are proved to do what they promise. `docs/REFERENCE.md` says what each call takes, answers and
//! leaves, `docs/PROMISES.md` what is proved.
//!
//! ```
//! use shawltide::{Index, GAMMA};
//! # fn main() -> Result<(), shawltide::Refusal> {
//! let ids = [4711, 8080, 90_210];
//! let index = Index::build(&ids, GAMMA)?;
//! let rows = index.rows(&ids)?;
//! for id in ids {
//!     let row = index.row(id)?.expect("each id has a row");
//!     assert_eq!(rows[row], id);
//! }
//! # Ok(())
//! # }
//! ```
//!
//! **A row is no proof of membership.** An id that is not of the index gets none or the row of another. To know, ask whether the row list has the id
//! at its row.
//!
//! **Refusals.** What cannot be done is refused with a [`Refusal`], which says what is wrong and what to do. No call panics, but for `collect` and
//! `extend` of a [`BitSet`], which cannot refuse.
//!
//! **On disk.** [`Index::save`] keeps an index in a file and [`Index::load`] reads it back, so that it is built once. The file is an image, in blocks that
//! have a check each: what is damaged is refused, with the block. [`Index::to_image`] and [`Index::from_image`] do the same with bytes. Images of an older
//! form are read too.
//!
//! **Kinds.** An index gives its ids their places by a hash, of which there can be several kinds. [`Index::build`] takes the plain one,
//! [`Index::build_with`] any that this version knows; [`Index::kind`] says which it is.
//!
//! **Threads.** Every type here is `Send` and `Sync`: any number of threads may ask one [`Index`] or [`BitSet`] at once, with no lock. The calls of
//! libhost.a keep nothing between two calls, so that builds in several threads do not meet.
//!
//! ```
//! # fn main() -> Result<(), shawltide::Refusal> {
//! let index = shawltide::Index::build(&[10, 20, 30], 2.0)?;
//! let rows = std::thread::scope(|threads| {
//!     let asked = [10, 20, 30].map(|id| threads.spawn({ let index = &index; move || index.row(id) }));
//!     asked.map(|thread| thread.join().expect("a lookup does not panic"))
//! });
//! assert_eq!(rows[1], index.row(20));
//! # Ok(())
//! # }
//! ```

#[cfg(not(all(target_arch = "x86_64", target_os = "linux")))]
compile_error!("libhost.a is for x86-64 Linux: tools/cargo-x86-64 builds for it on aarch64 too");

pub mod bounds;
pub mod host;
mod image;
mod index;
mod kind;
mod members;
mod refusal;
mod repeat;
mod replace;
mod room;
mod set;

pub use bounds::{GAMMA, MAX_BITS, MAX_IDS};
pub use image::ImageError;
pub use index::{Index, Place};
pub use kind::Kind;
pub use members::Iter;
pub use refusal::Refusal;
pub use repeat::first_repeat;
pub use room::Room;
pub use set::BitSet;

/// The form in which an index is kept: a head of [`host::HEAD`] numbers, words and samples. A version that makes indexes of another form has another number
/// here, and at the beginning of the content of its images. Images of form 1, which have no kind, are read as [`Kind::Plain`], and written again in this
/// form.
pub const FORM: u64 = 2;
