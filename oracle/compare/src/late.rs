//! Indexes set by hand whose rows all come from level 32 on, where seed words come again.

use crate::bench::Bench;
use crate::builds::{answered, judged};
use crate::images;
use crate::lent::Compared;
use crate::reading::bounds::MIN_BITS;
use oracle::late;

/// Every lookup, the row list and the image of an index of so many levels.
pub fn case(bench: &mut Bench, level_count: u64) -> Compared {
    let (each, most) = (1 + bench.draw.below(4), bench.one_of(&[1, 66, 2_000]));
    let sizes: Vec<u64> = (0..level_count).map(|_| MIN_BITS + bench.draw.below(most)).collect();
    let (index, ids) = late::index(&mut bench.draw, &sizes, each);
    let given = judged(&index);
    answered(bench, &index, &given, &ids)?;
    images::case(bench, &given)
}
