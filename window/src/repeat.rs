/// The two places of the first id that is given again, in their order: the second is the first place whose id stands before it too, and the first
/// is where. `None` where the ids are all different.
///
/// It says why a build was refused with 6. It takes some memory for each id, and about as long as sorting them.
///
/// ```
/// use shawltide::{first_repeat, Index, Refusal};
/// let ids = [30, 10, 20, 10, 30];
/// assert_eq!(Index::build(&ids, 2.0), Err(Refusal::IdsRemain(4)));
/// assert_eq!(first_repeat(&ids), Some((1, 3)));
/// assert_eq!(first_repeat(&ids[..3]), None);
/// ```
pub fn first_repeat(ids: &[u64]) -> Option<(usize, usize)> {
    let mut order: Vec<usize> = (0..ids.len()).collect();
    order.sort_unstable_by_key(|place| (ids[*place], *place));
    order
        .windows(2)
        .map(|two| (two[0], two[1]))
        .filter(|(first, again)| ids[*first] == ids[*again])
        .min_by_key(|(_, again)| *again)
}

#[cfg(test)]
mod tests {
    use super::*;

    #[test]
    fn different_ids() {
        for ids in [&[][..], &[7], &[7, 8], &[u64::MAX, 0, 1]] {
            assert_eq!(first_repeat(ids), None);
        }
    }

    #[test]
    fn the_first_that_comes_again() {
        assert_eq!(first_repeat(&[7, 7]), Some((0, 1)));
        assert_eq!(first_repeat(&[1, 9, 0, 0, 9, 1]), Some((2, 3)));
        assert_eq!(first_repeat(&[9, 1, 0, 9, 1]), Some((0, 3)));
    }

    #[test]
    fn an_id_given_often_stands_first_at_its_first_place() {
        assert_eq!(first_repeat(&[5, 0, 0, 0, 5, 5]), Some((1, 2)));
        assert_eq!(first_repeat(&[4; 1_000]), Some((0, 1)));
    }

    /// Against the plain reading of what is promised.
    #[test]
    fn as_it_is_promised() {
        let mut id = 1_u64;
        let ids: Vec<u64> = (0..3_000)
            .map(|_| {
                id = id.wrapping_mul(0x5851_F42D_4C95_7F2D).wrapping_add(1);
                id >> 46
            })
            .collect();
        for start in (0..ids.len()).step_by(50) {
            let ids = &ids[start..];
            let plain = (0..ids.len()).find_map(|again| {
                let first = ids[..again].iter().position(|id| *id == ids[again]);
                first.map(|first| (first, again))
            });
            assert_eq!(first_repeat(ids), plain);
        }
    }
}
