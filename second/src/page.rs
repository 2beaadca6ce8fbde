//! A page: many groups, which are run one by one.

use crate::docket::{parse, refuse, Refusal};
use crate::machine::{run, Ran};

/// Tests 1 to 8 and 14 on the docket, then 32 on the counts and 33 on the results; a refusal writes nothing. Then each
/// group is run within its own stretch of the counts, with one limit for all, and leaves two results.
pub fn run_page(docket: &[u8], counts: &mut [u32], limit: u32, results: &mut [u64]) -> Result<(), Refusal> {
    let states = parse(docket)?.states.len();
    let groups = counts.len() / states;
    if groups == 0 || counts.len() != groups * states {
        return refuse(32, 0);
    }
    if results.len() != 2 * groups {
        return refuse(33, 0);
    }
    for (group, result) in counts.chunks_mut(states).zip(results.chunks_mut(2)) {
        result.copy_from_slice(&result_of(run(docket, group, limit)));
    }
    Ok(())
}

/// The number of the refusal and 0, or 0 and the steps times 2, plus 1 where the run rests.
fn result_of(said: Result<Ran, Refusal>) -> [u64; 2] {
    match said {
        Ok(Ran { steps, rests }) => [0, 2 * steps + u64::from(rests)],
        Err(refusal) => [u64::from(refusal.number), 0],
    }
}

#[cfg(test)]
mod tests {
    use super::*;
    use crate::docket::{samples::*, Docket};

    /// What every result is before a call.
    const OLD: u64 = 7_777_777_777_777;

    /// A call on these counts with so many old results: what it says, the counts and the results afterwards.
    fn page(docket: &Docket, counts: &[u32], limit: u32, results: usize) -> (Result<(), Refusal>, Vec<u32>, Vec<u64>) {
        let (mut counts, mut results) = (counts.to_vec(), vec![OLD; results]);
        let said = run_page(&docket.bytes(), &mut counts, limit, &mut results);
        (said, counts, results)
    }

    /// These groups, each with the counts and the results that it leaves, make a page.
    fn runs<const S: usize>(docket: &Docket, limit: u32, groups: &[([u32; S], [u32; S], [u64; 2])]) {
        let counts = groups.iter().flat_map(|group| group.0).collect::<Vec<_>>();
        let after = groups.iter().flat_map(|group| group.1).collect();
        let results = groups.iter().flat_map(|group| group.2).collect();
        let said = page(docket, &counts, limit, 2 * groups.len());
        assert_eq!(said, (Ok(()), after, results), "limit {limit}");
    }

    /// The page is refused, and nothing is written.
    fn refuses(docket: &Docket, counts: &[u32], results: usize, number: u32, place: usize) {
        for limit in [0, 9] {
            let said = page(docket, counts, limit, results);
            let expected = (refuse(number, place), counts.to_vec(), vec![OLD; results]);
            assert_eq!(said, expected, "{counts:?} and {results} results");
        }
    }

    /// P8 and P9, a group at rest, and P9 once more.
    #[test]
    fn several_groups() {
        let groups = [
            ([2, 1, 0, 0], [1, 0, 2, 0], [0, 5]),
            ([1, 1, 0, 0], [0, 0, 0, 2], [0, 5]),
            ([1, 0, 2, 0], [1, 0, 2, 0], [0, 1]),
            ([1, 1, 0, 0], [0, 0, 0, 2], [0, 5]),
        ];
        runs(&majority(), 2, &groups);
        runs(&majority(), u32::MAX, &groups);
        runs(&with_fixed(majority(), [3, 0, 1, 1000]), 9, &groups);
        runs(&majority(), 9, &groups[..1]);
        runs(&majority(), 9, &groups[1..3]);
    }

    /// A group says rest at the limit too; the limit is one for each group and not for all together.
    #[test]
    fn limits() {
        runs(
            &broadcast(TREE),
            0,
            &[([2, 1], [2, 1], [0, 0]), ([0, 2], [0, 2], [0, 1])],
        );
        let groups = [
            ([2, 1], [1, 2], [0, 2]),
            ([1, 1], [0, 2], [0, 3]),
            ([9, 0], [9, 0], [0, 1]),
        ];
        runs(&broadcast(TREE), 1, &groups);
        let groups = [([2, 1], [0, 3], [0, 5]); 3];
        runs(&broadcast(TREE), 2, &groups);
        let groups = [([999_999, 1], [0, 1_000_000], [0, 1_999_999]); 2];
        runs(&broadcast(TREE), 999_999, &groups);
        runs(&broadcast(TREE), 3, &[([999_999, 1], [999_996, 4], [0, 6])]);
    }

    /// A table that never rests.
    #[test]
    fn no_rest() {
        let docket = docket("2 3", "0 0 1 1 0; 1 1 0 0 0", "0 0", TREE);
        let groups = [
            ([2, 0], [0, 2], [0, 10]),
            ([1, 1], [1, 1], [0, 1]),
            ([0, 2], [2, 0], [0, 10]),
        ];
        runs(&docket, 5, &groups);
    }

    /// Groups that are refused: too few workers, or too many, also where a sum of 32 bits would be 2.
    const REFUSED: [[u32; 2]; 6] = [
        [0, 0],
        [0, 1],
        [1, 0],
        [1_000_000, 1],
        [u32::MAX, 3],
        [u32::MAX, u32::MAX],
    ];

    /// A refused group keeps its counts, and the others are run, wherever it stands.
    #[test]
    fn refused_groups() {
        for refused in REFUSED {
            for at in 0..3 {
                let mut groups = [([2, 1], [0, 3], [0, 5]); 3];
                groups[at] = (refused, refused, [21, 0]);
                runs(&broadcast(TREE), 9, &groups);
            }
        }
        runs(&broadcast(TREE), 9, &REFUSED.map(|group| (group, group, [21, 0])));
        runs(&broadcast(TREE), 0, &REFUSED.map(|group| (group, group, [21, 0])));
        runs(&broadcast(TREE), 9, &[([0, 0], [0, 0], [21, 0])]);
    }

    /// There is no limit to the number of groups.
    #[test]
    fn many_groups() {
        for number in [300, 301, 5000] {
            let mut groups = vec![([2, 1], [0, 3], [0, 5]); number];
            groups[number - 2] = ([1, 0], [1, 0], [21, 0]);
            runs(&broadcast(TREE), 9, &groups);
        }
    }

    #[test]
    fn counts_that_are_no_whole_number_of_groups() {
        for length in [0, 1, 3, 5, 599, 601] {
            for results in [0, 1, 2, 3, 4, 6, 600, 602] {
                refuses(&broadcast(TREE), &vec![1; length], results, 32, 0);
            }
        }
        for length in [0, 1, 2, 3, 5, 6, 7, 9] {
            for results in [0, 2, 4] {
                refuses(&majority(), &vec![0; length], results, 32, 0);
            }
        }
    }

    #[test]
    fn results_that_are_not_two_for_each_group() {
        for (groups, lengths) in [(1, &[0, 1, 3, 4, 8][..]), (2, &[0, 1, 2, 3, 5, 6, 8, 16])] {
            for &results in lengths {
                refuses(&majority(), &vec![1; 4 * groups], results, 33, 0);
                refuses(&majority(), &vec![u32::MAX; 4 * groups], results, 33, 0);
            }
        }
    }

    /// Tests 1 to 8 come before 32 and 33, and 14 is one of them.
    #[test]
    fn dockets_that_are_refused() {
        let mut no_rule = majority();
        no_rule.weights.push(vec![0; 4]);
        let mut out_of_order = with_fixed(majority(), [0; 4]);
        out_of_order.rules.swap(1, 2);
        let mut no_tree = majority();
        no_tree.nodes.clear();
        for (docket, number, place) in [(&no_rule, 8, 2), (&out_of_order, 14, 2), (&no_tree, 3, 3)] {
            for (counts, results) in [(4, 2), (0, 0), (0, 2), (3, 2), (4, 1), (5, 3)] {
                refuses(docket, &vec![1; counts], results, number, place);
            }
        }
        let (mut counts, mut results) = ([1, 1], [OLD; 2]);
        let said = run_page(&broadcast(TREE).bytes()[..98], &mut counts, 9, &mut results);
        assert_eq!((said, counts, results), (refuse(1, 0), [1, 1], [OLD; 2]));
    }

    /// What the results held does not matter where the page is run.
    #[test]
    fn old_results() {
        for old in [0, 1, 21, OLD, u64::MAX] {
            let (mut counts, mut results) = ([2, 1, 1, 0], [old; 4]);
            let said = run_page(&broadcast(TREE).bytes(), &mut counts, 9, &mut results);
            assert_eq!((said, counts, results), (Ok(()), [0, 3, 1, 0], [0, 5, 21, 0]));
        }
    }

    /// Each group has what a run of it alone says and leaves, in all pages of two small groups.
    #[test]
    fn groups_one_by_one() {
        let docket = two_outcomes();
        let groups: Vec<[u32; 3]> = (0..27).map(|n| [n / 9, n / 3 % 3, n % 3]).collect();
        for limit in 0..4 {
            let alone = groups.iter().map(|&group| {
                let mut after = group;
                let result = result_of(run(&docket.bytes(), &mut after, limit));
                (group, after, result)
            });
            let alone: Vec<_> = alone.collect();
            for &first in &alone {
                for &second in &alone {
                    runs(&docket, limit, &[first, second]);
                }
            }
        }
    }
}
