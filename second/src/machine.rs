//! The machine calls. Each makes tests 1 to 8 and 14 on the docket, then 20 and 21 on the counts.

use crate::docket::{parse, refuse, Docket, Refusal, Rule};

/// The verdict of a group.
#[derive(Clone, Copy, Debug, PartialEq, Eq)]
pub enum Verdict {
    Zero,
    One,
    Mixed,
}

/// The steps of a run, and whether it rests.
#[derive(Clone, Copy, Debug, PartialEq, Eq)]
pub struct Ran {
    pub steps: u64,
    pub rests: bool,
}

/// Whether the group may be a start: an input state has its fixed agents or more, and every other state its fixed agents
/// alone.
pub fn start_test(docket: &[u8], counts: &[u32]) -> Result<(), Refusal> {
    let docket = docket_for(docket, counts)?;
    for (place, state) in docket.states.iter().enumerate() {
        let more = i64::from(counts[place]) - state.fixed;
        if more < 0 || (more > 0 && !state.input) {
            return refuse(22, place);
        }
    }
    Ok(())
}

/// How many pairs of workers could make the meeting of the rule of this number; 0 just where it cannot act.
pub fn can_act(docket: &[u8], counts: &[u32], rule: u32) -> Result<u128, Refusal> {
    let docket = docket_for(docket, counts)?;
    Ok(pairs(numbered(&docket, rule)?, counts))
}

/// Whether no rule can act.
pub fn is_standstill(docket: &[u8], counts: &[u32]) -> Result<bool, Refusal> {
    let docket = docket_for(docket, counts)?;
    Ok(!docket.rules.iter().any(|rule| enabled(rule, counts)))
}

/// 0 or 1 if all occupied states have that verdict, otherwise mixed.
pub fn verdict(docket: &[u8], counts: &[u32]) -> Result<Verdict, Refusal> {
    Ok(verdict_of(&docket_for(docket, counts)?, counts))
}

/// The rule of this number acts.
pub fn step(docket: &[u8], counts: &mut [u32], rule: u32) -> Result<(), Refusal> {
    let docket = docket_for(docket, counts)?;
    let meeting = numbered(&docket, rule)?;
    if !enabled(meeting, counts) {
        return refuse(24, rule as usize);
    }
    act(meeting, counts);
    Ok(())
}

/// Steps by the lowest rule number of the lowest layer that can act, up to the limit or to rest.
pub fn run(docket: &[u8], counts: &mut [u32], limit: u32) -> Result<Ran, Refusal> {
    let docket = docket_for(docket, counts)?;
    let mut steps = 0;
    while let Some(rule) = next_rule(&docket, counts) {
        if steps == u64::from(limit) {
            return Ok(Ran { steps, rests: false });
        }
        act(rule, counts);
        steps += 1;
    }
    Ok(Ran { steps, rests: true })
}

/// Steps as a run makes them, up to rest; hands back how many. It ends where the docket passes tests 9 and 10.
pub(crate) fn run_to_rest(docket: &Docket, counts: &mut [u32]) -> u64 {
    let mut steps = 0;
    while let Some(rule) = next_rule(docket, counts) {
        act(rule, counts);
        steps += 1;
    }
    steps
}

pub(crate) fn verdict_of(docket: &Docket, counts: &[u32]) -> Verdict {
    let occupied = |verdict: u8| (0..counts.len()).any(|i| counts[i] > 0 && docket.states[i].verdict == verdict);
    match (occupied(0), occupied(1)) {
        (_, false) => Verdict::Zero,
        (false, true) => Verdict::One,
        (true, true) => Verdict::Mixed,
    }
}

/// Tests 1 to 8, 14, 20 and 21.
fn docket_for(docket: &[u8], counts: &[u32]) -> Result<Docket, Refusal> {
    let docket = parse(docket)?;
    if counts.len() != docket.states.len() {
        return refuse(20, 0);
    }
    let size: u64 = counts.iter().map(|&count| u64::from(count)).sum();
    if !(2..=1_000_000).contains(&size) {
        return refuse(21, 0);
    }
    Ok(docket)
}

/// Test 23.
fn numbered(docket: &Docket, rule: u32) -> Result<&Rule, Refusal> {
    match docket.rules.get(rule as usize) {
        Some(found) => Ok(found),
        None => refuse(23, rule as usize),
    }
}

/// The number of pairs of one worker of p and one of q or, where p = q, of two different workers of that state.
fn pairs(rule: &Rule, counts: &[u32]) -> u128 {
    let [p, q] = rule.before;
    let [in_p, in_q] = [p, q].map(|state| u128::from(counts[state]));
    if p == q {
        in_p * in_p.saturating_sub(1) / 2
    } else {
        in_p * in_q
    }
}

fn enabled(rule: &Rule, counts: &[u32]) -> bool {
    pairs(rule, counts) != 0
}

/// Removes one worker from p and one from q, then adds one to p' and one to q'.
fn act(rule: &Rule, counts: &mut [u32]) {
    for state in rule.before {
        counts[state] -= 1;
    }
    for state in rule.after {
        counts[state] += 1;
    }
}

/// The lowest rule number of the lowest layer that can act, by one pass over the rules.
fn next_rule<'a>(docket: &'a Docket, counts: &[u32]) -> Option<&'a Rule> {
    let mut lowest: Option<&Rule> = None;
    for rule in &docket.rules {
        if enabled(rule, counts) && lowest.is_none_or(|found| rule.layer < found.layer) {
            lowest = Some(rule);
        }
    }
    lowest
}

#[cfg(test)]
mod tests {
    use super::*;
    use crate::docket::samples::*;

    /// A run from these counts with this limit ends in these counts after these steps, at rest or not.
    fn runs(docket: &Docket, start: &[u32], limit: u32, end: &[u32], steps: u64, rests: bool) {
        let mut counts = start.to_vec();
        let said = run(&docket.bytes(), &mut counts, limit);
        assert_eq!((said, counts.as_slice()), (Ok(Ran { steps, rests }), end));
    }

    /// In P9, layer 1 is quiet at first and acts after layer 0.
    #[test]
    fn p8_and_p9() {
        let bytes = majority().bytes();
        runs(&majority(), &[2, 1, 0, 0], u32::MAX, &[1, 0, 2, 0], 2, true);
        assert_eq!(verdict(&bytes, &[1, 0, 2, 0]), Ok(Verdict::Zero));
        runs(&majority(), &[1, 1, 0, 0], u32::MAX, &[0, 0, 0, 2], 2, true);
        assert_eq!(verdict(&bytes, &[0, 0, 0, 2]), Ok(Verdict::One));
        assert_eq!(verdict(&bytes, &[1, 1, 0, 0]), Ok(Verdict::Mixed));
        assert_eq!(is_standstill(&bytes, &[0, 0, 0, 2]), Ok(true));
        assert_eq!(is_standstill(&bytes, &[0, 0, 1, 1]), Ok(false));
    }

    /// A lower layer that was quiet acts once a higher one has acted.
    #[test]
    fn a_run_looks_at_every_layer_again() {
        runs(&exchanged(), &[1, 1, 0, 0], 1, &[0, 0, 1, 1], 1, false);
        runs(&exchanged(), &[1, 1, 0, 0], 2, &[0, 0, 0, 2], 2, true);
    }

    /// The layer decides before the rule number; within a layer the lower number is used.
    #[test]
    fn a_run_takes_the_lowest_layer_first() {
        let docket = docket("2 3 1", "0 1 2 2 1; 0 0 1 1 0; 1 1 0 0 0", "0 0 0; 0 0 0", TREE);
        runs(&docket, &[2, 2, 0], 1, &[0, 4, 0], 1, false);
        runs(&docket, &[2, 2, 0], 2, &[2, 2, 0], 2, false);
    }

    /// The group that a step by a rule leaves.
    fn stepped<const S: usize>(docket: &Docket, mut counts: [u32; S], rule: u32) -> [u32; S] {
        assert_eq!(step(&docket.bytes(), &mut counts, rule), Ok(()));
        counts
    }

    /// A step makes the outcome of its rule, and a run that of the lowest number in the lowest layer.
    #[test]
    fn two_outcomes_of_one_pair() {
        let mut docket = two_outcomes();
        assert_eq!(stepped(&docket, [1, 1, 0], 0), [0, 2, 0]);
        assert_eq!(stepped(&docket, [1, 1, 0], 1), [0, 1, 1]);
        runs(&docket, &[1, 1, 0], u32::MAX, &[0, 2, 0], 1, true);
        docket.weights.push(vec![1, 0, 0]);
        docket.rules[0].layer = 1;
        assert_eq!(stepped(&docket, [1, 1, 0], 0), [0, 2, 0]);
        runs(&docket, &[1, 1, 0], u32::MAX, &[0, 1, 1], 1, true);
    }

    #[test]
    fn a_rule_that_meets_its_own_kind() {
        let bytes = docket("2 3", "0 0 0 1 0", "1 0", TREE).bytes();
        assert_eq!(can_act(&bytes, &[2, 0], 0), Ok(1));
        assert_eq!(can_act(&bytes, &[1, 1], 0), Ok(0));
        let mut counts = [2, 0];
        assert_eq!((step(&bytes, &mut counts, 0), counts), (Ok(()), [1, 1]));
    }

    /// Counts at the limits of a group, and past them.
    const LIMITS: [u32; 7] = [0, 1, 2, 500_000, 999_999, 1_000_000, u32::MAX];

    /// Rule 0 of a docket with two states has the numbers of this table, in either version. A row for each count of state 0
    /// and a column for each of state 1; a dash is refusal 21.
    fn has_numbers(docket: &Docket, table: [&str; 7]) {
        let bytes = [docket.bytes(), with_fixed(docket.clone(), [0, 1000]).bytes()];
        for (first, row) in LIMITS.into_iter().zip(table) {
            for (second, number) in LIMITS.into_iter().zip(row.split_whitespace()) {
                let expected = number.parse().map_or(refuse(21, 0), Ok);
                let said = bytes.each_ref().map(|bytes| can_act(bytes, &[first, second], 0));
                assert_eq!(said, [expected; 2], "{first} {second}");
            }
        }
    }

    #[test]
    fn pairs_of_two_states() {
        let table = [
            "-  -       0        0             0       0  -",
            "-  1       2        500000        999999  -  -",
            "0  2       4        1000000       -       -  -",
            "0  500000  1000000  250000000000  -       -  -",
            "0  999999  -        -             -       -  -",
            "0  -       -        -             -       -  -",
            "-  -       -        -             -       -  -",
        ];
        has_numbers(&broadcast(TREE), table);
    }

    #[test]
    fn pairs_within_a_state() {
        let table = [
            "-             -             0             0             0  0  -",
            "-             0             0             0             0  -  -",
            "1             1             1             1             -  -  -",
            "124999750000  124999750000  124999750000  124999750000  -  -  -",
            "499998500001  499998500001  -             -             -  -  -",
            "499999500000  -             -             -             -  -  -",
            "-             -             -             -             -  -  -",
        ];
        has_numbers(&docket("2 3", "0 0 0 1 0", "1 0", TREE), table);
    }

    /// Tables of three states: a rule or more for every pair, two rules for one pair, and pairs within a state alone.
    fn tables() -> [Docket; 3] {
        let every_pair = "0 0 0 1 0; 0 0 2 2 0; 0 1 1 1 0; 0 1 1 2 0; 0 2 1 2 0; 1 1 0 0 0; 1 2 2 2 0; 2 2 0 0 0";
        let own_kind = "0 0 0 1 0; 2 2 0 0 0";
        [
            docket("2 3 1", every_pair, "0 0 0", TREE),
            two_outcomes(),
            docket("2 3 1", own_kind, "0 0 0", TREE),
        ]
    }

    /// These tables, each with all groups of two to six workers.
    fn small_groups() -> Vec<(Docket, [u32; 3])> {
        let all = (0..7 * 7 * 7).map(|n| [n / 49, n / 7 % 7, n % 7]);
        let groups = all.filter(|counts| (2..=6).contains(&counts.iter().sum::<u32>()));
        groups
            .flat_map(|counts| tables().map(|docket| (docket, counts)))
            .collect()
    }

    /// The numbers of all rules.
    fn numbers(docket: &Docket, counts: &[u32]) -> Vec<u128> {
        let bytes = docket.bytes();
        let rules = 0..docket.rules.len() as u32;
        rules.map(|rule| can_act(&bytes, counts, rule).unwrap()).collect()
    }

    /// The pairs of different workers in these two states, found in a list of all workers.
    fn listed_pairs(counts: &[u32], [p, q]: [usize; 2]) -> u128 {
        let states = counts.iter().enumerate();
        let workers: Vec<usize> = states.flat_map(|(state, &n)| vec![state; n as usize]).collect();
        let mut found = 0;
        for (i, &one) in workers.iter().enumerate() {
            let others = workers[i + 1..].iter();
            found += others
                .filter(|&&other| [one, other] == [p, q] || [other, one] == [p, q])
                .count();
        }
        found as u128
    }

    #[test]
    fn pairs_in_a_list_of_the_workers() {
        for (docket, counts) in small_groups() {
            let listed = docket.rules.iter().map(|rule| listed_pairs(&counts, rule.before));
            assert_eq!(numbers(&docket, &counts), listed.collect::<Vec<_>>(), "{counts:?}");
        }
    }

    /// A step is refused with 24 just where its rule has no pair.
    #[test]
    fn no_pair_and_refusal_24() {
        let mut met = [0; 2];
        for (docket, counts) in small_groups() {
            for (rule, number) in numbers(&docket, &counts).into_iter().enumerate() {
                let said = step(&docket.bytes(), &mut counts.clone(), rule as u32);
                let expected = if number == 0 { refuse(24, rule) } else { Ok(()) };
                assert_eq!(said, expected, "{counts:?}, rule {rule}");
                met[usize::from(number == 0)] += 1;
            }
        }
        assert!(met.iter().all(|&times| times > 200), "{met:?}");
    }

    /// A group is at a standstill just where no rule has a pair; a run then says rest.
    #[test]
    fn no_pair_and_standstill() {
        let mut met = [0; 2];
        for (docket, counts) in small_groups() {
            let rests = numbers(&docket, &counts).iter().all(|&number| number == 0);
            assert_eq!(is_standstill(&docket.bytes(), &counts), Ok(rests), "{counts:?}");
            let ran = run(&docket.bytes(), &mut counts.clone(), 0);
            assert_eq!(ran, Ok(Ran { steps: 0, rests }), "{counts:?}");
            met[usize::from(rests)] += 1;
        }
        assert!(met.iter().all(|&times| times > 20), "{met:?}");
    }

    #[test]
    fn broadcast_counts() {
        let bytes = broadcast(TREE).bytes();
        assert_eq!(start_test(&bytes, &[1, 0]), refuse(21, 0));
        assert_eq!(start_test(&bytes, &[1, 1]), Ok(()));
        assert_eq!(start_test(&bytes, &[1_000_000, 0]), Ok(()));
        assert_eq!(start_test(&bytes, &[1_000_000, 1]), refuse(21, 0));
        assert_eq!(start_test(&bytes, &[u32::MAX, 3]), refuse(21, 0));
        assert_eq!(start_test(&bytes, &[1, 1, 0]), refuse(20, 0));
        assert_eq!(start_test(&majority().bytes(), &[1, 1, 0, 1]), refuse(22, 3));
        runs(&broadcast(TREE), &[1, 1], 0, &[1, 1], 0, false);
        runs(&broadcast(TREE), &[0, 2], 0, &[0, 2], 0, true);
        runs(&broadcast(TREE), &[999_999, 1], 999_999, &[0, 1_000_000], 999_999, true);
    }

    /// A state that is no input has exactly its fixed agents at the start, an input has them or more.
    #[test]
    fn starts_with_fixed_agents() {
        let majority = with_fixed(majority(), [2, 0, 3, 0]).bytes();
        let said = |counts: [u32; 4]| start_test(&majority, &counts);
        for counts in [[2, 0, 3, 0], [3, 0, 3, 0], [2, 1, 3, 0], [999_997, 0, 3, 0]] {
            assert_eq!(said(counts), Ok(()), "{counts:?}");
        }
        for (counts, place) in [
            ([1, 9, 3, 0], 0),
            ([0, 0, 2, 1], 0),
            ([2, 0, 2, 0], 2),
            ([2, 0, 4, 0], 2),
            ([2, 0, 0, 0], 2),
            ([2, 0, 3, 1], 3),
            ([2, 0, 4, 1], 2),
        ] {
            assert_eq!(said(counts), refuse(22, place), "{counts:?}");
        }
    }

    /// The number has 16 bits, and tests 20 and 21 come before test 22.
    #[test]
    fn order_of_the_start_test() {
        let broadcast = with_fixed(broadcast(TREE), [0, 257]).bytes();
        assert_eq!(start_test(&broadcast, &[0, 257]), Ok(()));
        assert_eq!(start_test(&broadcast, &[1, 256]), refuse(22, 1));
        assert_eq!(start_test(&broadcast, &[2, 1]), refuse(22, 1));
        assert_eq!(start_test(&broadcast, &[0, 0]), refuse(21, 0));
        assert_eq!(start_test(&broadcast, &[1, 0]), refuse(21, 0));
        assert_eq!(start_test(&broadcast, &[2, 0]), refuse(22, 1));
        assert_eq!(start_test(&broadcast, &[2, 0, 0]), refuse(20, 0));
        assert_eq!(start_test(&broadcast, &[1_000_000, 1]), refuse(21, 0));
        assert_eq!(start_test(&broadcast, &[u32::MAX, 257]), refuse(21, 0));
    }

    /// The other calls take any group, whatever the fixed agents.
    #[test]
    fn groups_without_the_fixed_agents() {
        let docket = with_fixed(majority(), [2, 0, 3, 0]);
        runs(&docket, &[2, 1, 0, 0], u32::MAX, &[1, 0, 2, 0], 2, true);
        assert_eq!(verdict(&docket.bytes(), &[1, 0, 2, 0]), Ok(Verdict::Zero));
        assert_eq!(is_standstill(&docket.bytes(), &[1, 0, 2, 0]), Ok(true));
        assert_eq!(can_act(&docket.bytes(), &[1, 1, 0, 0], 0), Ok(1));
        assert_eq!(stepped(&docket, [1, 1, 0, 0], 0), [0, 0, 1, 1]);
    }

    /// Every call makes test 14 in version 2, before its own tests; in version 1 none does.
    #[test]
    fn rules_out_of_order() {
        let (old, new) = (exchanged().bytes(), with_fixed(exchanged(), [0; 4]).bytes());
        for counts in [vec![1, 1, 0, 0], vec![0; 4], vec![1]] {
            let (mut stepped, mut ran) = (counts.clone(), counts.clone());
            assert_eq!(start_test(&new, &counts), refuse(14, 2));
            assert_eq!(can_act(&new, &counts, 0), refuse(14, 2));
            assert_eq!(can_act(&new, &counts, 4), refuse(14, 2));
            assert_eq!(is_standstill(&new, &counts), refuse(14, 2));
            assert_eq!(verdict(&new, &counts), refuse(14, 2));
            assert_eq!(step(&new, &mut stepped, 0), refuse(14, 2));
            assert_eq!(step(&new, &mut stepped, 4), refuse(14, 2));
            assert_eq!(run(&new, &mut ran, u32::MAX), refuse(14, 2));
            assert_eq!((&stepped, &ran), (&counts, &counts));
        }
        assert_eq!(start_test(&old, &[1, 1, 0, 0]), Ok(()));
        assert_eq!(can_act(&old, &[1, 1, 0, 0], 0), Ok(1));
    }

    #[test]
    fn refused_calls_change_nothing() {
        let bytes = broadcast(TREE).bytes();
        let mut counts = [0, 2];
        assert_eq!(step(&bytes, &mut counts, 0), refuse(24, 0));
        assert_eq!(step(&bytes, &mut counts, u32::MAX), refuse(23, u32::MAX as usize));
        assert_eq!(can_act(&bytes, &counts, 1), refuse(23, 1));
        assert_eq!(step(&bytes[..98], &mut counts, 0), refuse(1, 0));
        assert_eq!(run(&bytes[..98], &mut counts, 9), refuse(1, 0));
        assert_eq!(counts, [0, 2]);
        let mut short = [1];
        assert_eq!((step(&bytes, &mut short, 9), short), (refuse(20, 0), [1]));
    }
}
