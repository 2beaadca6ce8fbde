//! The number of pairs of workers that could make the meeting of a rule, which the can-act call gives: samples, the
//! comparison with the second implementation, and laws that an implementation keeps with its own numbers.

mod laws;

pub use laws::broken as broken_law;

use crate::calls::{self, Call, Said};
use crate::make::fixed::{self, with_fixed};
use crate::make::{self, remainder};
use crate::random::Random;
use crate::samples::CallSample;
use second::Docket;

/// An implementation: what it says to a call, with the counts that it leaves.
pub type Say<'a> = &'a dyn Fn(&[u8], &mut [u32], Call) -> Said;

/// A name, a docket, counts, a rule, and its number or refusal. The rule of `broadcast` and `fixed` meets another kind,
/// that of `own` and `own 2` its own.
const SAMPLES: &str = "\
one pair | broadcast | 1 1 | 0 | 1
2 times 3 pairs | broadcast | 2 3 | 0 | 6
3 times 2 pairs | broadcast | 3 2 | 0 | 6
no pair without a worker in p | broadcast | 0 2 | 0 | 0
no pair without a worker in q | broadcast | 1000000 0 | 0 | 0
1 times 999,999 pairs | broadcast | 1 999999 | 0 | 999999
999,999 times 1 pairs | broadcast | 999999 1 | 0 | 999999
2 to the power 32 pairs | broadcast | 65536 65536 | 0 | 4294967296
the most pairs of two states | broadcast | 500000 500000 | 0 | 250000000000
own kind, 3 pairs | own | 3 0 | 0 | 3
own kind, the other workers do not count | own | 3 7 | 0 | 3
own kind, no pair of no worker | own | 0 2 | 0 | 0
own kind, no pair of one worker | own | 1 999999 | 0 | 0
own kind, half of more than 32 bits | own | 65537 0 | 0 | 2147516416
own kind, the last number of 32 bits | own | 92682 0 | 0 | 4294930221
own kind, the first number of 33 bits | own | 92683 0 | 0 | 4295022903
own kind, 999,999 workers | own | 999999 1 | 0 | 499998500001
the most pairs of all | own | 1000000 0 | 0 | 499999500000
version 2, 500,000 times 500,000 pairs | fixed | 500000 500000 | 0 | 250000000000
version 2, own kind, 1,000,000 workers | own 2 | 1000000 0 | 0 | 499999500000
the first rule of a pair | two | 3 4 5 | 0 | 12
the second rule of a pair | two | 3 4 5 | 1 | 12
the rule of another pair | two | 3 4 5 | 2 | 15
parity, two workers of O | parity | 5 2 3 4 | 0 | 10
parity, O and E | parity | 5 2 3 4 | 1 | 10
parity, two workers of E | parity | 5 2 3 4 | 2 | 1
parity, O and e | parity | 5 2 3 4 | 3 | 20
parity, E and o | parity | 5 2 3 4 | 4 | 6
pairs of 1,000,001 workers | broadcast | 1000000 1 | 0 | refused 21 0
own kind, pairs of 1,000,001 workers | own | 1000001 0 | 0 | refused 21 0
pairs of all counts at their limit | broadcast | 4294967295 4294967295 | 0 | refused 21 0
a size of 2 to the power 32 | own | 4294967295 1 | 0 | refused 21 0
pairs of one worker | own | 1 0 | 0 | refused 21 0
pairs, test 20 before tests 21 and 23 | broadcast | 1 | 1 | refused 20 0
pairs, test 21 before test 23 | broadcast | 0 0 | 1 | refused 21 0
pairs, test 23 | broadcast | 500000 500000 | 1 | refused 23 1
";

fn named(name: &str) -> Docket {
    match name {
        "broadcast" => make::broadcast(),
        "own" => make::deep(2),
        "fixed" => fixed::broadcast(true, 257),
        "own 2" => with_fixed(make::deep(2), &[257]),
        "two" => make::two_outcomes(),
        "parity" => remainder::parity(),
        _ => panic!("{name} is no docket"),
    }
}

/// Calls and their answers.
pub fn calls() -> Vec<CallSample> {
    let mut all: Vec<CallSample> = SAMPLES.lines().map(sample).collect();
    all.extend([
        last_rule("pairs of rule 255", &make::largest(), 5_600_000_000),
        last_rule("pairs of rule 255, own kind", &fixed::largest(), 3_199_960_000),
    ]);
    all
}

/// Rule 255 of 64 states, with 70,000 workers in p and 80,000 in q, or 80,000 where p = q.
fn last_rule(name: &'static str, docket: &Docket, number: u64) -> CallSample {
    let mut counts = vec![1; 64];
    let [p, q] = docket.rules[255].before;
    (counts[p], counts[q]) = (70_000, 80_000);
    CallSample::same(name, &docket.bytes(), &counts, Call::CanAct(255), Ok(vec![number]))
}

fn sample(text: &'static str) -> CallSample {
    let mut fields = text.split(" | ");
    let [name, docket, counts, rule, said] = std::array::from_fn(|_| fields.next().expect("five fields"));
    let numbers = |text: &str| -> Vec<u32> { text.split(' ').map(|n| n.parse().expect("a number")).collect() };
    let said = match said.strip_prefix("refused ").map(numbers) {
        Some(refusal) => Err((refusal[0], refusal[1])),
        None => Ok(vec![said.parse().expect("a number")]),
    };
    let call = Call::CanAct(numbers(rule)[0]);
    CallSample::same(name, &named(docket).bytes(), &numbers(counts), call, said)
}

/// Tables of both versions, with rules that meet another kind and rules that meet their own.
pub fn tables() -> Vec<(&'static str, Docket)> {
    let with_tree = |mut docket: Docket| {
        docket.nodes.push(make::node(1, 1, 0));
        docket
    };
    vec![
        ("broadcast", make::broadcast()),
        ("majority", with_tree(make::majority())),
        ("two outcomes", make::two_outcomes()),
        ("own kind", make::deep(2)),
        ("parity", remainder::parity()),
        ("sums modulo 3", remainder::table(3, 1, &[1, 2])),
        ("maximum of 5 states", make::maximum(&[0, 1, 0, 1, 1])),
        ("relay of 6 states", make::relay(6, 5)),
        ("no rule", make::still(3)),
        ("version 2, broadcast", fixed::broadcast(true, 257)),
        ("version 2, majority", fixed::majority(3, 2)),
        ("version 2, two outcomes", with_fixed(make::two_outcomes(), &[])),
        ("version 2, own kind", with_fixed(make::deep(2), &[1000])),
        ("version 2, parity", with_fixed(remainder::parity(), &[])),
        ("version 2, sums modulo 3", fixed::sum(3, 1, &[2, 1, 1000])),
    ]
}

/// The table of this name.
pub fn table(name: &str) -> Docket {
    let mut all = tables().into_iter();
    all.find(|table| table.0 == name).expect("a table of this name").1
}

/// Counts at the limits of a group, past them and in between: 65,536 times itself is 2 to the power 32.
const LIMITS: [u32; 8] = [0, 1, 2, 65_536, 500_000, 999_999, 1_000_000, u32::MAX];

/// Each of `LIMITS` in one state, with each of them in another, and no worker elsewhere.
pub fn groups_at_limits(states: usize) -> Vec<Vec<u32>> {
    let pairs = (0..states).flat_map(|j| (0..j).map(move |i| [i, j]));
    let limits = LIMITS.iter().flat_map(|&a| LIMITS.map(|b| [a, b])).collect::<Vec<_>>();
    let group = |[i, j]: [usize; 2], [a, b]: [u32; 2]| {
        let mut counts = vec![0; states];
        (counts[i], counts[j]) = (a, b);
        counts
    };
    pairs
        .flat_map(|states| limits.iter().map(move |&counts| group(states, counts)))
        .collect()
}

/// What is wrong with what an implementation says of a docket that passes tests 1 to 8, with counts at their limits.
pub fn problem_at_limits(say: Say, docket: &Docket) -> Option<String> {
    let mut groups = groups_at_limits(docket.states.len()).into_iter();
    groups.find_map(|counts| {
        let law = || broken_law(say, docket, &counts).map(|law| format!("{counts:?}: not so that {law}"));
        difference(say, docket, &counts).or_else(law)
    })
}

/// Where an implementation and the second one differ in the number of a rule, or counts are changed.
pub fn difference(say: Say, docket: &Docket, counts: &[u32]) -> Option<String> {
    let bytes = docket.bytes();
    let mut rules = 0..docket.rules.len() as u32;
    rules.find_map(|rule| rule_difference(say, &bytes, counts, rule))
}

fn rule_difference(say: Say, docket: &[u8], counts: &[u32], rule: u32) -> Option<String> {
    let mut after = counts.to_vec();
    let said = say(docket, &mut after, Call::CanAct(rule));
    let second = calls::say(docket, &mut counts.to_vec(), Call::CanAct(rule));
    let good = said == second && after == counts;
    let text = || format!("rule {rule} in {counts:?}: {said:?} and {after:?}, second implementation: {second:?}");
    (!good).then(text)
}

/// The numbers of all rules, or how the group is refused.
pub fn numbers(say: Say, docket: &Docket, counts: &[u32]) -> Result<Vec<u64>, Said> {
    let bytes = docket.bytes();
    let answer = |call: Call| {
        let said = say(&bytes, &mut counts.to_vec(), call);
        said.refusal().map_or(Ok(said.answers[0]), |_| Err(said))
    };
    answer(Call::IsStandstill)?;
    (0..docket.rules.len() as u32)
        .map(|rule| answer(Call::CanAct(rule)))
        .collect()
}

/// Counts for a docket: in the states of a rule at limits or of any length, of a size near 1,000,000, or few in every
/// state.
pub fn random_counts(docket: &Docket, random: &mut Random) -> Vec<u32> {
    let states = docket.states.len();
    let rule = docket.rules.get(random.below(docket.rules.len()));
    let [p, q] = rule.map_or([0, 1], |rule| rule.before);
    let in_pair = |count: &mut dyn FnMut() -> u32| {
        let mut counts = vec![0; states];
        (counts[p], counts[q]) = (count(), count());
        counts
    };
    match random.below(8) {
        0 => in_pair(&mut || *random.pick(&LIMITS)),
        1 => in_pair(&mut || if p == q { 1_000_000 } else { 500_000 }),
        2 => in_pair(&mut || random.word() as u32 >> random.below(32)),
        3 | 4 => near_most_workers(states, [p, q], random),
        _ => (0..states).map(|_| random.below(4) as u32).collect(),
    }
}

/// 999,998 to 1,000,002 workers in at most three states.
fn near_most_workers(states: usize, pair: [usize; 2], random: &mut Random) -> Vec<u32> {
    let mut counts = vec![0; states];
    let mut rest = 999_998 + random.below(5);
    for state in pair {
        let some = random.below(rest + 1);
        counts[state] += some as u32;
        rest -= some;
    }
    counts[random.below(states)] += rest as u32;
    counts
}

#[cfg(test)]
mod tests {
    use super::*;
    use crate::tally::Pairs;

    /// The groups at limits have numbers of every size, of both kinds of rules in both versions.
    #[test]
    fn groups_at_limits_reach_all() {
        let mut met = Pairs::default();
        for (name, docket) in tables() {
            assert!(second::parse(&docket.bytes()).is_ok(), "{name}");
            for counts in groups_at_limits(docket.states.len()) {
                met.count(&docket, &counts, &numbers(&calls::say, &docket, &counts));
            }
        }
        assert_eq!(met.not_reached(), [""; 0]);
    }

    #[test]
    fn second_implementation_keeps_the_laws() {
        for (name, docket) in tables() {
            assert_eq!(problem_at_limits(&calls::say, &docket), None, "{name}");
        }
    }

    /// A number in place of the right one, from it, the counts of p and q, whether p = q, and the number of the rule.
    type Number = fn(u64, [u64; 2], bool, u64) -> u64;

    /// Wrong numbers, each with a word of a law that it breaks, or none where no law tells that it is wrong.
    const WRONG_NUMBERS: [(Number, Option<&str>); 8] = [
        (|n, _, _, _| n.min(1), None),
        (|n, [p, q], own, _| if own { n } else { p.min(q) }, None),
        (|n, [p, _], own, _| if own { p * p } else { n }, Some("24")),
        (|n, [p, _], own, _| if own { n } else { p }, Some("24")),
        (|n, _, _, _| u64::from(n as u32), Some("24")),
        (|n, _, _, _| if n > 0 { n + (1 << 47) } else { 0 }, Some("power 47")),
        (|n, _, _, rule| if n > 0 { n + rule } else { 0 }, Some("one number")),
        (|n, _, own, _| if own { 2 * n } else { n }, Some("share")),
    ];

    /// What the second implementation says, with another number.
    fn with_number(docket: &[u8], counts: &mut [u32], call: Call, number: Number) -> Said {
        let said = calls::say(docket, counts, call);
        match call {
            Call::CanAct(rule) if said.code == 0 => {
                let [p, q] = second::parse(docket).expect("a docket").rules[rule as usize].before;
                let met = [p, q].map(|state| u64::from(counts[state]));
                Said::done(&[number(said.answers[0], met, p == q, u64::from(rule))])
            }
            _ => said,
        }
    }

    /// Whether some group at limits has what is looked for.
    fn somewhere(found: impl Fn(&Docket, &[u32]) -> bool) -> bool {
        let groups = |docket: &Docket| groups_at_limits(docket.states.len());
        let in_table = |docket: &Docket| groups(docket).iter().any(|counts| found(docket, counts));
        tables().iter().any(|(_, docket)| in_table(docket))
    }

    /// Whether a law with this word is broken somewhere.
    fn breaks(say: Say, word: &str) -> bool {
        somewhere(|docket, counts| broken_law(say, docket, counts).is_some_and(|law| law.contains(word)))
    }

    #[test]
    fn wrong_numbers_are_seen() {
        for (i, (number, law)) in WRONG_NUMBERS.into_iter().enumerate() {
            let say: Say = &|docket, counts, call| with_number(docket, counts, call, number);
            let differs = somewhere(|docket, counts| difference(say, docket, counts).is_some());
            let broken = breaks(say, law.unwrap_or(""));
            assert_eq!((differs, broken), (true, law.is_some()), "{i}");
        }
    }

    /// Calls with answers that they always give, and a word of the law that they break where the group is not refused.
    const WRONG_CALLS: [(&str, &[u64], &str); 4] = [
        ("step", &[], "24"),
        ("standstill", &[0], "standstill"),
        ("standstill", &[1], "standstill"),
        ("run", &[0, 1], "run"),
    ];

    #[test]
    fn wrong_calls_are_seen() {
        for (name, answers, law) in WRONG_CALLS {
            let say: Say = &|docket, counts, call| {
                let said = calls::say(docket, counts, call);
                if call.name() == name {
                    Said::done(answers)
                } else {
                    said
                }
            };
            assert_eq!(
                [law, "refused by every"].map(|word| breaks(say, word)),
                [true; 2],
                "{name}"
            );
        }
    }
    /// A run that says rest behind a meeting where a rule can still act.
    #[test]
    fn a_wrong_rest_is_seen() {
        let say: Say = &|docket, counts, call| {
            let said = calls::say(docket, counts, call);
            let early = call == Call::Run(1) && said == Said::done(&[1, 0]);
            if early {
                Said::done(&[1, 1])
            } else {
                said
            }
        };
        assert!(breaks(say, "run"));
    }
}
