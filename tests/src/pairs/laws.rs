//! Laws that the numbers of pairs keep beside the other calls of the same implementation.

use super::{numbers, Say};
use crate::calls::{Call, Said};
use second::{Docket, Refusal};
use std::collections::BTreeMap;

/// A docket that passes tests 1 to 8, counts that pass tests 20 and 21, and the numbers of all rules.
struct Group<'a> {
    say: Say<'a>,
    docket: &'a Docket,
    bytes: Vec<u8>,
    counts: &'a [u32],
    numbers: Vec<u64>,
}

/// What holds of the numbers of all rules, and whether it does.
type Law = (&'static str, fn(&Group) -> bool);

const LAWS: [Law; 6] = [
    ("a step is refused with 24 just where it is 0", steps_agree),
    ("all are 0 just at a standstill", standstill_agrees),
    ("a run begins with a rule above 0", run_agrees),
    ("their sum is below 2 to the power 47", sum_below_2_to_the_47),
    ("rules of one before pair have one number", outcomes_agree),
    ("before pairs share no pair of workers", within_all_pairs),
];

const REFUSED_ALIKE: &str = "a group is refused by every call or by none";

/// A law that an implementation breaks on a docket that passes tests 1 to 8.
pub fn broken(say: Say, docket: &Docket, counts: &[u32]) -> Option<&'static str> {
    let bytes = docket.bytes();
    match numbers(say, docket, counts) {
        Ok(numbers) => {
            let group = Group {
                say,
                docket,
                bytes,
                counts,
                numbers,
            };
            LAWS.iter().find(|(_, holds)| !holds(&group)).map(|&(law, _)| law)
        }
        Err(refused) => {
            let mut calls = [Call::IsStandstill, Call::CanAct(0), Call::Step(0), Call::Run(1)].into_iter();
            let alike = calls.all(|call| say(&bytes, &mut counts.to_vec(), call) == refused);
            (!alike).then_some(REFUSED_ALIKE)
        }
    }
}

impl Group<'_> {
    /// What a call says, and the counts that it leaves.
    fn call(&self, call: Call) -> (Said, Vec<u32>) {
        let mut counts = self.counts.to_vec();
        ((self.say)(&self.bytes, &mut counts, call), counts)
    }

    /// The numbers of the rules of each before pair.
    fn by_pair(&self) -> BTreeMap<[usize; 2], Vec<u64>> {
        let mut pairs: BTreeMap<_, Vec<u64>> = BTreeMap::new();
        for (rule, &number) in self.docket.rules.iter().zip(&self.numbers) {
            pairs.entry(rule.before).or_default().push(number);
        }
        pairs
    }
}

fn steps_agree(group: &Group) -> bool {
    group.numbers.iter().zip(0..).all(|(&number, rule)| {
        let (said, after) = group.call(Call::Step(rule));
        let refused = Said::refused(Refusal {
            number: 24,
            place: rule,
        });
        let expected = if number == 0 { refused } else { Said::done(&[]) };
        said == expected && (after == group.counts) == (number == 0)
    })
}

fn standstill_agrees(group: &Group) -> bool {
    let rests = group.numbers.iter().all(|&number| number == 0);
    group.call(Call::IsStandstill).0 == Said::done(&[u64::from(rests)])
}

/// Of the rules with a number above 0, a run of limit 1 makes the meeting of the lowest one in the lowest layer, and says
/// rest just where it leaves a standstill.
fn run_agrees(group: &Group) -> bool {
    let (said, after) = group.call(Call::Run(1));
    let rules = (0..group.numbers.len()).filter(|&rule| group.numbers[rule] > 0);
    match rules.min_by_key(|&rule| (group.docket.rules[rule].layer, rule)) {
        Some(rule) => {
            let rests = (group.say)(&group.bytes, &mut after.clone(), Call::IsStandstill).answers[0];
            said == Said::done(&[1, rests]) && after == group.call(Call::Step(rule as u32)).1
        }
        None => said == Said::done(&[0, 1]) && after == group.counts,
    }
}

fn sum_below_2_to_the_47(group: &Group) -> bool {
    let sum: u128 = group.numbers.iter().map(|&number| u128::from(number)).sum();
    sum < 1 << 47
}

fn outcomes_agree(group: &Group) -> bool {
    let same = |numbers: &Vec<u64>| numbers.iter().all(|&number| number == numbers[0]);
    group.by_pair().values().all(same)
}

/// The numbers of different before pairs add up to at most n(n - 1)/2, so none of them is greater.
fn within_all_pairs(group: &Group) -> bool {
    let workers: u128 = group.counts.iter().map(|&count| u128::from(count)).sum();
    let sum: u128 = group.by_pair().values().map(|numbers| u128::from(numbers[0])).sum();
    sum <= workers * (workers - 1) / 2
}
