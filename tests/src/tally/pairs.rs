//! What the numbers of pairs were, and the groups.

use super::{add, few};
use crate::calls::Said;
use second::Docket;
use std::collections::BTreeMap;

/// How great a number of pairs is. `Greatest` is the greatest that a rule of its kind can have.
#[derive(Clone, Copy, Debug, PartialEq, Eq, PartialOrd, Ord)]
pub enum Size {
    Zero,
    One,
    More,
    Over32Bits,
    Greatest,
}

#[derive(Default)]
pub struct Pairs {
    /// Rules by the version, by whether they meet their own kind, and by the size of their number.
    pub numbers: BTreeMap<(u32, bool, Size), u64>,
    /// Groups by the number of their refusal, 0 for those that are not refused, and by how many workers they have, of
    /// those in `WORKERS`; 2 to the power 32 stands for all that are more.
    pub groups: BTreeMap<(u32, u64), u64>,
    /// Groups at a standstill, and others.
    pub rests: BTreeMap<bool, u64>,
    /// The laws that the library broke, with the dockets.
    pub broken: Vec<String>,
}

impl Pairs {
    /// Counts a group by the numbers of all rules.
    pub fn count(&mut self, docket: &Docket, counts: &[u32], said: &Result<Vec<u64>, Said>) {
        let refusal = said.as_ref().err().and_then(Said::refusal);
        count_workers(&mut self.groups, refusal.map_or(0, |refusal| refusal.number), counts);
        if let Ok(numbers) = said {
            let rests = numbers.iter().all(|&number| number == 0);
            *self.rests.entry(rests).or_default() += 1;
            for (rule, &number) in docket.rules.iter().zip(numbers) {
                let [p, q] = rule.before;
                let key = (docket.version, p == q, size(number, p == q));
                *self.numbers.entry(key).or_default() += 1;
            }
        }
    }

    pub fn merge(&mut self, other: Pairs) {
        add(&mut self.numbers, other.numbers);
        add(&mut self.groups, other.groups);
        add(&mut self.rests, other.rests);
        self.broken.extend(other.broken);
    }

    /// What the inputs failed to reach: numbers of every size, in both versions, of rules that meet their own kind and of
    /// others; groups of sizes at their limits and past them; and groups at a standstill and not.
    pub fn not_reached(&self) -> Vec<String> {
        let sizes = [Size::Zero, Size::One, Size::More, Size::Over32Bits, Size::Greatest];
        let kinds = [(1, true), (1, false), (2, true), (2, false)];
        let numbers = kinds
            .into_iter()
            .flat_map(|(version, own)| sizes.map(|size| (version, own, size)));
        [
            few("pairs: version, own kind, size", &self.numbers, numbers, LEAST),
            few("pairs: refusal, workers", &self.groups, workers_wanted(), LEAST),
            few("pairs: standstill", &self.rests, [true, false], LEAST),
        ]
        .concat()
    }
}

/// Counts a group by the number of its refusal, 0 for none, and by how many workers it has, if that is one of `WORKERS`; 2
/// to the power 32 stands for all that are more.
pub fn count_workers(groups: &mut BTreeMap<(u32, u64), u64>, number: u32, counts: &[u32]) {
    let workers = counts.iter().map(|&count| u64::from(count)).sum::<u64>().min(1 << 32);
    if WORKERS.contains(&workers) {
        *groups.entry((number, workers)).or_default() += 1;
    }
}

/// The sizes of groups that must be met, with the number of the refusal of each.
pub fn workers_wanted() -> [(u32, u64); 7] {
    WORKERS.map(|workers| (if (2..=1_000_000).contains(&workers) { 0 } else { 21 }, workers))
}

/// The greatest numbers are those of 1,000,000 workers in one state, and of 500,000 in each of two.
fn size(number: u64, own_kind: bool) -> Size {
    match (number, own_kind) {
        (0, _) => Size::Zero,
        (1, _) => Size::One,
        (499_999_500_000, true) | (250_000_000_000, false) => Size::Greatest,
        _ if number > u64::from(u32::MAX) => Size::Over32Bits,
        _ => Size::More,
    }
}

/// How many inputs of each kind must be met.
const LEAST: u64 = 10;

/// Sizes of groups that must be met.
const WORKERS: [u64; 7] = [0, 1, 2, 999_999, 1_000_000, 1_000_001, 1 << 32];
