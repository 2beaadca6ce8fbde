//! What the dockets with rules out of order were.

use super::{add, few};
use crate::calls::Call;
use crate::order::{key, out_of_order};
use second::Refusal;
use std::cmp::Ordering;
use std::collections::BTreeMap;

/// Where a rule stands: the first that can be out of order, the last, or between them.
#[derive(Clone, Copy, Debug, PartialEq, Eq, PartialOrd, Ord)]
pub enum Place {
    First,
    Middle,
    Last,
}

#[derive(Default)]
pub struct Order {
    /// Dockets refused with 14, by the first number in which the rule differs from the one before it, which is 0 for the
    /// layer, then 1 to 4 for p, q, p' and q'; and by the place.
    pub refused: BTreeMap<(usize, Place), u64>,
    /// Dockets of version 2 refused with 6 or 7 that have rules out of order; by this number, and by its place beside the
    /// first that is out of order.
    pub earlier_test: BTreeMap<(u32, Ordering), u64>,
    /// Dockets refused with 14 that have a fault of test 8 too.
    pub test_8: u64,
    /// Dockets of version 1 with rules out of order, by the number of their refusal, 0 for accepted ones.
    pub version_1: BTreeMap<u32, u64>,
    /// Calls refused with 14.
    pub calls: BTreeMap<&'static str, u64>,
    /// Calls on dockets of version 1 that were refused with 14 in version 2.
    pub converted_calls: u64,
}

impl Order {
    /// Counts a docket by what its check said.
    pub fn count_docket(&mut self, docket: &[u8], number: u32, place: usize) {
        let Ok((version, parts)) = second::sections(docket) else {
            return;
        };
        let Some(first) = out_of_order(parts[1]) else {
            return;
        };
        match (version, number) {
            (1, _) => *self.version_1.entry(number).or_default() += 1,
            (_, 6 | 7) => *self.earlier_test.entry((number, place.cmp(&first))).or_default() += 1,
            (_, 14) => self.count_refused(parts, place),
            _ => {}
        }
    }

    fn count_refused(&mut self, parts: [&[u8]; 5], place: usize) {
        let mut records: Vec<&[u8]> = parts[1].chunks(5).collect();
        let [before, rule] = [place - 1, place].map(|at| key(records[at]));
        let differs = before.iter().zip(&rule).position(|(a, b)| a != b);
        let differs = differs.expect("rules that differ, as test 7 comes first");
        let stands = match place {
            place if place + 1 == records.len() => Place::Last,
            1 => Place::First,
            _ => Place::Middle,
        };
        *self.refused.entry((differs, stands)).or_default() += 1;
        records.sort_by_key(|record| key(record));
        let in_order = records.concat();
        let [states, _, layers, nodes, leaves] = parts;
        let said = second::write(2, [states, &in_order, layers, nodes, leaves], &mut []);
        self.test_8 += u64::from(said.is_err_and(|refusal| refusal.number == 8));
    }

    /// Counts a refused call.
    pub fn count_call(&mut self, call: Call, refusal: Refusal) {
        if refusal.number == 14 {
            *self.calls.entry(call.name()).or_default() += 1;
        }
    }

    pub fn merge(&mut self, other: Order) {
        add(&mut self.refused, other.refused);
        add(&mut self.earlier_test, other.earlier_test);
        self.test_8 += other.test_8;
        add(&mut self.version_1, other.version_1);
        add(&mut self.calls, other.calls);
        self.converted_calls += other.converted_calls;
    }

    /// What the inputs failed to reach: refusals 14 by each of the five numbers at each place; tests 6 and 7 before,
    /// at and behind a rule out of order, and test 8 with one; rules out of order in version 1 with every refusal that
    /// comes behind test 7; and refusals 14 of every call.
    pub fn not_reached(&self) -> Vec<String> {
        let places = [Place::First, Place::Middle, Place::Last];
        let refused = (0..5).flat_map(|number| places.map(|place| (number, place)));
        let beside = [Ordering::Less, Ordering::Equal, Ordering::Greater];
        let earlier = [6, 7]
            .into_iter()
            .flat_map(|number| beside.map(|place| (number, place)));
        let others = BTreeMap::from([("test 8", self.test_8), ("calls in version 2", self.converted_calls)]);
        [
            few("refusal 14, number, place", &self.refused, refused, LEAST),
            few("rules out of order, refusal, place", &self.earlier_test, earlier, LEAST),
            few(
                "rules out of order in version 1, refusal",
                &self.version_1,
                VERSION_1,
                LEAST,
            ),
            few("refusal 14, call", &self.calls, CALLS.map(Call::name), LEAST),
            few("rules out of order", &others, ["test 8", "calls in version 2"], LEAST),
        ]
        .concat()
    }
}

/// How many inputs of each kind must be met.
const LEAST: u64 = 20;

/// Refusals of version 1 that must be met with rules out of order.
const VERSION_1: [u32; 7] = [0, 8, 9, 10, 11, 12, 13];

/// Calls that must be met with refusal 14.
const CALLS: [Call; 6] = [
    Call::StartTest,
    Call::CanAct(0),
    Call::IsStandstill,
    Call::Verdict,
    Call::Step(0),
    Call::Run(0),
];
