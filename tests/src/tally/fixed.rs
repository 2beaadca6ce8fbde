//! What the dockets of version 2 were, those of version 1 that were tried in version 2, and the starts with fixed agents.

use super::{add, few};
use crate::calls::{Call, Said};
use second::{Docket, State};
use std::collections::BTreeMap;

#[derive(Default)]
pub struct Fixed {
    /// Dockets by their version, where it is 2 or one of `OTHERS`, and by the number of their refusal, 0 for accepted
    /// ones.
    pub versions: BTreeMap<(u16, u32), u64>,
    /// Accepted dockets of version 2 by whether they have fixed agents and by the kinds of their nodes.
    pub kinds: BTreeMap<(bool, u8), u64>,
    /// Fixed numbers, of those in `NUMBERS`, by the number of the refusal, 0 or 5, and by whether the state is an input.
    pub numbers: BTreeMap<(u32, bool, i64), u64>,
    /// Dockets that are accepted or refused with 13 and would not be so after a change of the fixed numbers; by this
    /// change, by whether they are accepted, and by the kind of the node that is refused.
    pub needed: BTreeMap<(Change, bool, u8), u64>,
    /// Dockets of version 1 that were tried in version 2, by the number of their refusal there.
    pub converted: BTreeMap<u32, u64>,
    /// Calls on dockets of version 1 that were made in version 2 too, and said the same.
    pub converted_calls: u64,
    /// Start tests with fixed agents: the number of the refusal, 0 or 22; whether the state is an input; and how many more
    /// agents it has than fixed ones, -2 and 2 standing for all that are further away. A test that is passed counts for
    /// each state with fixed agents.
    pub starts: BTreeMap<(u32, bool, i64), u64>,
    /// Start tests with fixed agents and counts of all zeros, by the number of the refusal.
    pub zeros: BTreeMap<u32, u64>,
    /// Steps and runs with fixed agents that were not refused.
    pub meetings: u64,
}

/// Another reading of the fixed numbers: none at all, once in place of the number, the lower of its bytes alone, or the
/// number as exact in inputs too.
#[derive(Clone, Copy, Debug, PartialEq, Eq, PartialOrd, Ord)]
pub enum Change {
    None,
    Once,
    LowByte,
    Exact,
}

impl Change {
    const ALL: [Change; 4] = [Change::None, Change::Once, Change::LowByte, Change::Exact];

    fn make(self, State { input, fixed, .. }: &mut State) {
        match self {
            Change::None => *fixed = 0,
            Change::Once => *fixed = 1.min(*fixed),
            Change::LowByte => *fixed %= 256,
            Change::Exact => *input &= *fixed == 0,
        }
    }
}

impl Fixed {
    /// Counts a docket by what its check said.
    pub fn count_docket(&mut self, docket: &[u8], number: u32, place: usize) {
        let version = match docket {
            [low, high, ..] => u16::from_le_bytes([*low, *high]),
            _ => return,
        };
        if version == 2 || OTHERS.contains(&version) {
            *self.versions.entry((version, number)).or_default() += 1;
        }
        match (version, number) {
            (2, 0 | 13) => self.count_parsed(&second::parse(docket).expect("a docket"), number, place),
            (2, 5) => self.count_refused_state(docket, place),
            _ => {}
        }
    }

    /// Counts a docket that is accepted or refused with 13.
    fn count_parsed(&mut self, docket: &Docket, number: u32, place: usize) {
        let with_fixed = has_fixed(docket);
        if number == 0 {
            for kind in 0..=7 {
                let has_kind = docket.nodes.iter().any(|node| node.kind == kind);
                *self.kinds.entry((with_fixed, kind)).or_default() += u64::from(has_kind);
            }
            docket.states.iter().for_each(|state| self.count_number(0, state));
        }
        if with_fixed {
            for change in Change::ALL {
                self.count_change(docket, number, place, change);
            }
        }
    }

    fn count_change(&mut self, docket: &Docket, number: u32, place: usize, change: Change) {
        let mut other = docket.clone();
        other.states.iter_mut().for_each(|state| change.make(state));
        if other == *docket {
            return;
        }
        let refused_at = match (number, second::check(&other.bytes())) {
            (0, Err(refusal)) if refusal.number == 13 => refusal.place as usize,
            (13, Ok(_)) => place,
            _ => return,
        };
        let kind = docket.nodes[refused_at].kind;
        *self.needed.entry((change, number == 0, kind)).or_default() += 1;
    }

    /// Counts the number of the state that test 5 refuses, where there is one.
    fn count_refused_state(&mut self, docket: &[u8], place: usize) {
        let (_, [states, ..]) = second::sections(docket).expect("its sections");
        if let Some(&[byte, low, high]) = states.chunks(3).nth(place) {
            let fixed = i64::from(u16::from_le_bytes([low, high]));
            let (verdict, input) = (byte & 1, byte & 2 != 0);
            if byte < 4 {
                self.count_number(5, &State { verdict, input, fixed });
            }
        }
    }

    fn count_number(&mut self, number: u32, state: &State) {
        if NUMBERS.contains(&state.fixed) {
            *self.numbers.entry((number, state.input, state.fixed)).or_default() += 1;
        }
    }

    /// Counts a call, which left these counts, by what it said.
    pub fn count_call(&mut self, docket: &Docket, counts: &[u32], call: Call, said: &Said) {
        if !has_fixed(docket) {
            return;
        }
        let number = said.refusal().map_or(0, |refusal| refusal.number);
        match call {
            Call::Step(_) | Call::Run(_) => self.meetings += u64::from(number == 0),
            Call::StartTest => self.count_start(docket, counts, said),
            _ => {}
        }
    }

    fn count_start(&mut self, docket: &Docket, counts: &[u32], said: &Said) {
        let number = said.refusal().map_or(0, |refusal| refusal.number);
        if counts.iter().all(|&count| count == 0) {
            *self.zeros.entry(number).or_default() += 1;
        }
        let tried: Vec<usize> = match said.refusal() {
            None => (0..counts.len()).filter(|&i| docket.states[i].fixed > 0).collect(),
            Some(refusal) if number == 22 => vec![refusal.place as usize],
            _ => return,
        };
        for i in tried {
            let State { input, fixed, .. } = docket.states[i];
            let more = (i64::from(counts[i]) - fixed).clamp(-2, 2);
            *self.starts.entry((number, input, more)).or_default() += 1;
        }
    }

    pub fn merge(&mut self, other: Fixed) {
        add(&mut self.versions, other.versions);
        add(&mut self.kinds, other.kinds);
        add(&mut self.numbers, other.numbers);
        add(&mut self.needed, other.needed);
        add(&mut self.converted, other.converted);
        self.converted_calls += other.converted_calls;
        add(&mut self.starts, other.starts);
        add(&mut self.zeros, other.zeros);
        self.meetings += other.meetings;
    }

    /// What the inputs failed to reach of version 2: every refusal, other versions with refusal 2, every kind of node with
    /// fixed agents and without, the limits of the fixed numbers in inputs and in other states, dockets that other
    /// readings of these numbers would judge otherwise, dockets of version 1 in version 2, and starts.
    pub fn not_reached(&self) -> Vec<String> {
        let versions = (0..=14).filter(|&number| number != 2).map(|number| (2, number));
        let others = OTHERS.iter().map(|&version| (version, 2));
        let kinds = [true, false]
            .into_iter()
            .flat_map(|fixed| (0..=7).map(move |kind| (fixed, kind)));
        let inputs = [true, false].into_iter();
        let numbers = inputs.flat_map(|input| NUMBERS.map(|fixed| (if fixed > 1000 { 5 } else { 0 }, input, fixed)));
        let converted = [0, 5, 6, 7, 8, 9, 10, 11, 12, 13, 14];
        let meetings = BTreeMap::from([
            ("steps and runs", self.meetings),
            ("in both versions", self.converted_calls),
        ]);
        [
            few("version and refusal", &self.versions, versions.chain(others), LEAST),
            few("with fixed agents, kind", &self.kinds, kinds, LEAST),
            few("refusal, input, fixed number", &self.numbers, numbers, LEAST),
            few("another reading, accepted, kind", &self.needed, NEEDED, LEAST),
            few("version 1 in version 2, refusal", &self.converted, converted, LEAST),
            few("start: refusal, input, more", &self.starts, STARTS, LEAST),
            few("all counts zero, refusal", &self.zeros, [21], LEAST),
            few("calls", &meetings, ["steps and runs", "in both versions"], LEAST),
        ]
        .concat()
    }
}

fn has_fixed(docket: &Docket) -> bool {
    docket.states.iter().any(|state| state.fixed > 0)
}

/// How many inputs of each kind must be met.
const LEAST: u64 = 10;

/// Versions other than 1 and 2 that must be met with refusal 2.
const OTHERS: [u16; 6] = [0, 3, 256, 257, 258, 65_535];

/// Fixed numbers that must be met, in accepted dockets or with refusal 5.
const NUMBERS: [i64; 9] = [0, 1, 255, 256, 257, 1000, 1001, 1024, 65_535];

/// Other readings that must be met: what they would accept or refuse, and the kind of the node.
const NEEDED: [(Change, bool, u8); 16] = [
    (Change::None, true, 0),
    (Change::None, true, 2),
    (Change::None, true, 7),
    (Change::None, false, 0),
    (Change::None, false, 6),
    (Change::None, false, 7),
    (Change::Once, true, 0),
    (Change::Once, true, 7),
    (Change::Once, false, 0),
    (Change::Once, false, 7),
    (Change::LowByte, true, 0),
    (Change::LowByte, true, 7),
    (Change::LowByte, false, 0),
    (Change::LowByte, false, 7),
    (Change::Exact, false, 0),
    (Change::Exact, false, 7),
];

/// Starts that must be met: the refusal, whether the state is an input, and how many more agents it has than fixed ones.
const STARTS: [(u32, bool, i64); 10] = [
    (0, false, 0),
    (0, true, 0),
    (0, true, 1),
    (0, true, 2),
    (22, false, -2),
    (22, false, -1),
    (22, false, 1),
    (22, false, 2),
    (22, true, -2),
    (22, true, -1),
];
