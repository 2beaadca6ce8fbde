//! What the writer was lent and said.

use super::{add, few, places_not_reached, Places};
use crate::calls::Said;
use second::{record_lengths, state_length};
use std::collections::{BTreeMap, BTreeSet};

#[derive(Default)]
pub struct Writes {
    /// Dockets whose own parts were written, by the version.
    pub again: BTreeMap<u32, u64>,
    /// Calls with parts that may be changed.
    pub calls: u64,
    /// Those of them that were not refused, by the version and by how many bytes the output has beyond the total: 0, 1, or
    /// 2 for more.
    pub written: BTreeMap<(u32, usize), u64>,
    /// The versions met with refusal 2.
    pub versions: BTreeSet<u32>,
    /// The places met with each refusal's number.
    pub places: Places,
    /// Refusals 31 and 3 by the version, by the number of states, given as the least of its kind (0, 1, 2, 65 or 65,536),
    /// and by number and place.
    pub states: BTreeMap<(u32, usize, u32, u32), u64>,
    /// Refusals 31 at place 0 by the bytes that are there beyond whole records.
    pub cut: BTreeMap<usize, u64>,
    /// The places of refusal 3 that had a count of more than 16 bits.
    pub over: BTreeSet<u32>,
}

impl Writes {
    /// Counts a call by what it said.
    pub fn count(&mut self, version: u32, parts: [&[u8]; 5], room: usize, said: &Said) {
        self.calls += 1;
        let Some(refusal) = said.refusal() else {
            let beyond = room - said.answers[0] as usize;
            *self.written.entry((version, beyond.min(2))).or_default() += 1;
            return;
        };
        let (number, place) = (refusal.number, refusal.place);
        self.places.entry(number).or_default().insert(place);
        match number {
            2 => drop(self.versions.insert(version)),
            3 | 31 => self.count_lengths(version, parts, number, place),
            _ => {}
        }
    }

    /// Counts a refusal 3 or 31.
    fn count_lengths(&mut self, version: u32, parts: [&[u8]; 5], number: u32, place: u32) {
        let states = parts[0].len() / state_length(version);
        let least = STATES.iter().rfind(|&&least| least <= states).unwrap_or(&0);
        *self.states.entry((version, *least, number, place)).or_default() += 1;
        let record = record_lengths(version, states)[place as usize].max(1);
        if number == 3 && parts[place as usize].len() / record > 65_535 {
            self.over.insert(place);
        }
        if (number, place) == (31, 0) {
            *self.cut.entry(parts[0].len() % record).or_default() += 1;
        }
    }

    pub fn merge(&mut self, other: Writes) {
        add(&mut self.again, other.again);
        self.calls += other.calls;
        add(&mut self.written, other.written);
        for (number, places) in other.places {
            self.places.entry(number).or_default().extend(places);
        }
        add(&mut self.states, other.states);
        self.over.extend(other.over);
        self.versions.extend(other.versions);
        add(&mut self.cut, other.cut);
    }

    /// What the inputs failed to reach: several places with every refusal that has them and some last places; half of
    /// the dockets written again, a tenth in each version; a fifth of the changed parts written, some of them in each
    /// version to an output just as long as the total or one byte longer; test 31 at each part and test 3 with numbers of
    /// states of every kind; states with one byte and with two beyond whole records; every count over 65,535; some
    /// versions that are refused.
    pub fn not_reached(&self) -> Vec<String> {
        let mut missing = places_not_reached(&self.places, &LEAST_PLACES, &LAST_PLACES);
        if 2 * self.again.values().sum::<u64>() < self.calls {
            missing.push("fewer than half of the dockets are written again".into());
        }
        missing.extend(few("written again, version", &self.again, [1, 2], self.calls / 10));
        if 5 * self.written.values().sum::<u64>() < self.calls {
            missing.push("fewer than a fifth of the changed parts are written".into());
        }
        let rooms = [1, 2]
            .into_iter()
            .flat_map(|version| (0..=2).map(move |beyond| (version, beyond)));
        missing.extend(few("written (version, bytes more)", &self.written, rooms, LEAST_CALLS));
        missing.extend(few(
            "(version, states, number, place)",
            &self.states,
            states_wanted(),
            LEAST_CALLS,
        ));
        missing.extend(few("bytes beyond whole states", &self.cut, [1, 2], LEAST_CALLS));
        let counts = (0..5).filter(|place| !self.over.contains(place));
        missing.extend(counts.map(|place| format!("refusal 3 {place} of a count over 65,535")));
        let versions = VERSIONS.iter().filter(|version| !self.versions.contains(version));
        missing.extend(versions.map(|version| format!("version {version}")));
        missing.into_iter().map(|text| format!("writer: {text}")).collect()
    }
}

/// The least number of states of each kind: none, one, within the limits, more, and more than 16 bits.
const STATES: [usize; 5] = [0, 1, 2, 65, 65_536];

/// Versions that must be met with refusal 2.
const VERSIONS: [u32; 8] = [0, 3, 257, 258, 65_535, 65_537, 65_538, u32::MAX];

/// What must be met with each version and each number of states: test 31 at parts 1 to 4, without states at 1 and 3
/// alone, in version 2 at part 0 too; and test 3, at place 0 where the number is outside its limits.
fn states_wanted() -> Vec<(u32, usize, u32, u32)> {
    let mut wanted = vec![];
    for least in STATES {
        let parts: &[u32] = if least == 0 { &[1, 3] } else { &[1, 2, 3, 4] };
        let counts: &[u32] = if least == 2 { &[1, 2, 3, 4] } else { &[0] };
        for version in [1, 2] {
            wanted.extend(parts.iter().map(|&part| (version, least, 31, part)));
            wanted.extend(counts.iter().map(|&count| (version, least, 3, count)));
        }
        wanted.push((2, least, 31, 0));
    }
    wanted
}

/// How many calls of each kind must be met.
const LEAST_CALLS: u64 = 10;

/// How many places must be met with each refusal.
const LEAST_PLACES: [(u32, usize); 9] = [
    (3, 5),
    (5, 20),
    (6, 40),
    (7, 40),
    (14, 40),
    (8, 10),
    (11, 20),
    (30, 1),
    (31, 5),
];

/// Places that must be met: the place behind the last state in test 5, the last rule, the last layer and the last leaf.
const LAST_PLACES: [(u32, u32); 4] = [(5, 64), (6, 255), (8, 15), (11, 127)];
