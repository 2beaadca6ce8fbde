//! What the compared inputs were, so that the comparison can show that it reached every test.

mod fixed;
mod order;
mod pages;
mod pairs;
mod sheets;
mod totals;
mod writes;

use crate::calls::{is_of_tests_1_to_8, Call, Said};
use fixed::Fixed;
use order::Order;
pub use pages::Pages;
pub use pairs::Pairs;
use second::Refusal;
use sheets::Sheets;
use std::collections::{BTreeMap, BTreeSet};
use std::fmt::Debug;
use totals::Totals;
use writes::Writes;

/// Places by the number of their refusal.
type Places = BTreeMap<u32, BTreeSet<u32>>;

#[derive(Default)]
pub struct Tally {
    pub dockets: u64,
    pub pass_shape: u64,
    pub accepted: u64,
    pub calls: u64,
    pub meetings: u64,
    pub lines: u64,
    /// The places met with each refusal's number.
    pub places: Places,
    /// Nodes by the number of the refusal that they got, 0 for all nodes of accepted dockets, and by their kind, 8 for
    /// every unknown one.
    pub kinds: BTreeMap<(u32, u8), u64>,
    /// The moduli of the nodes of kind 7 among them, by the same number.
    pub moduli: BTreeMap<u32, BTreeSet<u64>>,
    /// Dockets in which a pair has several rules, by the number of their refusal, 8 or more; 0 for accepted ones.
    pub outcomes: BTreeMap<u32, u64>,
    /// Steps by one of several rules of a pair.
    pub outcome_steps: u64,
    /// Runs that made a meeting, of tables in which a pair has several rules.
    pub outcome_runs: u64,
    pub fixed: Fixed,
    pub order: Order,
    pub pairs: Pairs,
    pub pages: Pages,
    pub sheets: Sheets,
    pub totals: Totals,
    pub writes: Writes,
    /// What was said to the inputs on which the two implementations differ.
    pub differences: Vec<String>,
}

impl Tally {
    /// Counts a docket by what its check said.
    pub fn count_docket(&mut self, docket: &[u8], code: u64) {
        self.dockets += 1;
        let (number, place) = ((code / 65_536) as u32, (code % 65_536) as u32);
        self.pass_shape += u64::from(!is_of_tests_1_to_8(number));
        if (number == 0 || number > 7) && has_outcomes(docket) {
            *self.outcomes.entry(number).or_default() += 1;
        }
        if number > 0 {
            self.count_refusal(Refusal { number, place });
        } else {
            self.accepted += 1;
        }
        if matches!(number, 0 | 12 | 13) {
            self.count_nodes(docket, number, place as usize);
        }
        self.fixed.count_docket(docket, number, place as usize);
        self.order.count_docket(docket, number, place as usize);
    }

    /// Counts all nodes of an accepted docket, or the one that is refused.
    fn count_nodes(&mut self, docket: &[u8], number: u32, place: usize) {
        let nodes = second::parse(docket).map_or(vec![], |parsed| parsed.nodes);
        let counted = match number {
            0 => &nodes[..],
            _ => nodes.get(place..=place).unwrap_or_default(),
        };
        for node in counted {
            *self.kinds.entry((number, node.kind.min(8))).or_default() += 1;
            if node.kind == 7 {
                self.moduli.entry(number).or_default().insert(node.modulus());
            }
        }
    }

    /// Counts a call by what it said.
    pub fn count_call(&mut self, docket: &[u8], call: Call, said: &Said) {
        self.calls += 1;
        if let Some(refusal) = said.refusal() {
            self.order.count_call(call, refusal);
            return self.count_refusal(refusal);
        }
        match call {
            Call::Step(rule) => self.outcome_steps += u64::from(is_outcome(docket, rule)),
            Call::Run(_) => {
                let steps = said.answers[0];
                self.meetings += steps;
                self.outcome_runs += u64::from(steps > 0 && has_outcomes(docket));
            }
            _ => {}
        }
    }

    pub fn count_refusal(&mut self, refusal: Refusal) {
        self.places.entry(refusal.number).or_default().insert(refusal.place);
    }

    pub fn differ(&mut self, docket: &[u8], what: String) {
        self.differences.push(of_docket(docket, &what));
    }

    pub fn break_pairs(&mut self, docket: &[u8], what: String) {
        self.pairs.broken.push(of_docket(docket, &what));
    }

    pub fn break_page(&mut self, docket: &[u8], what: String) {
        self.pages.broken.push(of_docket(docket, &what));
    }

    pub fn break_totals(&mut self, input: &[u8], what: String) {
        self.totals.broken.push(format!("input {}\n  {what}", hex(input)));
    }

    pub fn break_sheet(&mut self, docket: &[u8], sheet: &[u8], what: String) {
        self.sheets.broken.push(of_sheet(docket, sheet, &what));
    }

    pub fn differ_sheet(&mut self, docket: &[u8], sheet: &[u8], what: String) {
        self.differences.push(of_sheet(docket, sheet, &what));
    }

    pub fn merge(&mut self, other: Tally) {
        self.dockets += other.dockets;
        self.pass_shape += other.pass_shape;
        self.accepted += other.accepted;
        self.calls += other.calls;
        self.meetings += other.meetings;
        self.lines += other.lines;
        for (number, places) in other.places {
            self.places.entry(number).or_default().extend(places);
        }
        add(&mut self.kinds, other.kinds);
        for (number, moduli) in other.moduli {
            self.moduli.entry(number).or_default().extend(moduli);
        }
        add(&mut self.outcomes, other.outcomes);
        self.outcome_steps += other.outcome_steps;
        self.outcome_runs += other.outcome_runs;
        self.fixed.merge(other.fixed);
        self.order.merge(other.order);
        self.pairs.merge(other.pairs);
        self.pages.merge(other.pages);
        self.sheets.merge(other.sheets);
        self.totals.merge(other.totals);
        self.writes.merge(other.writes);
        self.differences.extend(other.differences);
    }

    /// What the inputs failed to reach: several places with every refusal that has them, some last places, every kind of
    /// node and some moduli, half of the dockets past tests 1 to 8, a tenth of them accepted, tables in which a pair has
    /// several rules, version 2, rules out of order, numbers of pairs, pages, claim sheets, totals, and what the writer
    /// can say.
    pub fn not_reached(&self) -> Vec<String> {
        let mut missing = places_not_reached(&self.places, &LEAST_PLACES, &LAST_PLACES);
        if 2 * self.pass_shape < self.dockets {
            missing.push("fewer than half of the dockets pass tests 1 to 8".into());
        }
        if 10 * self.accepted < self.dockets {
            missing.push("fewer than a tenth of the dockets are accepted".into());
        }
        missing.extend(self.nodes_not_reached());
        missing.extend(self.outcomes_not_reached());
        missing.extend(self.fixed.not_reached());
        missing.extend(self.order.not_reached());
        missing.extend(self.pairs.not_reached());
        missing.extend(self.pages.not_reached());
        missing.extend(self.sheets.not_reached());
        missing.extend(self.totals.not_reached());
        missing.extend(self.writes.not_reached());
        missing
    }

    /// What the inputs failed to reach of the kinds of nodes and of the moduli, accepted and refused.
    fn nodes_not_reached(&self) -> Vec<String> {
        let mut missing = vec![];
        for (number, kinds) in KINDS {
            let unmet = kinds.iter().filter(|&&kind| !self.kinds.contains_key(&(number, kind)));
            missing.extend(unmet.map(|kind| format!("refusal {number} (0: accepted): no node of kind {kind}")));
        }
        for (number, moduli) in MODULI {
            let met = |modulus| self.moduli.get(&number).is_some_and(|met| met.contains(modulus));
            let unmet = moduli.iter().filter(|modulus| !met(modulus));
            missing.extend(unmet.map(|modulus| format!("refusal {number} (0: accepted): no modulus {modulus}")));
        }
        missing
    }

    /// What the inputs failed to reach of tables in which a pair has several rules: a fifth of the accepted dockets,
    /// some refused by each test after 7, some steps and some runs.
    fn outcomes_not_reached(&self) -> Vec<String> {
        let dockets = |number: u32| self.outcomes.get(&number).copied().unwrap_or(0);
        let mut counts = vec![
            ("accepted dockets".into(), dockets(0), self.accepted / 5),
            ("steps".into(), self.outcome_steps, LEAST_OUTCOMES),
            ("runs".into(), self.outcome_runs, LEAST_OUTCOMES),
        ];
        counts.extend((8..=14).map(|number| (format!("refusals {number}"), dockets(number), LEAST_OUTCOMES)));
        counts.retain(|(_, met, least)| met < least);
        let text = |(what, met, least)| format!("several rules for a pair: {met} {what} of at least {least}");
        counts.into_iter().map(text).collect()
    }
}

/// Adds numbers by their keys.
fn add<K: Ord>(to: &mut BTreeMap<K, u64>, from: BTreeMap<K, u64>) {
    for (key, more) in from {
        *to.entry(key).or_default() += more;
    }
}

/// Which of these keys were met fewer times than the least.
fn few<K: Ord + Debug>(
    what: &str,
    met: &BTreeMap<K, u64>,
    wanted: impl IntoIterator<Item = K>,
    least: u64,
) -> Vec<String> {
    let times = |key: &K| met.get(key).copied().unwrap_or(0);
    let unmet = wanted.into_iter().filter(|key| times(key) < least);
    unmet
        .map(|key| format!("{what} {key:?}: {} of at least {least}", times(&key)))
        .collect()
}

/// The refusals that were met at fewer places than these, and those that were not met at these.
fn places_not_reached(places: &Places, least: &[(u32, usize)], last: &[(u32, u32)]) -> Vec<String> {
    let mut missing = vec![];
    for &(number, least) in least {
        let met = places.get(&number).map_or(0, BTreeSet::len);
        if met < least {
            missing.push(format!("refusal {number}: {met} places of at least {least}"));
        }
    }
    for (number, place) in last {
        if !places.get(number).is_some_and(|places| places.contains(place)) {
            missing.push(format!("refusal {number} at place {place}"));
        }
    }
    missing
}

/// What is said of a docket, with its bytes.
fn of_docket(docket: &[u8], what: &str) -> String {
    format!("docket {}\n  {what}", hex(docket))
}

/// What is said of a claim sheet, with its bytes and those of its docket.
fn of_sheet(docket: &[u8], sheet: &[u8], what: &str) -> String {
    format!("docket {}\nsheet {}\n  {what}", hex(docket), hex(sheet))
}

/// Bytes as two digits each.
pub fn hex(bytes: &[u8]) -> String {
    bytes.iter().map(|byte| format!("{byte:02x}")).collect()
}

/// Whether a pair of states has several rules, in a docket that passes tests 1 to 7.
fn has_outcomes(docket: &[u8]) -> bool {
    let mut pairs = before_pairs(docket);
    pairs.sort_unstable();
    pairs.windows(2).any(|two| two[0] == two[1])
}

/// Whether another rule has the before pair of this one.
fn is_outcome(docket: &[u8], rule: u32) -> bool {
    let pairs = before_pairs(docket);
    pairs.iter().filter(|&&pair| pair == pairs[rule as usize]).count() > 1
}

fn before_pairs(docket: &[u8]) -> Vec<&[u8]> {
    let offset = |at: usize| usize::from(u16::from_le_bytes([docket[at], docket[at + 1]]));
    let rules = docket[offset(14)..offset(16)].chunks(5);
    rules.map(|rule| &rule[..2]).collect()
}

/// How many inputs of each kind, other than accepted dockets, must have several rules for a pair.
const LEAST_OUTCOMES: u64 = 200;

/// Kinds of nodes that must be met in accepted dockets, with refusal 12, and with 13, where the kind has a ground.
const KINDS: [(u32, &[u8]); 3] = [
    (0, &[0, 1, 2, 3, 4, 5, 6, 7]),
    (12, &[0, 1, 2, 3, 4, 5, 6, 7, 8]),
    (13, &[0, 1, 2, 5, 6, 7]),
];

/// Moduli that must be met in accepted dockets, with refusal 12, some with a high bit, and with 13.
const MODULI: [(u32, &[u64]); 3] = [
    (0, &[2, 3, 7, 1000]),
    (12, &[0, 1, 1001, 2 + (1 << 16), 2 + (1 << 32), 2 + (1 << 63), u64::MAX]),
    (13, &[2, 3, 7, 1000]),
];

/// Places that must be met: the place behind the last state in test 5, the last layer, the last state, and the greatest
/// rule number.
const LAST_PLACES: [(u32, u32); 4] = [(5, 64), (8, 15), (22, 63), (23, u32::MAX)];

/// How many places must be met with each refusal; one for those whose place is always 0, all for counts and offsets.
const LEAST_PLACES: [(u32, usize); 19] = [
    (1, 1),
    (2, 1),
    (3, 5),
    (4, 6),
    (5, 10),
    (6, 20),
    (7, 20),
    (8, 5),
    (9, 20),
    (10, 20),
    (11, 10),
    (12, 50),
    (13, 50),
    (14, 50),
    (20, 1),
    (21, 1),
    (22, 10),
    (23, 10),
    (24, 20),
];
