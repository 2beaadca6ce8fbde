//! The rules of test 15, one by one.

use crate::make::{bits, node};
use second::{Docket, Node, Sheet, SheetLeaf};

/// The parts of a sheet, each where the counts of its header say; bytes that are missing are 0.
pub struct Parts {
    pub length: usize,
    pub header: [usize; 8],
    pub sheet: Sheet,
}

type Rule = fn(&Docket, &Parts) -> bool;

/// The rules of a sheet of 16 bytes or more. A shorter one breaks the first of them or that of the nodes.
pub const RULES: [(&str, Rule); 12] = [
    ("the length is the total", |_, parts| parts.length == parts.header[7]),
    ("the states are those of the docket", |docket, parts| {
        parts.header[0] == docket.states.len()
    }),
    ("the first tree has 1 to 1,024 nodes", |_, parts| {
        (1..=1024).contains(&parts.header[1])
    }),
    ("the second tree has 1 to 1,024 nodes", |_, parts| {
        (1..=1024).contains(&parts.header[2])
    }),
    ("there are at most 128 leaves", |_, parts| parts.header[3] <= 128),
    ("the offset of the numbers", |_, parts| parts.header[4] == 16),
    ("the offset of the nodes", |_, parts| parts.header[5] == parts.ends()[0]),
    ("the offset of the leaves", |_, parts| {
        parts.header[6] == parts.ends()[1]
    }),
    ("the total", |_, parts| parts.header[7] == parts.ends()[2]),
    ("numbers at states that are no inputs are 0", |docket, parts| {
        let mut states = docket.states.iter().zip(&parts.sheet.numbers);
        states.all(|(state, &number)| state.input || number == 0)
    }),
    ("weights have limits", |_, parts| {
        let mut weights = parts.sheet.leaves.iter().flat_map(|leaf| &leaf.weights);
        weights.all(|weight| (-10_000..=10_000).contains(weight))
    }),
    ("multipliers have a limit", |_, parts| {
        parts.sheet.leaves.iter().all(|leaf| leaf.multiplier <= 10_000)
    }),
];

/// The rules of test 15.
pub fn rule_names() -> [&'static str; 12] {
    RULES.map(|(name, _)| name)
}

/// The rules that a sheet breaks.
pub fn broken_rules(docket: &Docket, sheet: &[u8]) -> Vec<&'static str> {
    let parts = Parts::read(docket.states.len(), sheet);
    let broken = RULES.iter().filter(|(_, rule)| !rule(docket, &parts));
    broken.map(|(name, _)| *name).collect()
}

impl Parts {
    /// The parts of a sheet; its numbers and weights are read for so many states.
    pub fn read(states: usize, bytes: &[u8]) -> Parts {
        let byte = |place: usize| bytes.get(place).copied().unwrap_or(0);
        let at = |place: usize| u16::from_le_bytes([byte(place), byte(place + 1)]);
        let header: [usize; 8] = std::array::from_fn(|i| at(2 * i).into());
        let [own, first, second, leaves, ..] = header;
        let ends = ends(header);
        let signed = |begin: usize| (0..states).map(|i| i64::from(at(begin + 2 * i) as i16)).collect();
        let nodes = |begin: usize, number: usize| {
            let places = (0..number).map(|at| begin + 12 * at);
            let records = places.map(|place| std::array::from_fn(|i| byte(place + i)));
            records.map(read_node).collect()
        };
        let leaf = |at_leaf: usize| {
            let begin = ends[1] + (2 * own + 2) * at_leaf;
            SheetLeaf {
                weights: signed(begin),
                multiplier: at(begin + 2 * own).into(),
            }
        };
        let limit = 16 + 2 * own;
        let sheet = Sheet {
            numbers: signed(16),
            limit: i32::from_le_bytes(std::array::from_fn(|i| byte(limit + i))).into(),
            first: nodes(ends[0], first),
            second: nodes(ends[0] + 12 * first, second),
            leaves: (0..leaves).map(leaf).collect(),
        };
        let length = bytes.len();
        Parts { length, header, sheet }
    }

    fn ends(&self) -> [usize; 3] {
        ends(self.header)
    }
}

/// Where the numbers, the nodes and the leaves end, by the counts of a header.
fn ends([states, first, second, leaves, ..]: [usize; 8]) -> [usize; 3] {
    let numbers = 20 + 2 * states;
    let nodes = numbers + 12 * (first + second);
    [numbers, nodes, nodes + (2 * states + 2) * leaves]
}

fn read_node(record: [u8; 12]) -> Node {
    let [kind, party, low, high, set @ ..] = record;
    Node {
        set: bits(u64::from_le_bytes(set)),
        ..node(kind, party.into(), u16::from_le_bytes([low, high]).into())
    }
}
