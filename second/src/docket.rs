//! The parsed docket, tests 1 to 8, of which 14 is one, the check as a whole, and the file of a docket.

use crate::{ladder, tree};
use std::ops::Add;
use std::slice::Chunks;

/// The length of the header.
const HEADER: usize = 24;

/// The most fixed agents of a state.
const MOST_FIXED: i64 = 1000;

/// What a refused call says.
#[derive(Clone, Copy, Debug, PartialEq, Eq)]
pub struct Refusal {
    pub number: u32,
    pub place: u32,
}

impl Refusal {
    /// The line that a program prints for it.
    pub fn line(&self) -> String {
        format!("refused {} {}\n", self.number, self.place)
    }
}

/// The figures of an accepted docket: S, R, L, N, W and M.
#[derive(Clone, Copy, Debug, PartialEq, Eq)]
pub struct Figures {
    pub states: u64,
    pub rules: u64,
    pub layers: u64,
    pub nodes: u64,
    pub spread_sum: u64,
    pub widest: u64,
}

/// A state: its verdict, 0 or 1, whether it is an input state, and its fixed agents, which every start has. A docket of
/// version 1 has none.
#[derive(Clone, Copy, Debug, PartialEq, Eq)]
pub struct State {
    pub verdict: u8,
    pub input: bool,
    pub fixed: i64,
}

impl State {
    /// Whether it is no input and has fixed agents, so that every start has exactly this number of agents in it.
    pub fn only_fixed(&self) -> bool {
        !self.input && self.fixed > 0
    }
}

/// A rule: the before pair p, q, the after pair p', q', and the layer.
#[derive(Clone, Copy, Debug, PartialEq, Eq)]
pub struct Rule {
    pub before: [usize; 2],
    pub after: [usize; 2],
    pub layer: usize,
}

impl Rule {
    /// What the rules of version 2 are ordered by: the layer, then p, q, p' and q'.
    pub fn key(&self) -> [usize; 5] {
        let ([p, q], [p1, q1]) = (self.before, self.after);
        [self.layer, p, q, p1, q1]
    }
}

/// A node of the tree; `set[i]` is bit i of its set field, and says in kinds 5 and 6 that the set names state i.
#[derive(Clone, Copy, Debug, PartialEq, Eq)]
pub struct Node {
    pub kind: u8,
    pub party: usize,
    pub argument: usize,
    pub set: [bool; 64],
}

impl Node {
    /// The set field as a number, which in kind 7 is the modulus.
    pub fn modulus(&self) -> u64 {
        self.set
            .iter()
            .rev()
            .fold(0, |number, &bit| 2 * number + u64::from(bit))
    }
}

/// A leaf's weights for end 1 and for end 2.
#[derive(Clone, Debug, PartialEq, Eq)]
pub struct Leaf {
    pub y1: Vec<i64>,
    pub y2: Vec<i64>,
}

/// The version and the five sections of a docket; `weights[l][i]` is the weight of state i in layer l.
#[derive(Clone, Debug, PartialEq, Eq)]
pub struct Docket {
    pub version: u32,
    pub states: Vec<State>,
    pub rules: Vec<Rule>,
    pub weights: Vec<Vec<i64>>,
    pub nodes: Vec<Node>,
    pub leaves: Vec<Leaf>,
}

pub(crate) fn refuse<T>(number: u32, place: usize) -> Result<T, Refusal> {
    let place = place as u32;
    Err(Refusal { number, place })
}

/// The weights of a pair together.
pub(crate) fn together<T: Copy + Add<Output = T>>(weights: &[T], pair: [usize; 2]) -> T {
    weights[pair[0]] + weights[pair[1]]
}

/// Tests 1 to 14.
pub fn check(docket: &[u8]) -> Result<Figures, Refusal> {
    let docket = parse(docket)?;
    ladder::lowering_test(&docket)?;
    ladder::handover_test(&docket)?;
    tree::leaf_weight_test(&docket)?;
    tree::tree_test(&docket)?;
    Ok(Figures {
        states: docket.states.len() as u64,
        rules: docket.rules.len() as u64,
        layers: docket.weights.len() as u64,
        nodes: docket.nodes.len() as u64,
        spread_sum: ladder::spread_sum(&docket),
        widest: tree::widest(&docket),
    })
}

impl Figures {
    /// S, R, L, N, W and M, in this order.
    pub fn numbers(&self) -> [u64; 6] {
        let Figures {
            states,
            rules,
            layers,
            nodes,
            spread_sum,
            widest,
        } = *self;
        [states, rules, layers, nodes, spread_sum, widest]
    }
}

/// The line that the program prints for these bytes.
pub fn line(docket: &[u8]) -> String {
    match check(docket) {
        Ok(figures) => format!(
            "accepted {}\n",
            figures.numbers().map(|number| number.to_string()).join(" ")
        ),
        Err(refusal) => refusal.line(),
    }
}

/// Tests 1 to 8 and 14. Nodes and leaves are read and not tested.
pub fn parse(docket: &[u8]) -> Result<Docket, Refusal> {
    let (version, sections) = sections(docket)?;
    read(version, sections)
}

/// Tests 5, 6, 7, 14 and 8, in this order, on the bytes of the five sections, which pass test 3.
pub(crate) fn read(version: u32, sections: [&[u8]; 5]) -> Result<Docket, Refusal> {
    let [states, rules, layers, nodes, leaves] = sections;
    let records = states.chunks(state_length(version));
    let weights = 4 * records.len();
    state_test(records.clone())?;
    let parsed = Docket {
        version,
        states: records.map(read_state).collect(),
        rules: rules.chunks(5).map(read_rule).collect(),
        weights: layers.chunks(weights).map(read_layer).collect(),
        nodes: nodes.chunks(12).map(read_node).collect(),
        leaves: leaves.chunks(weights).map(read_leaf).collect(),
    };
    rule_test(&parsed)?;
    equal_rule_test(&parsed)?;
    order_test(&parsed)?;
    layer_test(&parsed)?;
    Ok(parsed)
}

/// Tests 1 to 4; hands back the version and the bytes of the five sections.
pub fn sections(docket: &[u8]) -> Result<(u32, [&[u8]; 5]), Refusal> {
    if docket.len() < HEADER || u16_at(docket, 22) != docket.len() {
        return refuse(1, 0);
    }
    let version = u16_at(docket, 0) as u32;
    version_test(version)?;
    let counts: [usize; 5] = std::array::from_fn(|i| u16_at(docket, 2 + 2 * i));
    count_test(counts)?;
    let records = record_lengths(version, counts[0]);
    let lengths: [usize; 5] = std::array::from_fn(|i| counts[i] * records[i]);
    let ends = ends(HEADER, &lengths);
    if let Some(place) = (0..6).find(|&i| u16_at(docket, 12 + 2 * i) != ends[i]) {
        return refuse(4, place);
    }
    Ok((version, std::array::from_fn(|i| &docket[ends[i]..ends[i + 1]])))
}

/// Test 2.
pub(crate) fn version_test(version: u32) -> Result<(), Refusal> {
    match version {
        1 | 2 => Ok(()),
        _ => refuse(2, 0),
    }
}

/// Test 3.
pub(crate) fn count_test(counts: [usize; 5]) -> Result<(), Refusal> {
    let [_, r, l, _, _] = counts;
    let limits = [2..=64, 0..=256, 0..=16, 1..=2048, 0..=128];
    for (place, limit) in limits.iter().enumerate() {
        if !limit.contains(&counts[place]) || (place == 2 && (l == 0) != (r == 0)) {
            return refuse(3, place);
        }
    }
    Ok(())
}

/// The length of the record of a state.
pub fn state_length(version: u32) -> usize {
    match version {
        2 => 3,
        _ => 1,
    }
}

/// The length of one record of each section. A product that is too great stays the greatest number, which no section is
/// as long as.
pub fn record_lengths(version: u32, states: usize) -> [usize; 5] {
    let weights = states.saturating_mul(4);
    [state_length(version), 5, weights, 12, weights]
}

/// Where each of the sections of these lengths begins, the first behind a header of this length, and where the last one
/// ends.
pub(crate) fn ends(header: usize, lengths: &[usize]) -> Vec<usize> {
    let mut ends = vec![header];
    for length in lengths {
        ends.push(ends[ends.len() - 1] + length);
    }
    ends
}

/// Test 5 on the records of the states.
fn state_test(mut records: Chunks<u8>) -> Result<(), Refusal> {
    let count = records.len();
    let bad = |record: &[u8]| record[0] > 3 || read_state(record).fixed > MOST_FIXED;
    if let Some(place) = records.clone().position(bad) {
        return refuse(5, place);
    }
    if !records.any(|record| read_state(record).input) {
        return refuse(5, count);
    }
    Ok(())
}

/// Test 6.
fn rule_test(docket: &Docket) -> Result<(), Refusal> {
    for (place, rule) in docket.rules.iter().enumerate() {
        let ([p, q], [p1, q1]) = (rule.before, rule.after);
        let state_too_large = [p, q, p1, q1].iter().any(|&state| state >= docket.states.len());
        let pairs_wrong = p > q || p1 > q1 || rule.before == rule.after;
        if state_too_large || pairs_wrong || rule.layer >= docket.weights.len() {
            return refuse(6, place);
        }
    }
    Ok(())
}

/// Test 7: rules are equal in all four states, whatever their layers.
fn equal_rule_test(docket: &Docket) -> Result<(), Refusal> {
    let states = |rule: usize| (docket.rules[rule].before, docket.rules[rule].after);
    for later in 0..docket.rules.len() {
        for earlier in 0..later {
            if states(earlier) == states(later) {
                return refuse(7, later);
            }
        }
    }
    Ok(())
}

/// Test 14: in version 2 each rule stands after the one before it.
fn order_test(docket: &Docket) -> Result<(), Refusal> {
    let mut neighbours = docket.rules.windows(2);
    let wrong = |two: &[Rule]| two[1].key() <= two[0].key();
    match neighbours.position(wrong) {
        Some(earlier) if docket.version == 2 => refuse(14, earlier + 1),
        _ => Ok(()),
    }
}

/// Test 8.
fn layer_test(docket: &Docket) -> Result<(), Refusal> {
    for (place, weights) in docket.weights.iter().enumerate() {
        let no_rule = !docket.rules.iter().any(|rule| rule.layer == place);
        if no_rule || weights.iter().any(|&weight| weight > 1_000_000) {
            return refuse(8, place);
        }
    }
    Ok(())
}

pub(crate) fn u16_at(bytes: &[u8], at: usize) -> usize {
    usize::from(u16::from_le_bytes([bytes[at], bytes[at + 1]]))
}

/// The record of a state: one byte, or in version 2 this byte and the number of fixed agents.
fn read_state(record: &[u8]) -> State {
    let (verdict, input) = (record[0] & 1, record[0] & 2 != 0);
    let fixed = match record {
        [_, low, high] => i64::from(u16::from_le_bytes([*low, *high])),
        _ => 0,
    };
    State { verdict, input, fixed }
}

fn read_rule(record: &[u8]) -> Rule {
    let [p, q, p1, q1, layer]: [usize; 5] = std::array::from_fn(|i| usize::from(record[i]));
    let (before, after) = ([p, q], [p1, q1]);
    Rule { before, after, layer }
}

fn read_layer(record: &[u8]) -> Vec<i64> {
    let numbers = record.chunks(4).map(|b| u32::from_le_bytes([b[0], b[1], b[2], b[3]]));
    numbers.map(i64::from).collect()
}

pub(crate) fn read_node(record: &[u8]) -> Node {
    let set = std::array::from_fn(|state| (record[4 + state / 8] >> (state % 8)) & 1 == 1);
    Node {
        kind: record[0],
        party: usize::from(record[1]),
        argument: u16_at(record, 2),
        set,
    }
}

/// Signed 16-bit numbers behind each other.
pub(crate) fn read_signed(bytes: &[u8]) -> Vec<i64> {
    let numbers = bytes.chunks(2).map(|b| i16::from_le_bytes([b[0], b[1]]));
    numbers.map(i64::from).collect()
}

fn read_leaf(record: &[u8]) -> Leaf {
    let mut y1 = read_signed(record);
    let y2 = y1.split_off(y1.len() / 2);
    Leaf { y1, y2 }
}

impl Docket {
    /// The file of this docket. Counts and offsets follow from the vectors, and the fixed agents are left out but in
    /// version 2. Nothing is tested, and each number is cut to its width in the file.
    pub fn bytes(&self) -> Vec<u8> {
        let length = state_length(self.version);
        let states = self.states.iter().map(state_bytes);
        let weights = self.weights.iter().flatten();
        let leaf_weights = self.leaves.iter().flat_map(|leaf| leaf.y1.iter().chain(&leaf.y2));
        let sections: [Vec<u8>; 5] = [
            states.flat_map(|record| record.into_iter().take(length)).collect(),
            self.rules.iter().flat_map(rule_bytes).collect(),
            weights.flat_map(|&weight| (weight as u32).to_le_bytes()).collect(),
            self.nodes.iter().flat_map(node_bytes).collect(),
            leaf_weights.flat_map(|&weight| (weight as i16).to_le_bytes()).collect(),
        ];
        let [states, rules, layers] = [self.states.len(), self.rules.len(), self.weights.len()];
        let counts = [states, rules, layers, self.nodes.len(), self.leaves.len()];
        assemble(self.version, counts, std::array::from_fn(|i| &sections[i][..]))
    }
}

/// The header with this version and these counts, each number cut to its width in the file, and the sections behind it.
pub(crate) fn assemble(version: u32, counts: [usize; 5], sections: [&[u8]; 5]) -> Vec<u8> {
    let ends = ends(HEADER, &sections.map(<[u8]>::len));
    let header = [&[version as usize], &counts[..], &ends].concat();
    let header = header.iter().flat_map(|&number| (number as u16).to_le_bytes());
    header.chain(sections.concat()).collect()
}

/// The record of a state in version 2; its first byte is that of version 1.
fn state_bytes(state: &State) -> [u8; 3] {
    let [low, high] = (state.fixed as u16).to_le_bytes();
    [state.verdict | u8::from(state.input) << 1, low, high]
}

fn rule_bytes(rule: &Rule) -> [u8; 5] {
    let ([p, q], [p1, q1]) = (rule.before, rule.after);
    [p, q, p1, q1, rule.layer].map(|number| number as u8)
}

pub(crate) fn node_bytes(node: &Node) -> [u8; 12] {
    let [low, high] = (node.argument as u16).to_le_bytes();
    let mut record = [node.kind, node.party as u8, low, high, 0, 0, 0, 0, 0, 0, 0, 0];
    for state in 0..64 {
        record[4 + state / 8] |= u8::from(node.set[state]) << (state % 8);
    }
    record
}

/// The sample dockets, in the notation of the document.
#[cfg(test)]
pub(crate) mod samples {
    use super::*;

    pub const TREE: &str = "3 1 0 0; 1 1 0 0; 5 1 0 2; 6 2 0 2; 1 2 0 0";

    /// The records of a text, parted by semicolons.
    fn rows(text: &str) -> Vec<Vec<u64>> {
        let row = |row: &str| row.split_whitespace().map(|number| number.parse().unwrap()).collect();
        text.split_terminator(';').map(row).collect()
    }

    /// Nodes from the kind, the party, the argument and the set field of each.
    pub fn nodes(text: &str) -> Vec<Node> {
        let node = |row: &Vec<u64>| Node {
            kind: row[0] as u8,
            party: row[1] as usize,
            argument: row[2] as usize,
            set: bits(row[3]),
        };
        rows(text).iter().map(node).collect()
    }

    /// A set field with this number.
    pub fn bits(number: u64) -> [bool; 64] {
        std::array::from_fn(|bit| number >> bit & 1 == 1)
    }

    /// A docket of version 1 with no leaf from the bytes of its states and the records of its rules, layers and nodes.
    pub fn docket(states: &str, rules: &str, layers: &str, tree: &str) -> Docket {
        let bytes = |row: &Vec<u64>| row.iter().map(|&number| number as u8).collect::<Vec<u8>>();
        Docket {
            version: 1,
            states: rows(states)
                .iter()
                .flat_map(bytes)
                .map(|byte| read_state(&[byte]))
                .collect(),
            rules: rows(rules).iter().map(|row| read_rule(&bytes(row))).collect(),
            weights: rows(layers)
                .iter()
                .map(|row| row.iter().map(|&weight| weight as i64).collect())
                .collect(),
            nodes: nodes(tree),
            leaves: vec![],
        }
    }

    /// The docket in version 2, with these numbers of fixed agents.
    pub fn with_fixed<const S: usize>(mut docket: Docket, fixed: [i64; S]) -> Docket {
        docket.version = 2;
        assert_eq!(docket.states.len(), S);
        for (state, fixed) in docket.states.iter_mut().zip(fixed) {
            state.fixed = fixed;
        }
        docket
    }

    /// The broadcast docket with this tree.
    pub fn broadcast(nodes: &str) -> Docket {
        docket("2 3", "0 1 1 1 0", "1 0", nodes)
    }

    /// States 0 and 1 have two rules, 0 1 to 1 1 and 0 1 to 1 2.
    pub fn two_outcomes() -> Docket {
        let nodes = "3 1 0 0; 1 1 0 0; 3 1 2 0; 1 1 0 0; 5 1 0 6; 6 2 0 6; 1 2 0 0";
        docket("2 3 1", "0 1 1 1 0; 0 1 1 2 0; 0 2 1 2 0", "1 0 0", nodes)
    }

    /// Majority with a tree that is refused.
    pub fn majority() -> Docket {
        let rules = "0 1 2 3 0; 0 3 0 2 0; 1 2 1 3 1; 2 3 3 3 1";
        docket("2 3 0 1", rules, "1 1 0 1; 0 0 1 0", "1 1 0 0")
    }

    /// Whether the number of workers is odd: states O, E, o, e, and a node of kind 7.
    pub fn parity() -> Docket {
        let rules = "0 0 1 3 0; 0 1 0 2 0; 1 1 1 3 0; 0 3 0 2 1; 1 2 1 3 2";
        let even_at_end_2 = "3 2 4 0; 5 2 0 3; 6 2 0 15; 1 2 0 0; 1 2 0 0";
        let odd_at_end_2 = "3 2 0 0; 4 2 0 0; 5 2 0 3; 6 2 0 15; 1 2 0 0; 7 0 0 2";
        let odd_at_end_1 = "3 1 3 0; 5 1 0 3; 6 1 0 15; 1 1 0 0; 1 1 0 0";
        let nodes = format!("3 1 1 0; 3 2 1 0; {even_at_end_2}; {odd_at_end_2}; {odd_at_end_1}");
        let weights = "1 1 0 0; 0 0 0 1; 0 0 1 0";
        let y = vec![1, 0, 0, 0];
        Docket {
            leaves: vec![Leaf { y1: y.clone(), y2: y }],
            ..docket("3 0 1 0", rules, weights, &nodes)
        }
    }

    /// Majority with layers and weights exchanged.
    pub fn exchanged() -> Docket {
        let rules = "0 1 2 3 1; 0 3 0 2 1; 1 2 1 3 0; 2 3 3 3 0";
        docket("2 3 0 1", rules, "0 0 1 0; 1 1 0 1", "1 1 0 0")
    }
}

#[cfg(test)]
mod tests {
    use super::samples::*;
    use super::*;

    #[test]
    fn p1_accepted_and_p2_cut() {
        let bytes = broadcast(TREE).bytes();
        let header: Vec<usize> = (0..12).map(|i| u16_at(&bytes, 2 * i)).collect();
        assert_eq!(header, [1, 2, 1, 1, 5, 0, 24, 26, 31, 39, 99, 99]);
        assert_eq!(bytes[24..40], [2, 3, 0, 1, 1, 1, 0, 1, 0, 0, 0, 0, 0, 0, 0, 3]);
        assert_eq!(bytes[63..75], [5, 1, 0, 0, 2, 0, 0, 0, 0, 0, 0, 0]);
        assert_eq!(line(&bytes), "accepted 2 1 1 5 1 1\n");
        assert_eq!(line(&bytes[..98]), "refused 1 0\n");
        assert_eq!(line(&bytes[..23]), "refused 1 0\n");
        assert_eq!(line(&[0; 65_536]), "refused 1 0\n");
    }

    /// One byte of the broadcast docket is changed.
    #[test]
    fn single_bytes() {
        let counts = [
            (2, 1, 3, 0),
            (2, 65, 3, 0),
            (5, 1, 3, 1),
            (4, 0, 3, 2),
            (6, 17, 3, 2),
            (8, 0, 3, 3),
        ];
        let offsets = [
            (12, 0, 4, 0),
            (14, 0, 4, 1),
            (16, 0, 4, 2),
            (18, 0, 4, 3),
            (20, 0, 4, 4),
            (10, 1, 4, 5),
        ];
        let rules = [
            (26, 2, 6, 0),
            (27, 2, 6, 0),
            (28, 2, 6, 0),
            (29, 0, 6, 0),
            (28, 0, 6, 0),
            (30, 1, 6, 0),
        ];
        let others = [
            (0, 0, 2, 0),
            (1, 1, 2, 0),
            (10, 129, 3, 4),
            (24, 7, 5, 0),
            (25, 7, 5, 1),
            (34, 1, 8, 0),
        ];
        for (at, byte, number, place) in [counts, offsets, rules, others].concat() {
            let mut bytes = broadcast(TREE).bytes();
            bytes[at] = byte;
            assert_eq!(check(&bytes), refuse(number, place), "byte {at}");
        }
    }

    #[test]
    fn whole_sections() {
        let said = |states, rules, layers| line(&docket(states, rules, layers, TREE).bytes());
        assert_eq!(said("0 1", "0 1 1 1 0", "1 0"), "refused 5 2\n");
        assert_eq!(said("2 3", "0 1 1 1 0; 0 1 0 0 0", "1 0"), "refused 9 1\n");
        assert_eq!(said("2 3", "0 1 1 1 0", "1000000 0"), "accepted 2 1 1 5 1000000 1\n");
        assert_eq!(said("2 3", "0 1 1 1 0", "1000001 0"), "refused 8 0\n");
        assert_eq!(said("2 3", "0 1 1 1 0", "1 0; 1 0"), "refused 8 1\n");
        assert_eq!(said("2 3", "", "1 0"), "refused 3 2\n");
    }

    #[test]
    fn two_outcomes_of_one_pair() {
        assert_eq!(line(&two_outcomes().bytes()), "accepted 3 3 1 7 1 2\n");
    }

    /// Test 7 refuses the lowest rule that equals an earlier one in all four states, after test 6 and before test 8.
    #[test]
    fn equal_rules() {
        let said = |rules, layers| line(&docket("2 3 1", rules, layers, "1 1 0 0").bytes());
        let one_layer = [
            ("0 1 1 1 0; 0 1 1 1 0", "refused 7 1\n"),
            ("0 1 1 1 0; 0 1 1 2 0; 0 1 1 2 0; 0 1 1 1 0", "refused 7 2\n"),
            ("0 1 1 1 0; 0 1 1 1 0; 0 1 0 1 0", "refused 6 2\n"),
            ("0 1 1 1 0; 0 1 1 2 0", "refused 13 0\n"),
            ("0 1 1 2 0; 0 1 2 2 0", "refused 13 0\n"),
            ("0 1 2 2 0; 1 1 2 2 0", "refused 13 0\n"),
            ("0 1 1 2 0; 0 2 1 2 0", "refused 13 0\n"),
        ];
        let two_layers = [
            ("0 1 1 1 0; 0 1 1 1 1", "refused 7 1\n"),
            ("0 1 1 1 1; 0 1 1 1 0", "refused 7 1\n"),
            ("0 1 1 1 0; 0 1 1 1 0", "refused 7 1\n"),
            ("0 1 1 1 0; 0 1 1 2 0", "refused 8 1\n"),
            ("0 1 1 1 0; 0 1 1 2 1", "refused 13 0\n"),
        ];
        for (rules, line) in one_layer {
            assert_eq!(said(rules, "2 1 0"), line, "{rules}");
        }
        for (rules, line) in two_layers {
            assert_eq!(said(rules, "2 1 0; 2 1 0"), line, "{rules}");
        }
    }

    /// The lines of these rules in version 1 and in version 2. There are four states of verdict 1, so that a tree of one
    /// node closes, and the weights of every layer fall from state to state.
    fn in_both_versions(rules: &str, layers: usize) -> [String; 2] {
        let old = docket("3 3 3 3", rules, &"3 2 1 0;".repeat(layers), "1 1 0 0");
        let new = with_fixed(old.clone(), [0; 4]);
        [old, new].map(|docket| line(&docket.bytes()))
    }

    /// Each of these pairs of rules is in order by one of the numbers, which is the first that differs; a later number
    /// goes the other way, where there is one. Exchanged, the second rule is refused in version 2.
    #[test]
    fn order_of_the_rules() {
        for (number, one, other, layers) in [
            ("layer", "1 1 2 2 0", "0 3 2 3 1", 2),
            ("p", "0 3 2 3 0", "1 1 2 2 0", 1),
            ("q", "0 1 2 3 0", "0 2 1 3 0", 1),
            ("p'", "0 1 1 3 0", "0 1 2 2 0", 1),
            ("q'", "0 1 2 2 0", "0 1 2 3 0", 1),
        ] {
            let accepted = format!("accepted 4 2 {layers} 1 {} 0\n", 3 * layers);
            let in_order = in_both_versions(&format!("{one}; {other}"), layers);
            assert_eq!(in_order, [&*accepted, &*accepted], "{number}");
            let exchanged = in_both_versions(&format!("{other}; {one}"), layers);
            assert_eq!(exchanged, [&*accepted, "refused 14 1\n"], "{number}");
        }
    }

    /// The place is the lowest rule that is not after the one before it.
    #[test]
    fn places_out_of_order() {
        let rules = ["0 1 1 3 0", "0 1 2 2 0", "0 1 2 3 0", "0 2 1 3 0", "1 1 2 2 0"];
        let said = |order: [usize; 5]| in_both_versions(&order.map(|rule| rules[rule]).join("; "), 1);
        let accepted = "accepted 4 5 1 1 3 0\n";
        assert_eq!(said([0, 1, 2, 3, 4]), [accepted; 2]);
        for (order, place) in [
            ([1, 0, 2, 3, 4], 1),
            ([0, 2, 1, 3, 4], 2),
            ([0, 1, 3, 2, 4], 3),
            ([0, 1, 2, 4, 3], 4),
            ([4, 1, 2, 3, 0], 1),
            ([1, 2, 3, 4, 0], 4),
            ([4, 0, 1, 2, 3], 1),
            ([0, 3, 2, 4, 1], 2),
            ([4, 3, 2, 1, 0], 1),
        ] {
            let refused = format!("refused 14 {place}\n");
            assert_eq!(said(order), [accepted, &refused], "{order:?}");
        }
    }

    /// Test 14 comes after tests 6 and 7 and before test 8, whatever the places.
    #[test]
    fn order_before_and_after_other_tests() {
        for (rules, layers, version_1, version_2) in [
            ("0 2 1 3 0; 0 1 1 3 0; 0 1 0 1 0", 1, "refused 6 2\n", "refused 6 2\n"),
            ("0 1 0 1 0; 0 2 1 3 0; 0 1 1 3 0", 1, "refused 6 0\n", "refused 6 0\n"),
            ("0 2 1 3 1; 0 1 1 3 0", 1, "refused 6 0\n", "refused 6 0\n"),
            ("0 1 1 3 0; 0 1 1 3 0", 1, "refused 7 1\n", "refused 7 1\n"),
            ("0 1 1 3 0; 0 1 1 3 1", 2, "refused 7 1\n", "refused 7 1\n"),
            ("0 1 1 3 1; 0 1 1 3 0", 2, "refused 7 1\n", "refused 7 1\n"),
            ("0 2 1 3 0; 0 1 1 3 0; 0 1 1 3 0", 1, "refused 7 2\n", "refused 7 2\n"),
            ("0 1 1 3 0; 0 1 1 3 1; 0 2 1 3 0", 2, "refused 7 1\n", "refused 7 1\n"),
            ("0 1 1 3 0; 0 2 1 3 0; 0 1 1 3 1", 2, "refused 7 2\n", "refused 7 2\n"),
            ("0 2 1 3 1; 0 1 1 3 1", 2, "refused 8 0\n", "refused 14 1\n"),
            ("0 2 1 3 0; 0 1 1 3 0", 2, "refused 8 1\n", "refused 14 1\n"),
            ("0 1 1 3 1; 0 2 1 3 1", 2, "refused 8 0\n", "refused 8 0\n"),
            ("0 2 1 3 0; 0 1 0 0 0", 1, "refused 9 1\n", "refused 14 1\n"),
            ("0 1 0 0 0; 0 2 1 3 0", 1, "refused 9 0\n", "refused 9 0\n"),
        ] {
            assert_eq!(in_both_versions(rules, layers), [version_1, version_2], "{rules}");
        }
    }

    /// The version is 1 or 2; the other numbers have one of these in their low or their high byte. A docket of one
    /// version has the wrong offsets for the other, from that of the rules on.
    #[test]
    fn versions() {
        let version_2 = with_fixed(broadcast(TREE), [0, 0]);
        for (docket, right) in [(broadcast(TREE), 1), (version_2, 2)] {
            for version in [0, 1, 2, 3, 256, 257, 258, 512, 65_535] {
                let mut bytes = docket.bytes();
                bytes[..2].copy_from_slice(&u16::to_le_bytes(version));
                let said = match version {
                    1 | 2 if version == right => "accepted 2 1 1 5 1 1\n",
                    1 | 2 => "refused 4 1\n",
                    _ => "refused 2 0\n",
                };
                assert_eq!(line(&bytes), said, "{version} for {right}");
            }
        }
    }

    /// Test 4 follows the version.
    #[test]
    fn sections_of_version_2() {
        let bytes = with_fixed(broadcast(TREE), [258, 1000]).bytes();
        let header: Vec<usize> = (0..12).map(|i| u16_at(&bytes, 2 * i)).collect();
        assert_eq!(header, [2, 2, 1, 1, 5, 0, 24, 30, 35, 43, 103, 103]);
        assert_eq!(bytes[24..31], [2, 2, 1, 3, 0xe8, 3, 0]);
        for place in 0..6 {
            let mut other = bytes.clone();
            other[12 + 2 * place] += 1;
            let said = if place == 5 { refuse(1, 0) } else { refuse(4, place) };
            assert_eq!(check(&other), said);
        }
        let longer = [&bytes[..22], &[104, 0], &bytes[24..], &[0]].concat();
        assert_eq!(check(&longer), refuse(4, 5));
        let largest: usize = record_lengths(2, 64)
            .iter()
            .zip([64, 256, 16, 2048, 128])
            .map(|(r, n)| r * n)
            .sum();
        assert_eq!(24 + largest, 62_936);
    }

    /// Test 5 refuses the lowest state with another bit or with too many fixed agents; fixed agents make no input.
    #[test]
    fn states_of_version_2() {
        let said = |bytes: [u8; 2], fixed: [i64; 2]| {
            let mut docket = with_fixed(broadcast(TREE), fixed);
            for (state, byte) in docket.states.iter_mut().zip(bytes) {
                (state.verdict, state.input) = (byte & !2, byte & 2 != 0);
            }
            line(&docket.bytes())
        };
        for fixed in [[0, 0], [0, 1], [1, 0], [1, 1], [0, 1000], [1000, 0], [255, 256]] {
            assert_eq!(said([2, 3], fixed), "accepted 2 1 1 5 1 1\n", "{fixed:?}");
        }
        for more in [1001, 1024, 1256, 32_768, 65_535] {
            assert_eq!(said([2, 3], [more, 0]), "refused 5 0\n", "{more}");
            assert_eq!(said([2, 3], [0, more]), "refused 5 1\n", "{more}");
            assert_eq!(said([2, 7], [more, 0]), "refused 5 0\n", "{more}");
        }
        assert_eq!(said([6, 3], [0, 1001]), "refused 5 0\n");
        assert_eq!(said([2, 7], [0, 0]), "refused 5 1\n");
        assert_eq!(said([0, 1], [0, 0]), "refused 5 2\n");
        assert_eq!(said([0, 1], [3, 1000]), "refused 5 2\n");
        assert_eq!(said([0, 1], [3, 1001]), "refused 5 1\n");
    }

    /// A docket of version 1 whose rules are in order says the same in version 2, with no fixed agents, whether it is
    /// accepted or refused.
    #[test]
    fn version_2_without_fixed_agents() {
        let same_pairs = docket("2 3", "0 1 0 1 0", "1 0", TREE);
        let no_input = docket("0 1", "0 1 1 1 0", "1 0", TREE);
        for old in [broadcast(TREE), majority(), parity(), same_pairs, no_input] {
            let new = Docket {
                version: 2,
                ..old.clone()
            };
            assert_eq!(new.bytes().len(), old.bytes().len() + 2 * old.states.len());
            assert_eq!(check(&new.bytes()), check(&old.bytes()));
        }
        assert_eq!(check(&exchanged().bytes()), refuse(10, 0));
        assert_eq!(check(&with_fixed(exchanged(), [0; 4]).bytes()), refuse(14, 2));
    }

    #[test]
    fn bytes_is_the_inverse_of_parse() {
        let version_2 = with_fixed(majority(), [0, 1, 257, 1000]);
        assert_eq!(parse(&version_2.bytes()), Ok(version_2));
        let mut docket = majority();
        docket.nodes[0].argument = 65_535;
        docket.nodes[0].set[63] = true;
        let (y1, y2) = (vec![1, -1, 32_767, -32_768], vec![-1, 1, 0, 0]);
        docket.leaves = vec![Leaf { y1, y2 }];
        assert_eq!(parse(&docket.bytes()), Ok(docket));
    }
}
