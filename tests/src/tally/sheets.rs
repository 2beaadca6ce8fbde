//! What the claim sheets were.

use super::{add, few};
use crate::calls::is_of_tests_1_to_8;
use crate::damage::children;
use crate::sheets::{broken_rules, rule_names};
use second::{Docket, Node, Refusal, Sheet, State};
use std::collections::{BTreeMap, BTreeSet};

/// What test 12 refuses.
#[derive(Clone, Copy, Debug, PartialEq, Eq, PartialOrd, Ord)]
pub enum Fault {
    Field,
    Depth,
    LeftOver,
    RanOut,
}

#[derive(Default)]
pub struct Sheets {
    /// Sheets by the version, 0 where tests 1 to 8 refuse the docket, and by the number of the refusal, 0 for accepted
    /// ones; of dockets that tests 9 to 13 refuse, 100 more.
    pub said: BTreeMap<(u32, u32), u64>,
    /// Dockets that tests 9 to 13 refuse, by the number and by whether test 15 would refuse the sheet.
    pub dockets: BTreeMap<(u32, bool), u64>,
    /// Nodes by the tree, by the number of the refusal that they got, 0 for all nodes of accepted sheets, and by their
    /// kind, 8 for every unknown one.
    pub nodes: BTreeMap<(usize, u32, u8), u64>,
    /// Refusals 12 by the tree and by what is refused.
    pub faults: BTreeMap<(usize, Fault), u64>,
    /// Refusals 15 by the rule, where one alone is broken.
    pub rules: BTreeMap<&'static str, u64>,
    /// Accepted sheets by whether the sum counts fixed agents, and whether a state that is no input has some.
    pub fixed: BTreeMap<(bool, bool), u64>,
    /// Accepted sheets by the sign of the limit, and by the least and the greatest sign of a number.
    pub signs: BTreeMap<(i64, i64, i64), u64>,
    /// Leaves that nodes of accepted sheets name, by the tree and the multiplier, given as the least of its kind.
    pub multipliers: BTreeMap<(usize, i64), u64>,
    /// Accepted sheets in which a count is at its limit: states, nodes of either tree, leaves.
    pub limits: BTreeMap<&'static str, u64>,
    /// Claims that were tried on small starts, by whether some come to 0 and some to 1.
    pub tried: BTreeMap<(bool, bool), u64>,
    /// Lines of the program `decides` by the number of the refusal, 0 for accepted sheets.
    pub lines: BTreeMap<u32, u64>,
    /// Sheets that break a law, with their dockets.
    pub broken: Vec<String>,
}

impl Sheets {
    /// Counts a sheet by what is said of it, and of its docket alone.
    pub fn count(&mut self, docket: &[u8], sheet: &[u8], of_docket: Option<Refusal>, said: Option<Refusal>) {
        let number = said.map_or(0, |refusal| refusal.number);
        let Ok(docket) = second::parse(docket) else {
            *self.said.entry((0, number)).or_default() += 1;
            return;
        };
        let more = if of_docket.is_some() { 100 } else { 0 };
        *self.said.entry((docket.version, more + number)).or_default() += 1;
        let read = second::parse_sheet(&docket, sheet);
        match (read, said) {
            (read, _) if of_docket.is_some() => *self.dockets.entry((number, read.is_err())).or_default() += 1,
            (Ok(sheet), None) => self.count_accepted(&docket, &sheet),
            (Ok(sheet), Some(refusal)) => self.count_refused(&docket, &sheet, refusal),
            (Err(_), _) => {
                if let [rule] = broken_rules(&docket, sheet)[..] {
                    *self.rules.entry(rule).or_default() += 1;
                }
            }
        }
    }

    fn count_accepted(&mut self, docket: &Docket, sheet: &Sheet) {
        for (tree, nodes) in [&sheet.first, &sheet.second].into_iter().enumerate() {
            for node in nodes {
                *self.nodes.entry((tree, 0, node.kind)).or_default() += 1;
            }
            for leaf in nodes.iter().filter(|node| node.kind == 0) {
                let multiplier = sheet.leaves[leaf.argument].multiplier;
                let kind = MULTIPLIERS.iter().rfind(|&&least| least <= multiplier).unwrap_or(&0);
                *self.multipliers.entry((tree, *kind)).or_default() += 1;
            }
        }
        let counted = |(state, &number): (&State, &i64)| state.fixed > 0 && number != 0;
        let is_counted = docket.states.iter().zip(&sheet.numbers).any(counted);
        let others = docket.states.iter().any(State::only_fixed);
        *self.fixed.entry((is_counted, others)).or_default() += 1;
        let signs = || sheet.numbers.iter().map(|number| number.signum());
        let (least, greatest) = (signs().min().unwrap_or(0), signs().max().unwrap_or(0));
        *self.signs.entry((sheet.limit.signum(), least, greatest)).or_default() += 1;
        for (name, count, limit) in [
            ("states", docket.states.len(), 64),
            ("nodes of the first tree", sheet.first.len(), 1024),
            ("nodes of the second tree", sheet.second.len(), 1024),
            ("leaves", sheet.leaves.len(), 128),
        ] {
            *self.limits.entry(name).or_default() += u64::from(count == limit);
        }
    }

    fn count_refused(&mut self, docket: &Docket, sheet: &Sheet, refusal: Refusal) {
        let (place, first) = (refusal.place as usize, sheet.first.len());
        let tree = usize::from(place > first || place == first && !runs_out(docket, &sheet.first));
        let (nodes, place) = match tree {
            0 => (&sheet.first, place),
            _ => (&sheet.second, place - first),
        };
        if let Some(node) = nodes.get(place) {
            let key = (tree, refusal.number, node.kind.min(8));
            *self.nodes.entry(key).or_default() += 1;
        }
        if refusal.number == 12 {
            let depth = depths(docket, nodes).get(place).copied();
            let fault = match depth {
                _ if place == nodes.len() => Fault::RanOut,
                None => Fault::LeftOver,
                Some(depth) if depth > 40 => Fault::Depth,
                Some(_) => Fault::Field,
            };
            *self.faults.entry((tree, fault)).or_default() += 1;
        }
    }

    /// Counts a claim that was tried, by the outputs that small starts come to.
    pub fn count_tried(&mut self, shown: &BTreeSet<u8>) {
        let key = (shown.contains(&0), shown.contains(&1));
        *self.tried.entry(key).or_default() += 1;
    }

    pub fn merge(&mut self, other: Sheets) {
        add(&mut self.said, other.said);
        add(&mut self.dockets, other.dockets);
        add(&mut self.nodes, other.nodes);
        add(&mut self.faults, other.faults);
        add(&mut self.rules, other.rules);
        add(&mut self.fixed, other.fixed);
        add(&mut self.signs, other.signs);
        add(&mut self.multipliers, other.multipliers);
        add(&mut self.limits, other.limits);
        add(&mut self.tried, other.tried);
        add(&mut self.lines, other.lines);
        self.broken.extend(other.broken);
    }

    /// What the inputs failed to reach: every refusal of the docket and of the sheet, those behind test 8 in both
    /// versions, and before test 15; each kind of node in each tree, accepted and refused; each fault of test 12 in each
    /// tree; each rule of test 15 alone; fixed agents in both places; signs, multipliers, counts at their limits; claims
    /// that were tried; and lines.
    pub fn not_reached(&self) -> Vec<String> {
        let of_shape = (1..=14)
            .filter(|&number| is_of_tests_1_to_8(number))
            .map(|number| (0, number));
        let behind = [0, 12, 13, 15].into_iter().chain(109..=113);
        let of_version = behind.flat_map(|number| [(1, number), (2, number)]);
        let dockets = (9..=13).flat_map(|number| [(number, false), (number, true)]);
        let faults = [Fault::Field, Fault::Depth, Fault::LeftOver, Fault::RanOut];
        let of_tree = [0, 1].into_iter().flat_map(|tree| faults.map(|fault| (tree, fault)));
        let fixed = [false, true].into_iter().flat_map(|one| [(one, false), (one, true)]);
        let multipliers = [0, 1]
            .into_iter()
            .flat_map(|tree| MULTIPLIERS.map(|least| (tree, least)));
        let at_limits = [
            "states",
            "nodes of the first tree",
            "nodes of the second tree",
            "leaves",
        ];
        [
            few(
                "version, refusal (0: accepted)",
                &self.said,
                of_shape.chain(of_version),
                LEAST,
            ),
            few("refusal of the docket, bad sheet", &self.dockets, dockets, LEAST),
            few("tree, refusal (0: accepted), kind", &self.nodes, nodes_wanted(), LEAST),
            few("tree, fault", &self.faults, of_tree, LEAST),
            few("rule of test 15", &self.rules, rule_names(), LEAST),
            few("fixed agents counted, others", &self.fixed, fixed, LEAST),
            few("signs of limit and numbers", &self.signs, SIGNS, LEAST),
            few("tree, multiplier", &self.multipliers, multipliers, LEAST),
            few("at their limit", &self.limits, at_limits, LEAST),
            few("some come to 0, to 1", &self.tried, TRIED, LEAST),
            few("lines, refusal", &self.lines, LINES, LEAST),
        ]
        .concat()
        .into_iter()
        .map(|text| format!("sheets: {text}"))
        .collect()
    }
}

/// The depths of the nodes, up to the first that is left over.
fn depths(docket: &Docket, nodes: &[Node]) -> Vec<usize> {
    let (mut open, mut depths) = (vec![1], vec![]);
    for node in nodes {
        let Some(depth) = open.pop() else {
            break;
        };
        depths.push(depth);
        open.extend(std::iter::repeat_n(depth + 1, children(docket, node)));
    }
    depths
}

/// Whether a tree has too few nodes.
fn runs_out(docket: &Docket, nodes: &[Node]) -> bool {
    let wanted = nodes.iter().map(|node| children(docket, node)).sum::<usize>();
    depths(docket, nodes).len() == nodes.len() && wanted + 1 > nodes.len()
}

/// The kinds in each tree: in accepted sheets, with refusal 12, and with 13, where the kind has a ground.
fn nodes_wanted() -> impl Iterator<Item = (usize, u32, u8)> {
    let kinds: [(u32, &[u8]); 3] = [
        (0, &[0, 1, 2, 3, 4, 5, 6]),
        (12, &[0, 1, 2, 3, 4, 5, 6, 7, 8]),
        (13, &[0, 1, 2, 5, 6]),
    ];
    let of_tree = move |tree| {
        let of_number =
            move |(number, kinds): (u32, &'static [u8])| kinds.iter().map(move |&kind| (tree, number, kind));
        kinds.into_iter().flat_map(of_number)
    };
    [0, 1].into_iter().flat_map(of_tree)
}

/// Signs of the limit, and the least and the greatest of the numbers.
const SIGNS: [(i64, i64, i64); 7] = [
    (-1, -1, 0),
    (-1, -1, 1),
    (0, -1, 1),
    (0, 0, 0),
    (1, -1, 1),
    (1, 0, 0),
    (1, 0, 1),
];

/// The least multiplier of each kind.
const MULTIPLIERS: [i64; 5] = [0, 1, 2, 256, 10_000];

const TRIED: [(bool, bool); 3] = [(true, false), (false, true), (true, true)];

const LINES: [u32; 5] = [0, 1, 12, 13, 15];

/// How many sheets, nodes and refusals of each kind must be met.
const LEAST: u64 = 10;
