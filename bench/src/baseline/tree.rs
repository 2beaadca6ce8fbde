//! Tests 11 to 13: leaf weights and the tree. The walk is given what a tree assumes, so that it is that of claim sheets
//! too.

use super::docket::{Docket, Rule};
use super::{refuse, Refusal};
use std::ops::RangeInclusive;

const DEPTH: usize = 40;
const MODULI: RangeInclusive<u64> = 2..=1000;

/// Whether a weight of a leaf is outside its limits.
pub fn is_outside(weight: &[u8; 2]) -> bool {
    !(-10_000..=10_000).contains(&i16::from_le_bytes(*weight))
}

/// Test 11.
pub fn leaf_limits(docket: &Docket) -> Result<(), Refusal> {
    match docket.leaf_weights.iter().position(is_outside) {
        Some(at) => refuse(11, at / (2 * docket.states.len())),
        None => Ok(()),
    }
}

/// How many states the widest set of the tree names, which is that of a node of kind 5 or 6.
pub fn widest(docket: &Docket) -> u32 {
    let nodes = docket.nodes.iter().map(Node::read);
    nodes
        .filter(|node| node.kind == 5 || node.kind == 6)
        .map(|node| node.set.count_ones())
        .max()
        .unwrap_or(0)
}

#[derive(Clone, Copy, Default)]
struct Facts {
    absent: [u64; 3],
    present: [u64; 3],
    at_most_one: [u64; 3],
    unused: [[u64; 4]; 3],
}

impl Facts {
    fn is_unused(&self, run: usize, rule: usize) -> bool {
        self.unused[run][rule / 64] >> (rule % 64) & 1 == 1
    }
}

struct Node {
    kind: u8,
    party: usize,
    argument: usize,
    set: u64,
}

impl Node {
    fn read(record: &[u8; 12]) -> Self {
        let [kind, party, low, high, set @ ..] = *record;
        let argument = usize::from(u16::from_le_bytes([low, high]));
        Node {
            kind,
            party: usize::from(party),
            argument,
            set: u64::from_le_bytes(set),
        }
    }
}

/// What a tree assumes: runs from one start, each to an end with a state of an assumed output; and the leaves.
pub trait Assumed {
    /// Two runs have nodes of kind 7.
    const RUNS: usize;
    type Leaf<'a>: Weights
    where
        Self: 'a;
    /// The states of the output that is assumed at the end of a run.
    fn output(&self, run: usize) -> u64;
    fn leaves(&self) -> usize;
    fn leaf(&self, leaf: usize) -> Self::Leaf<'_>;
}

/// A leaf as the leaf rule takes it.
pub trait Weights {
    /// The weight of a state at an end.
    fn y(&self, end: usize, state: usize) -> i32;
    /// The weight of a state at the start.
    fn start(&self, state: usize) -> i64;
    /// What the upper sum begins with.
    fn upper(&self) -> i64;

    /// What a rule adds to the weights of its run.
    fn added(&self, run: usize, &[p, q, a, b, _]: &Rule) -> i32 {
        let y = |state: u8| self.y(run, usize::from(state));
        y(a) + y(b) - y(p) - y(q)
    }
}

/// Two runs of a docket, to an end with verdict 0 and to an end with verdict 1.
struct TwoRuns<'a> {
    docket: &'a Docket<'a>,
    /// The states of verdict 0, and those of verdict 1.
    verdicts: [u64; 2],
}

/// The weights of a leaf for end 1 and for end 2.
struct TwoEnds<'a>([&'a [[u8; 2]]; 2]);

impl Assumed for TwoRuns<'_> {
    const RUNS: usize = 2;
    type Leaf<'a>
        = TwoEnds<'a>
    where
        Self: 'a;

    fn output(&self, run: usize) -> u64 {
        self.verdicts[run - 1]
    }

    fn leaves(&self) -> usize {
        self.docket.leaf_weights.len() / (2 * self.docket.states.len())
    }

    fn leaf(&self, leaf: usize) -> TwoEnds<'_> {
        let states = self.docket.states.len();
        let weights = &self.docket.leaf_weights[2 * leaf * states..][..2 * states];
        let (first, second) = weights.split_at(states);
        TwoEnds([first, second])
    }
}

impl Weights for TwoEnds<'_> {
    fn y(&self, end: usize, state: usize) -> i32 {
        i32::from(i16::from_le_bytes(self.0[end - 1][state]))
    }

    fn start(&self, state: usize) -> i64 {
        i64::from(self.y(1, state) + self.y(2, state))
    }

    fn upper(&self) -> i64 {
        0
    }
}

/// The states with this verdict, 0 or 1.
pub fn states_of(docket: &Docket, verdict: u8) -> u64 {
    let (states, ones) = (all_states(docket), docket.states.with(1));
    if verdict == 1 {
        ones
    } else {
        states & !ones
    }
}

fn all_states(docket: &Docket) -> u64 {
    u64::MAX >> (64 - docket.states.len())
}

/// Tests 12 and 13 on the tree of a docket.
pub fn check(docket: &Docket) -> Result<(), Refusal> {
    let verdicts = [states_of(docket, 0), states_of(docket, 1)];
    walk(docket, docket.nodes, &TwoRuns { docket, verdicts })
}

struct Tree<'a, A> {
    docket: &'a Docket<'a>,
    nodes: &'a [[u8; 12]],
    assumed: &'a A,
    states: u64,
    /// The states with fixed agents, and those of them that are no inputs.
    fixed: u64,
    only_fixed: u64,
}

/// Tests 12 and 13.
pub fn walk<A: Assumed>(docket: &Docket, nodes: &[[u8; 12]], assumed: &A) -> Result<(), Refusal> {
    let (states, inputs, fixed) = (all_states(docket), docket.states.with(2), docket.states.with_fixed());
    let tree = Tree {
        docket,
        nodes,
        assumed,
        states,
        fixed,
        only_fixed: fixed & !inputs,
    };
    let mut facts = Facts::default();
    facts.absent[0] = states & !inputs & !fixed;
    facts.present[0] = fixed;
    let end = tree.descend(0, &facts, 1)?;
    if end < nodes.len() {
        return refuse(12, end);
    }
    Ok(())
}

fn meets(set: u64, a: u8, b: u8) -> bool {
    (set >> (a & 63) | set >> (b & 63)) & 1 == 1
}

impl<A: Assumed> Tree<'_, A> {
    /// The subtree at a place: the place after it.
    fn descend(&self, place: usize, facts: &Facts, depth: usize) -> Result<usize, Refusal> {
        let Some(record) = self.nodes.get(place) else {
            return refuse(12, place);
        };
        let node = Node::read(record);
        if depth > DEPTH || !self.fields_fit(&node) {
            return refuse(12, place);
        }
        if !self.ground_holds(&node, facts) {
            return refuse(13, place);
        }
        let (first, second) = self.children(&node, facts);
        let mut next = place + 1;
        for child in [first, second].into_iter().flatten() {
            next = self.descend(next, &child, depth + 1)?;
        }
        Ok(next)
    }

    fn fields_fit(&self, node: &Node) -> bool {
        let run = (1..=A::RUNS).contains(&node.party);
        let set = match node.kind {
            0..5 => node.set == 0,
            7 => A::RUNS == 2 && MODULI.contains(&node.set),
            _ => node.set != 0 && node.set & !self.states == 0,
        };
        set && match node.kind {
            0 | 7 => node.party == 0 && node.argument < self.assumed.leaves(),
            1 | 5 | 6 => run && node.argument == 0,
            2 | 4 => node.party <= A::RUNS && node.argument < self.docket.states.len(),
            3 => run && node.argument < self.docket.rules.len(),
            _ => false,
        }
    }

    fn ground_holds(&self, node: &Node, facts: &Facts) -> bool {
        match node.kind {
            0 => self.leaf_closes(&self.assumed.leaf(node.argument), facts),
            1 => self.assumed.output(node.party) & !facts.absent[node.party] == 0,
            2 => (facts.present[node.party] & facts.absent[node.party]) >> node.argument & 1 == 1,
            5 => node.set & !facts.absent[node.party] == 0 && self.is_trap(node, facts),
            6 => node.set & !facts.absent[0] == 0 && self.is_trap(node, facts),
            7 => self.remainder_closes(&self.assumed.leaf(node.argument), node.set as i32, facts),
            _ => true,
        }
    }

    /// Kind 5: each used rule that takes from the set puts into it. Kind 6: the other way round.
    fn is_trap(&self, node: &Node, facts: &Facts) -> bool {
        self.docket.rules.iter().enumerate().all(|(r, &[p, q, a, b, _])| {
            let (takes, puts) = (meets(node.set, p, q), meets(node.set, a, b));
            let keeps = if node.kind == 5 { !takes | puts } else { !puts | takes };
            keeps || facts.is_unused(node.party, r)
        })
    }

    fn children(&self, node: &Node, facts: &Facts) -> (Option<Facts>, Option<Facts>) {
        let (mut first, mut second) = (*facts, *facts);
        match node.kind {
            3 => {
                let [p, q, ..] = self.docket.rules[node.argument];
                if p == q {
                    first.at_most_one[node.party] |= 1 << p;
                    return (Some(first), None);
                }
                first.absent[node.party] |= 1 << p;
                second.absent[node.party] |= 1 << q;
                (Some(first), Some(second))
            }
            4 => {
                first.absent[node.party] |= 1 << node.argument;
                second.present[node.party] |= 1 << node.argument;
                (Some(first), Some(second))
            }
            5 | 6 => {
                first.absent[if node.kind == 5 { 0 } else { node.party }] |= node.set;
                for (r, &[p, q, a, b, _]) in self.docket.rules.iter().enumerate() {
                    let touches = meets(node.set, p, q) | meets(node.set, a, b);
                    first.unused[node.party][r / 64] |= u64::from(touches) << (r % 64);
                }
                (Some(first), None)
            }
            _ => (None, None),
        }
    }

    /// Whether what each used rule adds to the weights of its run is allowed.
    fn rules_allow(&self, leaf: &impl Weights, facts: &Facts, allowed: impl Fn(i32) -> bool) -> bool {
        let mut rules = self.docket.rules.iter().enumerate();
        rules.all(|(r, rule)| (1..=A::RUNS).all(|run| facts.is_unused(run, r) || allowed(leaf.added(run, rule))))
    }

    /// The leaf rule.
    fn leaf_closes(&self, leaf: &impl Weights, facts: &Facts) -> bool {
        if !self.rules_allow(leaf, facts, |added| added <= 0) {
            return false;
        }
        let (mut lower, mut upper) = (0, leaf.upper());
        for state in 0..self.docket.states.len() {
            let has = |set: u64| set >> state & 1 == 1;
            if !has(facts.absent[0]) {
                let start = leaf.start(state);
                if start > 0 && !has(self.only_fixed) {
                    return false;
                }
                upper += match has(self.fixed) {
                    true => i64::from(self.docket.states.fixed(state)) * start,
                    false if has(facts.present[0]) => start,
                    false => 0,
                };
            }
            for end in 1..=A::RUNS {
                let weight = leaf.y(end, state);
                if has(facts.absent[end]) {
                    continue;
                }
                if weight < 0 && !has(facts.at_most_one[end]) {
                    return false;
                }
                lower += if weight < 0 || has(facts.present[end]) {
                    weight
                } else {
                    0
                };
            }
        }
        i64::from(lower) > upper
    }

    /// The remainder rule.
    fn remainder_closes(&self, leaf: &impl Weights, modulus: i32, facts: &Facts) -> bool {
        if !self.rules_allow(leaf, facts, |added| added % modulus == 0) {
            return false;
        }
        let mut sum = 0;
        for state in 0..self.docket.states.len() {
            let has = |set: u64| set >> state & 1 == 1;
            if !has(facts.absent[0]) {
                let start = leaf.start(state) as i32;
                if has(self.only_fixed) {
                    sum -= i32::from(self.docket.states.fixed(state)) * start;
                } else if start % modulus != 0 {
                    return false;
                }
            }
            for end in 1..=A::RUNS {
                let weight = leaf.y(end, state);
                if has(facts.absent[end]) {
                    continue;
                }
                if has(facts.present[end] & facts.at_most_one[end]) {
                    sum += weight;
                } else if weight % modulus != 0 {
                    return false;
                }
            }
        }
        sum % modulus != 0
    }
}
