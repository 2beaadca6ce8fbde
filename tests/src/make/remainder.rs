//! Families of dockets with nodes of kind 7. All but some of `digits` are accepted.

use super::{layer_from_top, node, pairs, remainder_node, rising_weights, rule, set_node, split, state};
use second::{Docket, Leaf, Node, Rule};

/// The parity table of docs/FORMAT.md: states O, E, o, e, and O alone is an input.
pub fn parity() -> Docket {
    let even_at_end_2 = vec![
        node(3, 2, 4),
        set_node(5, 2, 0..2),
        set_node(6, 2, 0..4),
        node(1, 2, 0),
        node(1, 2, 0),
    ];
    let odd_at_end_2 = vec![
        node(3, 2, 0),
        node(4, 2, 0),
        set_node(5, 2, 0..2),
        set_node(6, 2, 0..4),
        node(1, 2, 0),
        remainder_node(0, 2),
    ];
    let odd_at_end_1 = vec![
        node(3, 1, 3),
        set_node(5, 1, 0..2),
        set_node(6, 1, 0..4),
        node(1, 1, 0),
        node(1, 1, 0),
    ];
    Docket {
        version: 1,
        states: vec![state(1, true), state(0, false), state(1, false), state(0, false)],
        rules: vec![
            rule([0, 0], [1, 3], 0),
            rule([0, 1], [0, 2], 0),
            rule([1, 1], [1, 3], 0),
            rule([0, 3], [0, 2], 1),
            rule([1, 2], [1, 3], 2),
        ],
        weights: vec![vec![1, 1, 0, 0], vec![0, 0, 0, 1], vec![0, 0, 1, 0]],
        nodes: [
            vec![node(3, 1, 1), node(3, 2, 1)],
            even_at_end_2,
            odd_at_end_2,
            odd_at_end_1,
        ]
        .concat(),
        leaves: vec![Leaf {
            y1: vec![1, 0, 0, 0],
            y2: vec![1, 0, 0, 0],
        }],
    }
}

/// Whether the sum of the workers' values is r modulo m, 2 to 18. States 0 to m - 1 are the values, state m says yes and
/// state m + 1 says no. Where two values meet, one worker takes their sum and the other keeps none; a worker with a value
/// tells those without one whether it is r.
pub fn table(m: usize, r: usize, inputs: &[usize]) -> Docket {
    let values = (0..m).map(|v| state(u8::from(v == r), inputs.contains(&v)));
    let value = |v: usize| if v < m { v as i64 } else { 0 };
    Docket {
        version: 1,
        states: values.chain([state(1, false), state(0, false)]).collect(),
        rules: sums(m, r).chain((0..m).map(|v| told(m, r, v))).collect(),
        weights: vec![
            (0..m + 2).map(|i| if i < m { 2 } else { i64::from(i == m) }).collect(),
            (0..m + 2).map(|i| i64::from(i > m)).collect(),
        ],
        nodes: table_tree(m, r),
        leaves: vec![Leaf {
            y1: (0..m + 2).map(value).collect(),
            y2: (0..m + 2).map(|i| -value(i)).collect(),
        }],
    }
}

fn sums(m: usize, r: usize) -> impl Iterator<Item = Rule> {
    pairs(0, m).map(move |[a, b]| {
        let sum = (a + b) % m;
        rule([a, b], [sum, says(m, r, sum)], 0)
    })
}

/// The state that says of a value whether it is r.
fn says(m: usize, r: usize, value: usize) -> usize {
    if value == r {
        m
    } else {
        m + 1
    }
}

/// The rule by which a value tells what it is. To say yes is in layer 1, to say no in layer 0.
fn told(m: usize, r: usize, value: usize) -> Rule {
    let right = says(m, r, value);
    let wrong = 2 * m + 1 - right;
    rule([value, wrong], [value, right], usize::from(value == r))
}

/// The number of the rule that adds two values.
fn sum_rule(a: usize, b: usize) -> usize {
    let (p, q) = (a.min(b), a.max(b));
    q * (q + 1) / 2 + p
}

/// End 2 has the value r alone, end 1 has another value alone, and a node of kind 7 refutes that.
fn table_tree(m: usize, r: usize) -> Vec<Node> {
    let others: Vec<usize> = (0..m).filter(|&value| value != r).collect();
    let all: Vec<usize> = (0..m).collect();
    let end_1 = which_value(1, m, &all, &|value, later| match value == r {
        true => alone(1, value, later, told_by(1, m, value)),
        false => alone(1, value, later, vec![remainder_node(0, m as u64)]),
    });
    [
        vec![node(4, 2, r)],
        which_value(2, m, &others, &|value, _| told_by(2, m, value)),
        alone(2, r, &others, end_1),
    ]
    .concat()
}

/// A value that is present at an end has told what it is to all that have none.
pub(super) fn told_by(k: usize, m: usize, value: usize) -> Vec<Node> {
    let rule = m * (m + 1) / 2 + value;
    vec![node(3, k, rule), node(2, k, value), node(1, k, 0)]
}

/// Cases on the first of these values that is present at an end. `argument` is given the value and those after it. Where
/// none is present, a trap and a siphon refute it.
pub(super) fn which_value(
    k: usize,
    m: usize,
    values: &[usize],
    argument: &dyn Fn(usize, &[usize]) -> Vec<Node>,
) -> Vec<Node> {
    match values.split_first() {
        None => vec![set_node(5, k, 0..m), set_node(6, k, 0..m + 2), node(1, k, 0)],
        Some((&value, later)) => [
            vec![node(4, k, value)],
            which_value(k, m, later, argument),
            argument(value, later),
        ]
        .concat(),
    }
}

/// A value that is present at an end is there once, without the others; then comes `argument`.
pub(super) fn alone(k: usize, value: usize, others: &[usize], argument: Vec<Node>) -> Vec<Node> {
    let Some((&other, rest)) = others.split_first() else {
        return [vec![node(3, k, sum_rule(value, value))], argument].concat();
    };
    let mut children = [vec![node(2, k, value)], alone(k, value, rest, argument)];
    if value > other {
        children.reverse();
    }
    [vec![node(3, k, sum_rule(value, other))], children.concat()].concat()
}

/// Sums modulo 17, with 128 leaves that are all closed by kind 7: eight for each value that end 1 may have.
pub fn many_leaves() -> Docket {
    let mut docket = table(17, 3, &[1, 2, 16]);
    docket.leaves.clear();
    docket.nodes = docket
        .nodes
        .iter()
        .flat_map(|old| match old.kind {
            7 => cases(3, 17, &mut || add_leaf(&mut docket.leaves)),
            _ => vec![*old],
        })
        .collect();
    docket
}

/// All cases on whether a state is present, `levels` times; each has a node of its own.
fn cases(levels: usize, state: usize, last: &mut dyn FnMut() -> Node) -> Vec<Node> {
    if levels == 0 {
        return vec![last()];
    }
    let mut nodes = vec![node(4, levels % 3, state)];
    for _ in 0..2 {
        nodes.extend(cases(levels - 1, state, last));
    }
    nodes
}

/// Adds a leaf of its own factor for sums modulo 17, and hands back a node of kind 7 for it.
fn add_leaf(leaves: &mut Vec<Leaf>) -> Node {
    let place = leaves.len();
    let (unit, factor) = (1 + place % 16, 1 + place % 58);
    let weight = |i: usize| if i < 17 { (i * unit % 17 * factor) as i64 } else { 0 };
    leaves.push(Leaf {
        y1: (0..19).map(|i| -weight(i)).collect(),
        y2: (0..19).map(weight).collect(),
    });
    remainder_node(place, 17 * factor as u64)
}

/// Workers count themselves modulo m, which is 2, 3, 7 or 1,000, in binary digits: state i has the value 2 to the power
/// i, and the last state has none. All verdicts are 1, so kind 1 closes for party 1. The tree closes so except where
/// end k has exactly the digits of ends[k - 1], one worker for each; that is refuted by kind 7. The docket is refused
/// where the two numbers agree modulo m, and where so many of their digits are 1 that the depth passes 40.
pub fn digits(m: u64, ends: [u64; 2]) -> Docket {
    let count = m.next_power_of_two().trailing_zeros() as usize;
    let value = |i: usize| if i < count { 1 << i } else { 0 };
    let is_last = |i: usize| i + 1 == count;
    let weight = |i: usize| if is_last(i) { 15 } else { 10 * i64::from(i < count) };
    Docket {
        version: 1,
        states: (0..=count).map(|i| state(1, i == 0)).collect(),
        rules: (0..count).map(|i| doubled(m, count, i)).collect(),
        weights: vec![(0..=count).map(weight).collect()],
        nodes: digits_tree(m, count, ends),
        leaves: vec![Leaf {
            y1: (0..=count).map(value).collect(),
            y2: (0..=count).map(|i| -value(i)).collect(),
        }],
    }
}

/// Two workers of a digit become one of the next; of the last digit, one for each digit of what is left modulo m.
fn doubled(m: u64, count: usize, digit: usize) -> Rule {
    let sum = (2 << digit) % m;
    let mut after: Vec<usize> = (0..count).filter(|i| sum >> i & 1 == 1).collect();
    after.resize(2, count);
    rule([digit; 2], [after[0], after[1]], 0)
}

fn digits_tree(m: u64, count: usize, ends: [u64; 2]) -> Vec<Node> {
    let closed = node(1, 1, 0);
    let mut nodes = vec![remainder_node(0, m)];
    for k in [2, 1] {
        for i in (0..count).rev() {
            if ends[k - 1] >> i & 1 == 1 {
                nodes.splice(0..0, exactly_one(k, i, i));
            } else {
                nodes.insert(0, node(4, k, i));
                nodes.push(closed);
            }
        }
    }
    nodes
}

/// A state holds exactly one worker at end k, where this rule takes two from it, or none, which kind 1 closes.
fn exactly_one(k: usize, rule: usize, state: usize) -> [Node; 3] {
    [node(3, k, rule), node(4, k, state), node(1, 1, 0)]
}

/// The states that may hold exactly one worker in `largest`.
const ONES: [usize; 10] = [9, 15, 21, 27, 33, 39, 45, 51, 57, 63];

/// The modulus of the last leaf of `largest`; 10,000 is an odd multiple of half of it.
const LAST_MODULUS: i64 = 800;

/// Every count at its limit, and the last node is of kind 7 at depth 40. All verdicts are 1, so kind 1 closes for
/// party 1. The tree closes so, or by kind 7.
///
/// The last node has 39 nodes above it. The first of them is a siphon, by which rules 0, 85, 170 and 255, one in each
/// word of 64, are unused in `run`; they change the weights of that run. The other 38 say that the states of `ONES` hold
/// exactly one worker at the end of `run`, and all but state 9 at the other end. Each of these 19 facts takes one node
/// of kind 3 and one of kind 4, so no tree of depth 40 has more of them. With `weight` 10,000 or -10,000 the sum is
/// 190,000 or -190,000, which is the greatest or the least that can occur; 1,280,000, the bound of docs/FORMAT.md, would
/// take 128 such facts.
pub fn largest(run: usize, weight: i64) -> Docket {
    Docket {
        version: 1,
        states: (0..64).map(|i| state(1, i != 9 && i != 62)).collect(),
        rules: largest_rules(),
        weights: rising_weights(64, 16),
        nodes: largest_tree(run),
        leaves: (0..127).map(one_state_leaf).chain([last_leaf(run, weight)]).collect(),
    }
}

/// Rules 0, 85, 170 and 255 take from states 9 and 62. The others take twice from a state of `ONES`, these are rules 245
/// to 254, or from two states that have the same weight as state 0, and put into state 0. No rule takes from states 0
/// to 3 and none puts into another, so test 10 passes whatever the layers.
fn largest_rules() -> Vec<Rule> {
    let others = pairs(4, 62).filter(|pair| !pair.iter().any(|state| ONES.contains(state)));
    let mut befores = others.take(242).chain(ONES.map(|state| [state; 2]));
    let with_layer = |r: usize| {
        let (before, after) = match r % 85 {
            0 => ([9, 62], [0, r / 85]),
            _ => (befores.next().expect("a pair"), [0, 0]),
        };
        rule(before, after, layer_from_top(r, 256, 16))
    };
    (0..256).map(with_layer).collect()
}

/// The rule of `largest` that takes two workers from a state of `ONES`.
fn own_rule(state: usize) -> usize {
    244 + state / 6
}

/// 1,990 nodes stand in the first case that kind 1 would close.
fn largest_tree(run: usize) -> Vec<Node> {
    let one = |k: usize| move |state: &usize| exactly_one(k, own_rule(*state), *state);
    let facts = ONES.iter().map(one(run)).chain(ONES[1..].iter().map(one(3 - run)));
    let mut nodes = vec![set_node(6, run, 62..63)];
    nodes.extend(facts.flatten());
    nodes.push(remainder_node(127, LAST_MODULUS as u64));
    nodes.splice(3..4, split(1990, 12, 0, &|n, place| one_state_argument(n, place % 127)));
    nodes
}

/// The state and the weight of a leaf of `largest` before the last; the modulus is twice the weight.
fn one_state(leaf: usize) -> (usize, usize) {
    (ONES[1 + leaf % 9], 1 + leaf)
}

fn one_state_leaf(leaf: usize) -> Leaf {
    let (state, weight) = one_state(leaf);
    let y: Vec<i64> = (0..64).map(|i| if i == state { weight as i64 } else { 0 }).collect();
    Leaf { y1: y.clone(), y2: y }
}

/// A state absent at end 1 and exactly one at end 2 is refuted by kind 7, all else by kind 1; in n nodes, 6 or more.
fn one_state_argument(n: usize, leaf: usize) -> Vec<Node> {
    let (state, weight) = one_state(leaf);
    let [at_most_one, present, closed] = exactly_one(2, own_rule(state), state);
    let mut nodes = vec![node(4, 1, state)];
    nodes.extend((5..n).map(|_| at_most_one));
    nodes.extend([present, closed, remainder_node(leaf, 2 * weight as u64), closed]);
    nodes
}

/// The states that are not known to hold exactly one worker weigh the multiple of the modulus next to `weight`.
fn last_leaf(run: usize, weight: i64) -> Leaf {
    let rest = weight - weight % LAST_MODULUS;
    let weights = |ones: &[usize]| (0..64).map(|i| if ones.contains(&i) { weight } else { rest }).collect();
    let (own, other) = (weights(&ONES), weights(&ONES[1..]));
    match run {
        1 => Leaf { y1: own, y2: other },
        _ => Leaf { y1: other, y2: own },
    }
}

#[cfg(test)]
mod tests {
    use super::*;
    use crate::random::Random;
    use second::Verdict;
    use std::collections::BTreeSet;

    fn line(docket: &Docket) -> String {
        second::line(&docket.bytes())
    }

    #[test]
    fn parity_is_the_example() {
        assert_eq!(parity().bytes(), include_bytes!("../../../examples/parity.docket"));
    }

    #[test]
    fn tables_are_accepted() {
        for m in 2..=18 {
            for r in 0..m {
                let docket = table(m, r, &[1, m - 1]);
                assert!(line(&docket).starts_with("accepted "), "{m}, {r}: {}", line(&docket));
            }
        }
    }

    /// A run of the table ends with the verdict that the sum of the values has.
    #[test]
    fn tables_decide_the_remainder() {
        let mut random = Random::new(5);
        for m in 2..=9 {
            let (r, inputs) = (random.below(m), (0..m).collect::<Vec<_>>());
            let docket = table(m, r, &inputs).bytes();
            for _ in 0..20 {
                let mut counts: Vec<u32> = (0..m + 2).map(|i| random.below(9) as u32 * u32::from(i < m)).collect();
                counts[random.below(m)] += 2;
                let sum: usize = counts.iter().enumerate().map(|(i, &n)| i * n as usize).sum();
                let ran = second::run(&docket, &mut counts, u32::MAX);
                assert!(ran.is_ok_and(|ran| ran.rests));
                let verdict = if sum % m == r { Verdict::One } else { Verdict::Zero };
                assert_eq!(second::verdict(&docket, &counts), Ok(verdict));
            }
        }
    }

    #[test]
    fn every_leaf_is_closed_by_kind_7() {
        let docket = many_leaves();
        assert_eq!(line(&docket), "accepted 19 170 2 653 3 19\n");
        let closed: BTreeSet<usize> = docket
            .nodes
            .iter()
            .filter(|n| n.kind == 7)
            .map(|n| n.argument)
            .collect();
        assert_eq!(closed, (0..128).collect());
    }

    /// Digits are accepted just where the numbers of the two ends differ modulo m; the pairs that differ by m are among
    /// those tried.
    #[test]
    fn digits_are_compared_modulo_m() {
        let mut random = Random::new(6);
        for (m, most) in [(2, 1), (3, 3), (7, 7), (1000, 1023)] {
            let mut pairs: Vec<[u64; 2]> = (m..=most).flat_map(|n| [[n, n - m], [n - m, n]]).collect();
            pairs.extend((0..200).map(|_| [0; 2].map(|_| random.below(most as usize + 1) as u64)));
            for ends in pairs {
                let docket = digits(m, ends);
                let depth = 2 * docket.rules.len() as u32 + ends[0].count_ones() + ends[1].count_ones() + 1;
                let accepted = depth <= 40 && ends[0] % m != ends[1] % m;
                assert_eq!(line(&docket).starts_with("accepted "), accepted, "{m}, {ends:?}");
            }
        }
    }

    /// Every node above the last one is needed: state 4, of which rule 1 takes two workers, is no state of `ONES`.
    #[test]
    fn largest_needs_every_fact() {
        for (run, weight) in [(1, 10_000), (2, -10_000)] {
            let docket = largest(run, weight);
            assert_eq!(docket.rules[1].before, [4, 4]);
            assert_eq!(docket.bytes().len(), 62_808);
            assert_eq!(line(&docket), "accepted 64 256 16 2048 16000000 1\n");
            let above: Vec<usize> = (0..3)
                .chain(1993..2047)
                .filter(|&at| docket.nodes[at].kind != 1)
                .collect();
            assert_eq!(above.len(), 39);
            for at in above {
                let mut other = docket.clone();
                other.nodes[at] = match docket.nodes[at] {
                    old if old.kind == 6 => set_node(6, 3 - run, 62..63),
                    old => node(old.kind, old.party, if old.kind == 3 { 1 } else { 4 }),
                };
                assert_eq!(line(&other), "refused 13 2047\n", "run {run}, node {at}");
            }
        }
    }
}
