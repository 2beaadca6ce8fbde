//! Families of accepted dockets.

pub mod fixed;
pub mod remainder;
pub mod sheet;

use second::{Docket, Leaf, Node, Rule, State};

/// A node with no set.
pub fn node(kind: u8, party: usize, argument: usize) -> Node {
    Node {
        kind,
        party,
        argument,
        set: [false; 64],
    }
}

/// A trap or a siphon.
pub fn set_node(kind: u8, party: usize, states: std::ops::Range<usize>) -> Node {
    let set = std::array::from_fn(|state| states.contains(&state));
    Node {
        kind,
        party,
        argument: 0,
        set,
    }
}

/// A node of kind 7.
pub fn remainder_node(leaf: usize, modulus: u64) -> Node {
    Node {
        set: bits(modulus),
        ..node(7, 0, leaf)
    }
}

/// A set field with this number.
pub fn bits(number: u64) -> [bool; 64] {
    std::array::from_fn(|bit| number >> bit & 1 == 1)
}

pub fn rule(before: [usize; 2], after: [usize; 2], layer: usize) -> Rule {
    Rule { before, after, layer }
}

/// The place of a leaf, which is added where it is new.
pub fn place_of<T: PartialEq>(leaves: &mut Vec<T>, leaf: T) -> usize {
    let known = leaves.iter().position(|other| *other == leaf);
    known.unwrap_or_else(|| {
        leaves.push(leaf);
        leaves.len() - 1
    })
}

/// Puts the rules in the order of version 2.
pub fn sort_rules(docket: &mut Docket) {
    let mut order: Vec<usize> = (0..docket.rules.len()).collect();
    order.sort_by_key(|&rule| docket.rules[rule].key());
    reorder_rules(docket, &order);
}

/// Puts the rules in another order, given by their numbers. A node that names a rule names the same one afterwards.
pub fn reorder_rules(docket: &mut Docket, order: &[usize]) {
    docket.rules = order.iter().map(|&rule| docket.rules[rule]).collect();
    for node in docket.nodes.iter_mut().filter(|node| node.kind == 3) {
        let place = order.iter().position(|&rule| rule == node.argument);
        node.argument = place.unwrap_or(node.argument);
    }
}

fn state(verdict: u8, input: bool) -> State {
    State {
        verdict,
        input,
        fixed: 0,
    }
}

/// Document 01's broadcast: one worker in state 1 draws all others there.
pub fn broadcast() -> Docket {
    relay(2, 5)
}

/// States 0 and 1 have two rules, 0 1 to 1 1 and 0 1 to 1 2.
pub fn two_outcomes() -> Docket {
    Docket {
        version: 1,
        states: vec![state(0, true), state(1, true), state(1, false)],
        rules: vec![
            rule([0, 1], [1, 1], 0),
            rule([0, 1], [1, 2], 0),
            rule([0, 2], [1, 2], 0),
        ],
        weights: vec![vec![1, 0, 0]],
        nodes: vec![
            node(3, 1, 0),
            node(1, 1, 0),
            node(3, 1, 2),
            node(1, 1, 0),
            set_node(5, 1, 1..3),
            set_node(6, 2, 1..3),
            node(1, 2, 0),
        ],
        leaves: vec![],
    }
}

/// Document 01's majority, with no tree: states A, B, a, b.
pub fn majority() -> Docket {
    Docket {
        version: 1,
        states: vec![state(0, true), state(1, true), state(0, false), state(1, false)],
        rules: vec![
            rule([0, 1], [2, 3], 0),
            rule([0, 3], [0, 2], 0),
            rule([1, 2], [1, 3], 1),
            rule([2, 3], [3, 3], 1),
        ],
        weights: vec![vec![1, 1, 0, 1], vec![0, 0, 1, 0]],
        nodes: vec![],
        leaves: vec![],
    }
}

/// Two workers meet and both take the greater state; the verdict is that of the greatest state at the start.
pub fn maximum(verdicts: &[u8]) -> Docket {
    let k = verdicts.len();
    let mut rules = vec![];
    for high in 1..k {
        for low in 0..high {
            rules.push(rule([low, high], [high, high], 0));
        }
    }
    let mut docket = Docket {
        version: 1,
        states: verdicts.iter().map(|&verdict| state(verdict, true)).collect(),
        rules,
        weights: vec![(0..k as i64).rev().collect()],
        nodes: vec![],
        leaves: vec![],
    };
    for greatest in (1..k).rev() {
        docket.nodes.push(node(4, 0, greatest));
    }
    for greatest in 0..k {
        docket.nodes.extend(greatest_present(verdicts, greatest));
    }
    docket
}

/// The branch of the maximum's tree in which all states above `greatest` are absent at the start and it is present.
fn greatest_present(verdicts: &[u8], greatest: usize) -> Vec<Node> {
    let k = verdicts.len();
    let party = if verdicts[greatest] == 1 { 1 } else { 2 };
    let mut nodes = vec![];
    if greatest + 1 < k {
        nodes.push(set_node(6, party, greatest + 1..k));
    }
    if greatest == 0 {
        nodes.push(node(1, party, 0));
        return nodes;
    }
    nodes.extend([
        node(4, party, greatest),
        set_node(5, party, greatest..k),
        node(2, 0, greatest),
    ]);
    let others: Vec<usize> = (0..greatest)
        .filter(|&low| verdicts[low] != verdicts[greatest])
        .collect();
    let first_rule = greatest * (greatest - 1) / 2;
    nodes.extend(others.iter().map(|low| node(3, party, first_rule + low)));
    nodes.push(node(1, party, 0));
    nodes.extend(others.iter().map(|_| node(2, party, greatest)));
    nodes
}

/// Workers move up one state at each meeting with a worker of the last state, and only state 0 has verdict 0. The tree
/// has `nodes` nodes, 5 to 2,048; three of four or more are of kinds 1, 5 and 6.
pub fn relay(states: usize, nodes: usize) -> Docket {
    let last = states - 1;
    Docket {
        version: 1,
        states: (0..states)
            .map(|i| state(u8::from(i > 0), i == 0 || i == last))
            .collect(),
        rules: (0..last).map(|i| rule([i, last], pair(i + 1, last), 0)).collect(),
        weights: vec![(0..states as i64).rev().collect()],
        nodes: split(nodes, 10, 0, &|n, _| relay_argument(last, n)),
        leaves: vec![],
    }
}

fn pair(a: usize, b: usize) -> [usize; 2] {
    [a.min(b), a.max(b)]
}

/// The argument that the relay rests on one verdict, in n nodes, 5 or more: the last siphon is repeated.
fn relay_argument(last: usize, n: usize) -> Vec<Node> {
    let mut nodes = vec![node(3, 1, 0), node(1, 1, 0), set_node(5, 1, last..last + 1)];
    nodes.extend((4..n).map(|_| set_node(6, 2, 1..last + 1)));
    nodes.push(node(1, 2, 0));
    nodes
}

/// An argument in so many nodes, which begin at a place.
type Argument<'a> = &'a dyn Fn(usize, usize) -> Vec<Node>;

/// A tree of n nodes: cases on whether states are present, down to arguments of at most `most` nodes each.
fn split(n: usize, most: usize, place: usize, argument: Argument) -> Vec<Node> {
    split_by(&|place| node(4, place % 3, 1), n, most, place, argument)
}

/// The same with other cases, each given by its place.
fn split_by(case: &dyn Fn(usize) -> Node, n: usize, most: usize, place: usize, argument: Argument) -> Vec<Node> {
    if n <= most {
        return argument(n, place);
    }
    let half = (n - 1) / 2;
    let mut nodes = vec![case(place)];
    nodes.extend(split_by(case, half, most, place + 1, argument));
    nodes.extend(split_by(case, n - 1 - half, most, place + 1 + half, argument));
    nodes
}

/// Every count at its limit: 64 states, 256 rules, 16 layers, 2,048 nodes, 128 leaves.
pub fn largest() -> Docket {
    layered(64, 256, 16, 2048, 128)
}

/// Many rules in many layers, each with its own before pair. The rules of low layers have the high numbers, so that the
/// handover test looks at many rules.
pub fn layered(states: usize, rules: usize, layers: usize, nodes: usize, leaves: usize) -> Docket {
    let befores = pairs(2, states).take(rules).enumerate();
    let table = befores.map(|(r, before)| rule(before, [1, 1], layer_from_top(r, rules, layers)));
    unreached(states, table.collect(), nodes, leaves)
}

/// One before pair with many outcomes, at most S(S - 1)/2 - 2 of them, in many layers; the rules of low layers have the
/// high numbers.
pub fn outcomes(states: usize, rules: usize, layers: usize) -> Docket {
    let before = [states - 2, states - 1];
    let afters = pairs(1, states).take(rules).enumerate();
    let table = afters.map(|(r, after)| rule(before, after, layer_from_top(r, rules, layers)));
    unreached(states, table.collect(), 6, 1)
}

/// 256 different rules for a checker that marks the rules it has met by the number (64p' + q' + 709p + 1493q) mod 4096.
/// It is 0 for every rule but rule 0, which has the before pair of rule 1.
pub fn shared_marks() -> Docket {
    let after = |[p, q]: [usize; 2]| {
        let rest = (64 * 4096 - 709 * p - 1493 * q) % 4096;
        [rest / 64, rest % 64]
    };
    let fits = |[p, q]: [usize; 2], [a, b]: [usize; 2]| 0 < a && a <= b && a + b < p + q;
    let befores = pairs(1, 64).filter(|&before| fits(before, after(before)));
    let mut table: Vec<Rule> = befores.map(|before| rule(before, after(before), 0)).collect();
    table.insert(0, rule(table[0].before, [1, 1], 0));
    table.truncate(256);
    unreached(64, table, 6, 1)
}

/// The ordered pairs of states from `first` on.
fn pairs(first: usize, states: usize) -> impl Iterator<Item = [usize; 2]> {
    (first..states).flat_map(move |q| (first..=q).map(move |p| [p, q]))
}

/// The layer of rule r, from the highest for rule 0 down to layer 0.
fn layer_from_top(r: usize, rules: usize, layers: usize) -> usize {
    layers - 1 - r * layers / rules
}

/// A table whose rules can act from no start: only state 0 is an input, and no rule takes from it or puts into it. Each rule lowers the sum of its states' numbers. The tree has `nodes` nodes, 6 or more, and uses the leaves in
/// turn.
fn unreached(states: usize, rules: Vec<Rule>, nodes: usize, leaves: usize) -> Docket {
    let layers = 1 + rules.iter().map(|rule| rule.layer).max().unwrap_or(0);
    Docket {
        version: 1,
        states: (0..states).map(|i| state(u8::from(i > 0), i == 0)).collect(),
        rules,
        weights: rising_weights(states, layers),
        nodes: split(nodes, 12, 0, &|n, place| leaf_argument(states, n, place % leaves)),
        leaves: (0..leaves).map(|l| one_state_leaf(states, 10_000 - l as i64)).collect(),
    }
}

/// In every layer weights that rise with the number of the state, from 0 to 1,000,000.
fn rising_weights(states: usize, layers: usize) -> Vec<Vec<i64>> {
    let weight = |i: usize| (i * 1_000_000 / (states - 1)) as i64;
    vec![(0..states).map(weight).collect(); layers]
}

/// State 0 present at end 1 and absent at end 2 is refuted by a leaf, all else by kind 1; in n nodes, 6 or more.
fn leaf_argument(states: usize, n: usize, leaf: usize) -> Vec<Node> {
    let mut nodes = vec![node(4, 1, 0), node(1, 1, 0), node(4, 2, 0), node(0, 0, leaf)];
    nodes.extend((5..n).map(|_| set_node(6, 2, 1..states)));
    nodes.push(node(1, 2, 0));
    nodes
}

/// Workers of state 0 count for end 1 and against end 2.
fn one_state_leaf(states: usize, weight: i64) -> Leaf {
    let only_first = |y: i64| (0..states).map(|state| if state == 0 { y } else { 0 }).collect();
    Leaf {
        y1: only_first(weight),
        y2: only_first(-weight),
    }
}

/// Whether a check or a call of this docket takes long, beside those of most dockets here.
pub fn is_large(docket: &Docket) -> bool {
    docket.nodes.len() > 300 || docket.rules.len() > 150
}

/// No rule at all: every group is at a standstill, and all states have verdict 0.
pub fn still(states: usize) -> Docket {
    Docket {
        version: 1,
        states: vec![state(0, true); states],
        rules: vec![],
        weights: vec![],
        nodes: vec![node(1, 2, 0)],
        leaves: vec![],
    }
}

/// So many levels, at most 19, above state 0, where agents rest: with one of state 0, an agent of a level becomes two
/// of the level below. So an agent of level k takes 2 to the power k, less 1, steps, where state 0 has agents enough.
/// The highest level has `tops` states. State 0 and the first of these are inputs, and all states have verdict 1.
pub fn halving(levels: usize, tops: usize) -> Docket {
    let states = levels + tops;
    let level = |state: usize| state.min(levels);
    Docket {
        version: 1,
        states: (0..states).map(|i| state(1, i == 0 || i == levels)).collect(),
        rules: (1..states).map(|i| rule([0, i], [level(i) - 1; 2], 0)).collect(),
        weights: vec![(0..states).map(|i| (1 << level(i)) - 1).collect()],
        nodes: vec![node(1, 1, 0)],
        leaves: vec![],
    }
}

/// 64 states without a rule, of which the last one alone is no input.
pub fn last_no_input() -> Docket {
    let mut docket = still(64);
    docket.states[63].input = false;
    docket
}

/// A tree of the given depth, 1 or more: rule 0 0 to 0 1 is not enabled, again and again.
pub fn deep(depth: usize) -> Docket {
    let mut nodes = vec![node(3, 1, 0); depth - 1];
    nodes.push(node(1, 1, 0));
    Docket {
        version: 1,
        states: vec![state(1, true), state(1, false)],
        rules: vec![rule([0, 0], [0, 1], 0)],
        weights: vec![vec![1, 0]],
        nodes,
        leaves: vec![],
    }
}

#[cfg(test)]
mod tests {
    use super::*;

    fn is_accepted(docket: &Docket) -> bool {
        second::check(&docket.bytes()).is_ok()
    }

    #[test]
    fn one_pair_has_all_outcomes() {
        for (states, rules, layers) in [(3, 1, 1), (4, 4, 2), (24, 256, 1), (24, 256, 16), (64, 256, 16)] {
            let docket = outcomes(states, rules, layers);
            assert!(is_accepted(&docket), "{states} states, {rules} rules, {layers} layers");
            assert_eq!((docket.rules.len(), docket.weights.len()), (rules, layers));
            assert!(docket.rules.iter().all(|rule| rule.before == docket.rules[0].before));
        }
    }

    #[test]
    fn marks_are_shared() {
        let docket = shared_marks();
        assert!(is_accepted(&docket));
        assert_eq!(docket.rules.len(), 256);
        assert_eq!(docket.rules[0].before, docket.rules[1].before);
        for rule in &docket.rules[1..] {
            let ([p, q], [a, b]) = (rule.before, rule.after);
            assert_eq!((64 * a + b + 709 * p + 1493 * q) % 4096, 0);
        }
    }
}
