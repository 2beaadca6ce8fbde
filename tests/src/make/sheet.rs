//! Families of accepted claim sheets, each made for the protocol of a docket, and protocols that they decide. A sheet has
//! one run, which is party 1.

use super::fixed::with_fixed;
use super::{majority, node, place_of, rule, split_by, state, still, Argument};
use second::{Docket, Leaf, Node, Sheet, SheetLeaf, State};

/// A docket and a sheet.
pub type Claimed = (Docket, Sheet);

/// A docket and the sheet that is made for it.
pub fn with_sheet(docket: Docket, sheet: impl Fn(&Docket) -> Sheet) -> Claimed {
    let sheet = sheet(&docket);
    (docket, sheet)
}

// ---- Parts of trees

/// A trap or a siphon of these states.
fn set_node(kind: u8, states: &[usize]) -> Node {
    let set = std::array::from_fn(|state| states.contains(&state));
    Node {
        set,
        ..node(kind, 1, 0)
    }
}

fn leaf_node(leaf: usize) -> Vec<Node> {
    vec![node(0, 0, leaf)]
}

/// No state of the assumed output is left at the end.
fn output_absent() -> Vec<Node> {
    vec![node(1, 1, 0)]
}

/// Cases on whether a state is present at a party.
fn cases(party: usize, state: usize, absent: Vec<Node>, present: Vec<Node>) -> Vec<Node> {
    [vec![node(4, party, state)], absent, present].concat()
}

/// Two states that have a rule are not both present at the end.
fn apart(docket: &Docket, [one, other]: [usize; 2], without_one: Vec<Node>, without_other: Vec<Node>) -> Vec<Node> {
    let before = [one.min(other), one.max(other)];
    let place = docket.rules.iter().position(|rule| rule.before == before);
    let root = vec![node(3, 1, place.expect("a rule for the two states"))];
    if one <= other {
        [root, without_one, without_other].concat()
    } else {
        [root, without_other, without_one].concat()
    }
}

/// A state that is present at the end has a rule with each of these others, so they are absent there.
fn without(docket: &Docket, state: usize, others: &[usize], rest: Vec<Node>) -> Vec<Node> {
    let others = others.iter().rev();
    others.fold(rest, |rest, &other| {
        apart(docket, [state, other], vec![node(2, 1, state)], rest)
    })
}

/// Cases on the first of these states that is present at the end; `present` is given the state and those behind it.
fn first_present(states: &[usize], present: &dyn Fn(usize, &[usize]) -> Vec<Node>, none: Vec<Node>) -> Vec<Node> {
    (0..states.len()).rev().fold(none, |rest, at| {
        let state = states[at];
        cases(1, state, rest, present(state, &states[at + 1..]))
    })
}

fn leaf(weights: Vec<i64>, multiplier: i64) -> SheetLeaf {
    SheetLeaf { weights, multiplier }
}

/// The leaf that uses nothing but the assumption.
fn plain_leaf(docket: &Docket) -> SheetLeaf {
    leaf(vec![0; docket.states.len()], 1)
}

fn states_of(docket: &Docket, output: u8) -> Vec<usize> {
    let states = 0..docket.states.len();
    states.filter(|&i| docket.states[i].verdict == output).collect()
}

// ---- Sheets

/// The first tree and the second, from the one that assumes an end with this output and the other.
fn in_order(output: u8, of_output: Vec<Node>, other: Vec<Node>) -> [Vec<Node>; 2] {
    match output {
        0 => [of_output, other],
        _ => [other, of_output],
    }
}

/// The output is this one just where some agent starts in a state that has it. The states of this output are a trap and
/// a siphon, and have a rule with each other state.
pub fn spread(docket: &Docket, output: u8) -> Sheet {
    let number = 2 * i64::from(output) - 1;
    let has_it = |state: &State| state.input && state.verdict == output;
    let (nobody, some) = (spread_from_nobody(docket, output), spread_from_some(docket, output));
    let [first, second] = in_order(output, nobody, some);
    Sheet {
        numbers: docket.states.iter().map(|s| number * i64::from(has_it(s))).collect(),
        limit: output.into(),
        first,
        second,
        leaves: vec![plain_leaf(docket)],
    }
}

/// Some agent starts in a state of this output, and the end holds one of another state.
fn spread_from_some(docket: &Docket, output: u8) -> Vec<Node> {
    let (inside, outside) = (states_of(docket, output), states_of(docket, 1 - output));
    let none = [vec![set_node(5, &inside)], leaf_node(0)].concat();
    if let [only] = outside[..] {
        let inside = inside.iter().rev();
        return inside.fold(none, |rest, &state| apart(docket, [only, state], output_absent(), rest));
    }
    let present = |state: usize, _: &[usize]| without(docket, state, &outside, output_absent());
    first_present(&inside, &present, none)
}

/// No agent starts in a state of this output, and the end holds one of it.
fn spread_from_nobody(docket: &Docket, output: u8) -> Vec<Node> {
    let inside = states_of(docket, output);
    let none = [vec![set_node(6, &inside)], output_absent()].concat();
    let inputs = inside.iter().rev().filter(|&&state| docket.states[state].input);
    inputs.fold(none, |rest, &state| cases(0, state, rest, leaf_node(0)))
}

/// The output is 1 just where as many agents start in B as in A, or more: states A, B, a, b.
pub fn majority_sheet(docket: &Docket) -> Sheet {
    let [a, b, small_a, small_b] = [0, 1, 2, 3];
    let nobody = vec![
        set_node(5, &[a, b, small_b]),
        set_node(6, &[a, b, small_a, small_b]),
        node(1, 1, 0),
    ];
    let without_b = apart(docket, [small_a, small_b], output_absent(), nobody);
    Sheet {
        numbers: vec![-1, 1, 0, 0],
        limit: 0,
        first: cases(
            1,
            a,
            apart(docket, [b, small_a], without_b, output_absent()),
            without(docket, a, &[b], leaf_node(0)),
        ),
        second: cases(1, a, leaf_node(1), without(docket, a, &[b, small_b], output_absent())),
        leaves: vec![leaf(vec![1, -1, 0, 0], 1), leaf(vec![-1, 1, 0, 0], 1)],
    }
}

/// Y, N, the keepers K0 to Kq, and T: whether q agents or more start in Y.
pub fn quorum_sheet(docket: &Docket) -> Sheet {
    let (yes, no, told) = (0, 1, docket.states.len() - 1);
    let keepers: Vec<usize> = (2..told).collect();
    let (&last, counting) = keepers.split_last().expect("keepers");
    let votes = counting.len() as i64;
    let weights = |of_yes: i64, of_keeper: &dyn Fn(i64) -> i64| {
        let keepers = (0..=votes).map(of_keeper);
        [of_yes, 0].into_iter().chain(keepers).chain([0]).collect::<Vec<i64>>()
    };
    let keeper_lost = vec![set_node(5, &keepers), node(2, 0, keepers[0])];
    let yes_stays = without(docket, yes, counting, keeper_lost.clone());
    let all_told = without(docket, last, &[no], output_absent());
    let no_yes = |rest: Vec<Node>, &keeper: &usize| apart(docket, [yes, keeper], output_absent(), rest);
    let not_told = [
        vec![set_node(5, &[last]), set_node(6, &[last, told])],
        counting.iter().rev().fold(keeper_lost, no_yes),
    ];
    Sheet {
        numbers: weights(1, &|_| 0),
        limit: votes,
        first: cases(
            1,
            last,
            cases(1, yes, leaf_node(0), yes_stays),
            first_present(counting, &|_, _| leaf_node(1), all_told),
        ),
        second: cases(1, last, not_told.concat(), leaf_node(2)),
        leaves: vec![
            leaf(weights(-1, &|count| votes - 1 - count), 1),
            leaf(weights(0, &|_| 1), 0),
            leaf(weights(1, &|count| count), 1),
        ],
    }
}

/// Whether the values of all agents together are less than a threshold.
pub fn threshold_sheet(docket: &Docket) -> Sheet {
    let Threshold { most, threshold } = Threshold::of(docket);
    let (of_0, of_1) = (most + 1, most + 2);
    let leaders: Vec<usize> = (0..=most).collect();
    let followers: Vec<usize> = (most + 3..docket.states.len()).collect();
    let nobody = || {
        let all: Vec<usize> = (0..docket.states.len()).collect();
        [vec![set_node(5, &leaders), set_node(6, &all)], output_absent()].concat()
    };
    let tells_1 = |leader: usize, _: &[usize]| {
        let others = [&[of_0], &followers[..]].concat();
        without(docket, leader, &others, output_absent())
    };
    let alone = |leader: usize, later: &[usize]| {
        let others = [later, &followers[..]].concat();
        let only_one = docket.rules.iter().position(|rule| rule.before == [leader; 2]);
        let rest = [vec![node(3, 1, only_one.expect("its own rule"))], leaf_node(1)].concat();
        without(docket, leader, &others, rest)
    };
    let at_end = |leader: usize, later: &[usize]| match leader < threshold {
        true => alone(leader, later),
        false => without(docket, leader, &[of_1], output_absent()),
    };
    let values: Vec<i64> = (0..docket.states.len()).map(|i| value(most, i) as i64).collect();
    let numbers = docket.states.iter().zip(&values);
    Sheet {
        numbers: numbers.map(|(s, &value)| -value * i64::from(s.input)).collect(),
        limit: 1 - threshold as i64,
        first: first_present(
            &leaders[threshold..],
            &|_, _| leaf_node(0),
            first_present(&leaders[..threshold], &tells_1, nobody()),
        ),
        second: first_present(&leaders, &at_end, nobody()),
        leaves: vec![
            leaf(values.clone(), 1),
            leaf(values.iter().map(|value| -value).collect(), 1),
        ],
    }
}

/// Whether some agent starts in the last state of the relay, in so many nodes for each tree, 4 or more, and so many
/// leaves, 2 or more.
pub fn relay_sheet(docket: &Docket, nodes: usize, leaves: usize) -> Sheet {
    let last = docket.states.len() - 1;
    let half = leaves / 2;
    let tree = |argument: Argument| split_by(&|place| node(4, place % 2, 0), nodes, 10, 0, argument);
    let above: Vec<usize> = (1..=last).collect();
    let leaf_of = |leaf: usize| {
        let weight = |state: usize| i64::from(leaf < half) * (state * (leaf + 1)) as i64;
        SheetLeaf {
            weights: (0..=last).map(weight).collect(),
            multiplier: leaf as i64 + 1,
        }
    };
    Sheet {
        numbers: (0..=last).map(|state| i64::from(state == last)).collect(),
        limit: 1,
        first: tree(&|n, place| {
            let traps = vec![set_node(5, &[last]); n - 3];
            let rest = [traps, leaf_node(place % half)].concat();
            apart(docket, [0, last], output_absent(), rest)
        }),
        second: tree(&|n, place| {
            let siphons = vec![set_node(6, &above); n - 3];
            let rest = [siphons, output_absent()].concat();
            cases(0, last, rest, leaf_node(half + place % (leaves - half)))
        }),
        leaves: (0..leaves).map(leaf_of).collect(),
    }
}

/// A sheet for a docket whose states all have one output: the tree of the other output is closed at once, and this one
/// by the leaf.
pub fn constant_sheet(docket: &Docket, numbers: Vec<i64>, limit: i64, leaf: SheetLeaf) -> Sheet {
    let [first, second] = in_order(docket.states[0].verdict, leaf_node(0), output_absent());
    Sheet {
        numbers,
        limit,
        first,
        second,
        leaves: vec![leaf],
    }
}

/// A sheet for a table whose rules no start reaches, and whose states all have output 1 but for the first, the only
/// input: the output is 0. It has so many nodes in each tree, 7 or more, and uses the leaves in turn.
pub fn unreached_sheet(docket: &Docket, nodes: usize, leaves: usize) -> Sheet {
    let states = docket.states.len();
    let others: Vec<usize> = (1..states).collect();
    let siphons = |n: usize| vec![set_node(6, &others); n];
    let none_left = |n: usize| [siphons(n - 1), output_absent()].concat();
    let tree = |argument: Argument| split_by(&|place| node(4, place % 2, 1), nodes, 14, 0, argument);
    let only_first = |number: i64| [vec![number], vec![0; states - 1]].concat();
    let weight = |leaf: usize| 10_000 - leaf as i64;
    Sheet {
        numbers: only_first(-1),
        limit: 1,
        first: tree(&|n, place| [siphons(n - 1), leaf_node(place % leaves)].concat()),
        second: tree(&|n, place| {
            let appears = cases(1, 0, none_left(2), leaf_node(place % leaves));
            cases(0, 0, appears, none_left(n - 5))
        }),
        leaves: (0..leaves).map(|l| leaf(only_first(weight(l)), weight(l))).collect(),
    }
}

/// A sheet of two trees of this depth, for the table of `deep`.
pub fn deep_sheet(depth: usize) -> Sheet {
    let chain = |last: Vec<Node>| [vec![node(3, 1, 0); depth - 1], last].concat();
    Sheet {
        numbers: vec![0, 0],
        limit: 0,
        first: chain(output_absent()),
        second: chain(leaf_node(0)),
        leaves: vec![leaf(vec![0, 0], 1)],
    }
}

/// Majority of fixed agents, more of them in A than in B, where a and b alone are inputs: the output is 0.
pub fn fixed_majority_sheet(docket: &Docket) -> Sheet {
    Sheet {
        numbers: vec![0; 4],
        limit: 1,
        first: leaf_node(0),
        leaves: vec![plain_leaf(docket), leaf(vec![-1, 1, 0, 0], 0)],
        ..majority_sheet(docket)
    }
}

/// 64 inputs of one output with 1,000 fixed agents each, without a rule, and one number for all of them.
pub fn greatest_sums(output: u8, number: i64, limit: i64) -> Claimed {
    let mut docket = with_fixed(still(64), &[1000; 64]);
    docket.states.iter_mut().for_each(|state| state.verdict = output);
    docket.nodes = vec![node(1, 2 - usize::from(output), 0)];
    with_sheet(docket, |docket| {
        constant_sheet(docket, vec![number; 64], limit, leaf(vec![0; 64], 10_000))
    })
}

// ---- Dockets

/// The quorum table for so many votes, 1 or more, with one keeper and these fixed agents in Y and in N.
pub fn quorum_table(votes: usize, [yes, no]: [i64; 2]) -> Docket {
    let last = 2 + votes;
    let keepers = (0..=votes).map(|count| state(u8::from(count == votes), false));
    let inputs = [state(1, true), state(0, true)].into_iter();
    let counted = (2..last).map(|keeper| rule([0, keeper], [1, keeper + 1], 0));
    let docket = Docket {
        version: 2,
        states: inputs.chain(keepers).chain([state(1, false)]).collect(),
        rules: counted.chain([rule([1, last], [last, last + 1], 0)]).collect(),
        weights: vec![[vec![2, 1], vec![0; votes + 2]].concat()],
        nodes: vec![],
        leaves: vec![],
    };
    with_fixed(docket, &[yes, no, 1])
}

/// What a threshold table counts to, and the threshold, which is one less.
struct Threshold {
    most: usize,
    threshold: usize,
}

impl Threshold {
    fn of(docket: &Docket) -> Threshold {
        let most = (docket.states.len() - 3) / 2;
        let threshold = most - 1;
        Threshold { most, threshold }
    }
}

/// The value of a state: leaders of all values up to the greatest, two followers of value 0, then followers of the
/// others.
fn value(most: usize, state: usize) -> usize {
    match state {
        leader if leader <= most => leader,
        follower => follower.saturating_sub(most + 2),
    }
}

/// Whether the values of all agents together are less than a threshold of 1 to 11. The inputs are leaders.
pub fn threshold_table(threshold: usize, inputs: &[usize]) -> Docket {
    let most = threshold + 1;
    let (of_0, of_1) = (most + 1, most + 2);
    let output = |state: usize| state < threshold || state == of_1;
    let states = 2 * most + 3;
    let meet = |[p, q]: [usize; 2]| {
        let sum = value(most, p) + value(most, q);
        let (leader, rest) = (sum.min(most), sum.saturating_sub(most));
        let follower = match rest {
            0 if output(leader) => of_1,
            0 => of_0,
            _ => rest + most + 2,
        };
        let layer = u8::from(q == of_1 && !output(leader));
        rule([p, q], [leader, follower], layer.into())
    };
    let befores = (0..=most).flat_map(|p| (p..states).map(move |q| [p, q]));
    let weight = |i: usize| match i {
        low if low < threshold => 4 * most - low,
        at if at == threshold => 2 * most + 1,
        at if at == most || at == of_0 => most,
        at if at == of_1 => 0,
        follower => 2 * most + 2 - follower,
    };
    Docket {
        version: 1,
        states: (0..states)
            .map(|i| state(output(i).into(), inputs.contains(&i)))
            .collect(),
        rules: befores.map(meet).filter(|rule| rule.before != rule.after).collect(),
        weights: vec![
            (0..states).map(|i| weight(i) as i64).collect(),
            (0..states).map(|i| i64::from(i == of_1)).collect(),
        ],
        nodes: vec![],
        leaves: vec![],
    }
}

/// The docket whose tree is made of the two trees of its sheet, with multipliers of 0 and 1. Where the first is closed by
/// a leaf with multiplier 1, the second follows for run 2, and its leaves join that one.
pub fn docket_of(mut docket: Docket, sheet: &Sheet) -> Docket {
    let none = vec![0; docket.states.len()];
    docket.nodes.clear();
    docket.leaves.clear();
    for first in &sheet.first {
        let Some(y1) = leaf_of(sheet, first) else {
            docket.nodes.push(*first);
            continue;
        };
        if y1.multiplier == 0 {
            push_leaf(&mut docket, &y1.weights, &none);
            continue;
        }
        for second in &sheet.second {
            match leaf_of(sheet, second) {
                Some(y2) if y2.multiplier == 0 => push_leaf(&mut docket, &none, &y2.weights),
                Some(y2) => push_leaf(&mut docket, &y1.weights, &y2.weights),
                None => docket.nodes.push(Node {
                    party: 2 * second.party,
                    ..*second
                }),
            }
        }
    }
    docket
}

/// The leaf that a node names, if it is of kind 0.
fn leaf_of<'a>(sheet: &'a Sheet, node: &Node) -> Option<&'a SheetLeaf> {
    (node.kind == 0).then(|| &sheet.leaves[node.argument])
}

/// Adds a node that names a leaf of these weights, and the leaf where it is not there.
fn push_leaf(docket: &mut Docket, y1: &[i64], y2: &[i64]) {
    let (y1, y2) = (y1.to_vec(), y2.to_vec());
    let place = place_of(&mut docket.leaves, Leaf { y1, y2 });
    docket.nodes.push(node(0, 0, place));
}

/// A docket with a sheet that is made for its table; the docket's tree is made of the sheet's trees.
fn claimed(table: Docket, sheet: impl Fn(&Docket) -> Sheet) -> Claimed {
    let (table, sheet) = with_sheet(table, sheet);
    (docket_of(table, &sheet), sheet)
}

/// Document 01's majority, with these fixed agents in A and in B, in version 2 where one is not 0.
pub fn claimed_majority(fixed: [i64; 2]) -> Claimed {
    match fixed {
        [0, 0] => claimed(majority(), majority_sheet),
        _ => claimed(with_fixed(majority(), &fixed), majority_sheet),
    }
}

pub fn claimed_quorum(votes: usize, fixed: [i64; 2]) -> Claimed {
    claimed(quorum_table(votes, fixed), quorum_sheet)
}

pub fn claimed_threshold(threshold: usize, inputs: &[usize]) -> Claimed {
    claimed(threshold_table(threshold, inputs), threshold_sheet)
}

#[cfg(test)]
mod tests {
    use super::*;

    /// The table of the example, with a tree that is made here.
    #[test]
    fn threshold_of_8() {
        let file = include_bytes!("../../../examples/threshold_1_0_8.docket");
        let example = second::parse(file).expect("a docket");
        let (docket, _) = claimed_threshold(8, &[0, 1]);
        assert_eq!(docket.states, example.states);
        assert_eq!(docket.rules, example.rules);
        assert_eq!(docket.weights, example.weights);
        assert_eq!(second::check(&docket.bytes()).map(|f| f.nodes), Ok(715));
    }

    fn is_accepted((docket, sheet): &Claimed) -> bool {
        second::check_sheet(&docket.bytes(), &sheet.to_bytes()).is_ok()
    }

    #[test]
    fn families_are_accepted() {
        for threshold in 1..=11 {
            let all: Vec<usize> = (0..=threshold + 1).collect();
            for inputs in [&[0, 1][..], &[1], &[0, 2], &all] {
                assert!(
                    is_accepted(&claimed_threshold(threshold, inputs)),
                    "{threshold}, {inputs:?}"
                );
            }
        }
        for votes in 1..=16 {
            for fixed in [[0, 0], [1, 0], [0, 1000], [1000, 3]] {
                assert!(is_accepted(&claimed_quorum(votes, fixed)), "{votes}, {fixed:?}");
            }
        }
        for fixed in [[0, 0], [1, 0], [0, 1], [1000, 999]] {
            assert!(is_accepted(&claimed_majority(fixed)), "{fixed:?}");
        }
    }
}
