//! The tree: leaf weights (test 11), fields and grounds of the nodes (tests 12 and 13), and the widest set. The trees of a
//! claim sheet are walked by the same functions.

use crate::docket::{refuse, together, Docket, Leaf, Node, Refusal, Rule};
use std::ops::RangeInclusive;

const GREATEST_DEPTH: usize = 40;
const MODULI: RangeInclusive<u64> = 2..=1000;
pub(crate) const LEAF_WEIGHTS: RangeInclusive<i64> = -10_000..=10_000;

/// A tree and what it assumes: runs from one start, each to an end that holds a state of an assumed output.
pub(crate) struct Tree<'a> {
    pub docket: &'a Docket,
    pub nodes: &'a [Node],
    /// The output assumed for the end of run 1, and for that of run 2 where there are two runs.
    pub assumed: &'a [u8],
    pub leaves: Vec<Weights>,
    /// Whether there may be nodes of kind 7.
    pub remainders: bool,
}

/// What a leaf gives to its rule: weights for the end of each run, weights for the start, and what the upper sum begins
/// with.
pub(crate) struct Weights {
    pub ends: Vec<Vec<i128>>,
    pub start: Vec<i128>,
    pub upper: i128,
}

/// What is known on the way down. The first index is the party: 0 the start, 1 and 2 the runs with their ends. The
/// second is the state, or for `unused` the rule.
#[derive(Clone)]
struct Facts {
    absent: [[bool; 64]; 3],
    present: [[bool; 64]; 3],
    at_most_one: [[bool; 64]; 3],
    unused: [[bool; 256]; 3],
}

/// Test 11.
pub(crate) fn leaf_weight_test(docket: &Docket) -> Result<(), Refusal> {
    for (place, leaf) in docket.leaves.iter().enumerate() {
        let mut weights = leaf.y1.iter().chain(&leaf.y2);
        if weights.any(|weight| !LEAF_WEIGHTS.contains(weight)) {
            return refuse(11, place);
        }
    }
    Ok(())
}

/// Tests 12 and 13 on the tree of a docket: two runs, to an end with output 0 and to an end with output 1.
pub(crate) fn tree_test(docket: &Docket) -> Result<(), Refusal> {
    walk(&Tree {
        docket,
        nodes: &docket.nodes,
        assumed: &[0, 1],
        leaves: docket.leaves.iter().map(Weights::of_leaf).collect(),
        remainders: true,
    })
}

/// Tests 12 and 13, node by node.
pub(crate) fn walk(tree: &Tree) -> Result<(), Refusal> {
    let left_over = descend(tree, &Facts::fresh(tree.docket), 0, 1)?;
    if left_over < tree.nodes.len() {
        return refuse(12, left_over);
    }
    Ok(())
}

/// How many states the widest set of the tree names; only nodes of kinds 5 and 6 have sets.
pub(crate) fn widest(docket: &Docket) -> u64 {
    let size = |node: &Node| node.set.iter().filter(|&&named| named).count() as u64;
    let with_set = docket.nodes.iter().filter(|node| matches!(node.kind, 5 | 6));
    with_set.map(size).max().unwrap_or(0)
}

/// Tests the node at a place and all below it; hands back the place after them.
fn descend(tree: &Tree, facts: &Facts, place: usize, depth: usize) -> Result<usize, Refusal> {
    let Some(node) = tree.nodes.get(place) else {
        return refuse(12, place);
    };
    if depth > GREATEST_DEPTH || !fields_hold(tree, node) {
        return refuse(12, place);
    }
    if !ground_holds(tree, facts, node) {
        return refuse(13, place);
    }
    let mut next = place + 1;
    for child in facts.of_children(tree.docket, node) {
        next = descend(tree, &child, next, depth + 1)?;
    }
    Ok(next)
}

/// Whether the fields are those of the node's kind, and those not named are 0.
fn fields_hold(tree: &Tree, node: &Node) -> bool {
    let (states, rules, runs) = (tree.docket.states.len(), tree.docket.rules.len(), tree.assumed.len());
    let no_set = !node.set.contains(&true);
    let subset = !node.set[states..].contains(&true);
    let run = (1..=runs).contains(&node.party);
    let leaf = node.party == 0 && node.argument < tree.leaves.len();
    match node.kind {
        0 => leaf && no_set,
        1 => run && node.argument == 0 && no_set,
        2 | 4 => node.party <= runs && node.argument < states && no_set,
        3 => run && node.argument < rules && no_set,
        5 | 6 => run && node.argument == 0 && !no_set && subset,
        7 => tree.remainders && leaf && MODULI.contains(&node.modulus()),
        _ => false,
    }
}

/// Whether the ground of a node holds, after its fields are found good.
fn ground_holds(tree: &Tree, facts: &Facts, node: &Node) -> bool {
    let (docket, leaf) = (tree.docket, || &tree.leaves[node.argument]);
    match node.kind {
        0 => leaf_closes(docket, facts, leaf()),
        1 => output_absent(docket, facts, node.party, tree.assumed[node.party - 1]),
        2 => facts.present[node.party][node.argument] && facts.absent[node.party][node.argument],
        5 => trap_holds(docket, facts, node),
        6 => siphon_holds(docket, facts, node),
        7 => remainder_closes(docket, facts, leaf(), i128::from(node.modulus())),
        _ => true,
    }
}

/// Kind 1: all states of the output assumed for an end are absent there.
fn output_absent(docket: &Docket, facts: &Facts, end: usize, output: u8) -> bool {
    let mut states = docket.states.iter().enumerate();
    states.all(|(i, state)| state.verdict != output || facts.absent[end][i])
}

/// Kind 5: the set is absent at the end, and each rule not unused in the run that takes from the set puts into it.
fn trap_holds(docket: &Docket, facts: &Facts, node: &Node) -> bool {
    let bad = |rule: &Rule| meets(rule.before, &node.set) && !meets(rule.after, &node.set);
    facts.set_absent(node.party, &node.set) && facts.all_unused(docket, node.party, bad)
}

/// Kind 6: the set is absent at the start, and each rule not unused in the run that puts into the set takes from it.
fn siphon_holds(docket: &Docket, facts: &Facts, node: &Node) -> bool {
    let bad = |rule: &Rule| meets(rule.after, &node.set) && !meets(rule.before, &node.set);
    facts.set_absent(0, &node.set) && facts.all_unused(docket, node.party, bad)
}

fn meets(pair: [usize; 2], set: &[bool; 64]) -> bool {
    set[pair[0]] || set[pair[1]]
}

/// The leaf rule: no rule not unused raises its run's weights, and the lower sum exceeds the upper sum.
fn leaf_closes(docket: &Docket, facts: &Facts, leaf: &Weights) -> bool {
    let raises = |y: &[i128], rule: &Rule| together(y, rule.after) > together(y, rule.before);
    match (lower_sum(facts, leaf), upper_sum(docket, facts, leaf)) {
        (Some(lower), Some(upper)) => facts.rules_fit(docket, leaf, raises) && lower > upper,
        _ => false,
    }
}

/// The upper sum, which the start weight of a state joins once for each of its fixed agents, and once where it has none
/// and is present; none if this weight is above 0 at a state not absent at the start, but for one that is no input and
/// has fixed agents.
fn upper_sum(docket: &Docket, facts: &Facts, leaf: &Weights) -> Option<i128> {
    let mut sum = leaf.upper;
    for (i, weight) in facts.start_weights(leaf) {
        let state = &docket.states[i];
        if weight > 0 && !state.only_fixed() {
            return None;
        }
        let times = match state.fixed {
            0 => i128::from(facts.present[0][i]),
            fixed => i128::from(fixed),
        };
        sum += times * weight;
    }
    Some(sum)
}

/// The lower sum; none if a weight is negative at a state that is neither absent nor at most one at that end.
fn lower_sum(facts: &Facts, leaf: &Weights) -> Option<i128> {
    let mut sum = 0;
    for (k, state, weight) in facts.end_weights(leaf) {
        if weight < 0 && !facts.at_most_one[k][state] {
            return None;
        }
        if weight < 0 || facts.present[k][state] {
            sum += weight;
        }
    }
    Some(sum)
}

/// The remainder rule, modulo m: no rule not unused changes its run's weights, and the sum of the ends is not that of the
/// start.
fn remainder_closes(docket: &Docket, facts: &Facts, leaf: &Weights, m: i128) -> bool {
    let changes = |y: &[i128], rule: &Rule| !is_multiple(together(y, rule.after) - together(y, rule.before), m);
    match (exactly_one_sum(facts, leaf, m), start_sum(docket, facts, leaf, m)) {
        (Some(ends), Some(start)) => facts.rules_fit(docket, leaf, changes) && !is_multiple(ends - start, m),
        _ => false,
    }
}

/// The sum of the start weights over the agents of a start, modulo m. States that are no inputs and have fixed agents
/// join it, once for each of these; none if the weight is no multiple of m at another state not absent at the start.
fn start_sum(docket: &Docket, facts: &Facts, leaf: &Weights, m: i128) -> Option<i128> {
    let mut sum = 0;
    for (i, weight) in facts.start_weights(leaf) {
        let state = &docket.states[i];
        if state.only_fixed() {
            sum += i128::from(state.fixed) * weight;
        } else if !is_multiple(weight, m) {
            return None;
        }
    }
    Some(sum)
}

/// The sum of the weights of the states that are not absent and hold exactly one worker at their end; none if the
/// weight of another state that is not absent is no multiple of m.
fn exactly_one_sum(facts: &Facts, leaf: &Weights, m: i128) -> Option<i128> {
    let mut sum = 0;
    for (k, state, weight) in facts.end_weights(leaf) {
        if facts.present[k][state] && facts.at_most_one[k][state] {
            sum += weight;
        } else if !is_multiple(weight, m) {
            return None;
        }
    }
    Some(sum)
}

fn is_multiple(number: i128, m: i128) -> bool {
    number.rem_euclid(m) == 0
}

/// Weights as the leaf rule takes them.
pub(crate) fn wide(weights: &[i64]) -> Vec<i128> {
    weights.iter().copied().map(i128::from).collect()
}

impl Weights {
    /// The weights of a docket's leaf: those of the start are y1 + y2.
    fn of_leaf(leaf: &Leaf) -> Weights {
        let (y1, y2) = (wide(&leaf.y1), wide(&leaf.y2));
        let start = y1.iter().zip(&y2).map(|(y1, y2)| y1 + y2).collect();
        let (ends, upper) = (vec![y1, y2], 0);
        Weights { ends, start, upper }
    }
}

impl Facts {
    /// Says only that at the start every state with fixed agents is present, and every other one that is no input is
    /// absent.
    fn fresh(docket: &Docket) -> Facts {
        let none = [[false; 64]; 3];
        let mut facts = Facts {
            absent: none,
            present: none,
            at_most_one: none,
            unused: [[false; 256]; 3],
        };
        for (i, state) in docket.states.iter().enumerate() {
            facts.present[0][i] = state.fixed > 0;
            facts.absent[0][i] = !state.input && state.fixed == 0;
        }
        facts
    }

    /// The facts of each child of a node, in order, each grown from these.
    fn of_children(&self, docket: &Docket, node: &Node) -> Vec<Facts> {
        let party = node.party;
        let absent = |state: usize| self.grown(|facts| facts.absent[party][state] = true);
        let present = |state: usize| self.grown(|facts| facts.present[party][state] = true);
        let at_most_one = |state: usize| self.grown(|facts| facts.at_most_one[party][state] = true);
        match node.kind {
            3 => match docket.rules[node.argument].before {
                [p, q] if p == q => vec![at_most_one(p)],
                [p, q] => vec![absent(p), absent(q)],
            },
            4 => vec![absent(node.argument), present(node.argument)],
            5 => vec![self.with_set_absent(docket, node, 0)],
            6 => vec![self.with_set_absent(docket, node, party)],
            _ => vec![],
        }
    }

    fn grown(&self, grow: impl FnOnce(&mut Facts)) -> Facts {
        let mut facts = self.clone();
        grow(&mut facts);
        facts
    }

    /// The node's set is absent at a party, and the rules touching it are unused in the node's run.
    fn with_set_absent(&self, docket: &Docket, node: &Node, party: usize) -> Facts {
        let mut facts = self.clone();
        for state in 0..64 {
            facts.absent[party][state] |= node.set[state];
        }
        for (r, rule) in docket.rules.iter().enumerate() {
            facts.unused[node.party][r] |= meets(rule.before, &node.set) || meets(rule.after, &node.set);
        }
        facts
    }

    fn set_absent(&self, party: usize, set: &[bool; 64]) -> bool {
        (0..64).all(|state| !set[state] || self.absent[party][state])
    }

    /// Whether every rule for which `bad` holds is unused in a run.
    fn all_unused(&self, docket: &Docket, run: usize, bad: impl Fn(&Rule) -> bool) -> bool {
        let mut rules = docket.rules.iter().enumerate();
        rules.all(|(r, rule)| self.unused[run][r] || !bad(rule))
    }

    /// Whether every rule that is bad for the weights of a run is unused in that run.
    fn rules_fit(&self, docket: &Docket, leaf: &Weights, bad: impl Fn(&[i128], &Rule) -> bool) -> bool {
        let mut runs = (1..).zip(&leaf.ends);
        runs.all(|(run, y)| self.all_unused(docket, run, |rule| bad(y, rule)))
    }

    /// The states not absent at the start, each with its start weight.
    fn start_weights<'a>(&'a self, leaf: &'a Weights) -> impl Iterator<Item = (usize, i128)> + 'a {
        let weights = leaf.start.iter().copied().enumerate();
        weights.filter(|&(state, _)| !self.absent[0][state])
    }

    /// The states not absent at end 1, then those not absent at end 2: the end, the state and its weight there.
    fn end_weights<'a>(&'a self, leaf: &'a Weights) -> impl Iterator<Item = (usize, usize, i128)> + 'a {
        let of_end =
            |(k, y): (usize, &'a Vec<i128>)| y.iter().enumerate().map(move |(state, &weight)| (k, state, weight));
        let all = (1..).zip(&leaf.ends).flat_map(of_end);
        all.filter(|&(k, state, _)| !self.absent[k][state])
    }
}

#[cfg(test)]
mod tests {
    use super::*;
    use crate::docket::{check, line, samples::*};

    fn leaf_closes(docket: &Docket, facts: &Facts, leaf: &Leaf) -> bool {
        super::leaf_closes(docket, facts, &Weights::of_leaf(leaf))
    }

    fn remainder_closes(docket: &Docket, facts: &Facts, leaf: &Leaf, m: i128) -> bool {
        super::remainder_closes(docket, facts, &Weights::of_leaf(leaf), m)
    }

    /// Trees of the broadcast docket, and what the check says of them.
    fn trees(samples: &[(&str, &str)]) {
        for (nodes, said) in samples {
            assert_eq!(line(&broadcast(nodes).bytes()).trim_end(), *said, "{nodes}");
        }
    }

    #[test]
    fn p4_to_p7() {
        trees(&[
            ("3 1 0 0; 1 1 0 0; 5 1 0 4; 6 2 0 2; 1 2 0 0", "refused 12 2"),
            ("3 1 0 0; 1 1 0 0; 5 1 0 1; 6 2 0 2; 1 2 0 0", "refused 13 2"),
            ("3 1 0 0; 1 1 0 0; 5 1 0 2; 6 2 0 2", "refused 12 4"),
            ("3 1 0 0; 1 1 0 0; 5 1 0 2; 6 2 0 2; 1 2 0 0; 9 9 9 9", "refused 12 5"),
        ]);
    }

    /// The docket has no leaf, so a node of kind 0 or 7 has no good argument.
    #[test]
    fn bad_fields_come_before_grounds() {
        let closing = [
            "0 0 0 0", "1 0 0 0", "1 3 0 0", "1 1 1 0", "1 1 0 1", "2 3 0 0", "2 0 2 0", "2 0 0 1",
        ];
        let open = [
            "3 0 0 0", "3 1 1 0", "3 1 0 1", "4 3 0 0", "4 0 2 0", "5 0 0 2", "6 1 0 0", "7 0 0 2",
        ];
        for nodes in [closing, open].concat() {
            trees(&[(nodes, "refused 12 0")]);
        }
        trees(&[
            ("2 0 0 0; 7 0 0 0", "refused 13 0"),
            ("6 2 0 9223372036854775810", "refused 12 0"),
        ]);
    }

    #[test]
    fn depth_40_is_the_greatest() {
        let said = |nodes: &str| line(&docket("3 3", "0 0 0 1 0", "1 0", nodes).bytes());
        let chain = |length| "3 1 0 0;".repeat(length);
        assert_eq!(said(&(chain(39) + "1 1 0 0")), "accepted 2 1 1 40 1 0\n");
        assert_eq!(said(&(chain(40) + "1 1 0 0; 1 1 0 0")), "refused 12 40\n");
        assert_eq!(said(&chain(39)), "refused 12 39\n");
    }

    /// A rule that meets its own kind leaves at most one worker there, not none.
    #[test]
    fn at_most_one_is_not_absent() {
        let docket = docket("2 3", "0 0 0 1 0", "1 0", "3 1 0 0; 1 1 0 0");
        assert_eq!(line(&docket.bytes()), "refused 13 1\n");
    }

    /// A rule unused in one run is passed over by a trap or siphon of that run, and counts for one of the other run.
    #[test]
    fn unused_rules_belong_to_their_run() {
        let split = |first: &str| format!("{first}{TREE}");
        trees(&[
            (
                "3 1 0 0; 1 1 0 0; 5 1 0 2; 4 1 0 0; 5 1 0 1; 1 1 0 0; 6 2 0 2; 1 2 0 0",
                "accepted 2 1 1 8 1 1",
            ),
            (
                "3 1 0 0; 1 1 0 0; 5 1 0 2; 4 2 0 0; 5 2 0 1; 1 1 0 0; 6 2 0 2; 1 2 0 0",
                "refused 13 4",
            ),
            (
                &split("4 0 1 0; 6 2 0 2; 4 2 0 0; 5 2 0 1; 1 2 0 0; 1 2 0 0;"),
                "accepted 2 1 1 11 1 1",
            ),
            (
                &split("4 0 1 0; 6 2 0 2; 4 1 0 0; 5 1 0 1; 1 2 0 0; 1 2 0 0;"),
                "refused 13 3",
            ),
        ]);
    }

    #[test]
    fn grounds_of_traps_and_siphons() {
        let siphon = format!("4 0 0 0; 6 1 0 1; 1 1 0 0; {TREE}");
        trees(&[
            ("5 1 0 2", "refused 13 0"),
            ("6 2 0 2", "refused 13 0"),
            (&siphon, "accepted 2 1 1 8 1 1"),
        ]);
    }

    #[test]
    fn facts_of_a_first_child_do_not_stay() {
        trees(&[
            ("4 1 0 0; 1 1 0 0; 2 1 0 0", "refused 13 2"),
            ("3 1 0 0; 1 1 0 0; 1 1 0 0", "refused 13 2"),
        ]);
    }

    #[test]
    fn p12_leaf() {
        let docket = majority();
        let (y1, y2) = (vec![1, -1, 0, 0], vec![-1, 1, 0, 0]);
        let leaf = Leaf { y1, y2 };
        let closes = |facts: &Facts| leaf_closes(&docket, facts, &leaf);
        let mut facts = Facts::fresh(&docket);
        facts.present[1][0] = true;
        facts.absent[2][0] = true;
        assert!(!closes(&facts));
        assert!(closes(&facts.grown(|facts| facts.absent[1][1] = true)));
        assert!(!closes(&facts.grown(|facts| facts.at_most_one[1][1] = true)));
        facts.present[2][1] = true;
        assert!(!closes(&facts));
        assert!(closes(&facts.grown(|facts| facts.at_most_one[1][1] = true)));
    }

    /// The upper sum is lowered only where a state is present at the start.
    #[test]
    fn upper_sum_of_a_leaf() {
        let docket = docket("2 3", "", "", "1 1 0 0");
        let (y1, y2) = (vec![-1, 0], vec![0, 0]);
        let leaf = Leaf { y1, y2 };
        let mut facts = Facts::fresh(&docket);
        facts.absent[1][0] = true;
        assert!(!leaf_closes(&docket, &facts, &leaf));
        facts.present[0][0] = true;
        assert!(leaf_closes(&docket, &facts, &leaf));
    }

    /// A state absent at the start is free of the leaf rule there, also where it is present.
    #[test]
    fn start_of_a_leaf() {
        let docket = docket("2 3", "", "", "1 1 0 0");
        let (y1, y2) = (vec![0, 1], vec![0, 0]);
        let leaf = Leaf { y1, y2 };
        let mut facts = Facts::fresh(&docket);
        facts.present[1][1] = true;
        assert!(!leaf_closes(&docket, &facts, &leaf));
        facts.absent[0][1] = true;
        assert!(leaf_closes(&docket, &facts, &leaf));
        facts.present[0][1] = true;
        assert!(leaf_closes(&docket, &facts, &leaf));
    }

    /// A state with fixed agents is present at the start, whether it is an input or not, and only a state that is no
    /// input and has none is absent.
    #[test]
    fn fresh_facts() {
        let facts = Facts::fresh(&with_fixed(docket("2 2 0 0", "", "", "1 1 0 0"), [0, 1, 0, 1000]));
        assert_eq!(facts.present[0][..4], [false, true, false, true]);
        assert_eq!(facts.absent[0][..4], [false, false, true, false]);
        let facts = Facts::fresh(&docket("2 2 0 0", "", "", "1 1 0 0"));
        assert_eq!(facts.present[0][..4], [false; 4]);
        assert_eq!(facts.absent[0][..4], [false, false, true, true]);
    }

    /// Fixed agents in state 1 draw all others there: a trap leaves them none at the start, where they are present.
    #[test]
    fn fixed_agents_are_present() {
        let nodes = "3 1 0 0; 1 1 0 0; 5 1 0 2; 2 0 1 0";
        for states in ["2 1", "2 3"] {
            let docket = docket(states, "0 1 1 1 0", "1 0", nodes);
            assert_eq!(line(&docket.bytes()), "refused 13 3\n");
            for fixed in [1, 1000] {
                assert_eq!(
                    line(&with_fixed(docket.clone(), [0, fixed]).bytes()),
                    "accepted 2 1 1 4 1 1\n"
                );
            }
            assert_eq!(line(&with_fixed(docket, [1, 0]).bytes()), "refused 13 3\n");
        }
    }

    /// Fresh facts, and that all states are absent at both ends.
    fn absent_at_ends(docket: &Docket) -> Facts {
        let mut facts = Facts::fresh(docket);
        facts.absent[1] = [true; 64];
        facts.absent[2] = [true; 64];
        facts
    }

    /// Whether the leaf rule holds in a table with no rule, whose first two states are inputs and the others not, with
    /// all states absent at both ends, so that the lower sum is 0; after a change of the facts.
    fn leaf<const S: usize>(fixed: [i64; S], y1: [i64; S], y2: [i64; S], change: impl FnOnce(&mut Facts)) -> bool {
        let states = ["2 2", &" 0".repeat(S - 2)].concat();
        let docket = with_fixed(docket(&states, "", "", "1 1 0 0"), fixed);
        let (y1, y2) = (y1.to_vec(), y2.to_vec());
        let mut facts = absent_at_ends(&docket);
        change(&mut facts);
        leaf_closes(&docket, &facts, &Leaf { y1, y2 })
    }

    /// The fixed number times y1 + y2 joins the upper sum, and not y1 + y2 once.
    #[test]
    fn fixed_agents_of_a_leaf() {
        assert!(leaf([0, 0, 2, 3], [0, 0, 1, -1], [0, 0, 0, 0], |_| ()));
        assert!(leaf([0, 0, 2, 3], [0, 0, 0, 0], [0, 0, 1, -1], |_| ()));
        assert!(!leaf([0, 0, 3, 2], [0, 0, 1, -1], [0, 0, 0, 0], |_| ()));
        assert!(!leaf([0, 0, 2, 2], [0, 0, 1, -1], [0, 0, 0, 0], |_| ()));
        assert!(!leaf([0, 0, 1, 256], [0, 0, 256, -1], [0, 0, 0, 0], |_| ()));
        assert!(leaf([0, 0, 1, 257], [0, 0, 256, -1], [0, 0, 0, 0], |_| ()));
        assert!(leaf([0, 3, 2, 0], [0, -1, 1, 0], [0, 0, 0, 0], |_| ()));
        assert!(!leaf([0, 2, 2, 0], [0, -1, 1, 0], [0, 0, 0, 0], |_| ()));
    }

    /// The sign of y1 + y2 is free where the state is no input and has fixed agents, and nowhere else.
    #[test]
    fn sign_of_a_leaf() {
        assert!(leaf([9, 0, 1, 0], [-1, 0, 1, 0], [0, 0, 0, 0], |_| ()));
        assert!(!leaf([9, 0, 1, 0], [-1, 1, 0, 0], [0, 0, 0, 0], |_| ()));
        assert!(!leaf([9, 1, 0, 0], [-1, 1, 0, 0], [0, 0, 0, 0], |_| ()));
        assert!(leaf([9, 1, 0, 0], [-1, 1, 0, 0], [0, -1, 0, 0], |_| ()));
        assert!(leaf([9, 0, 0, 0], [-1, 0, 1, 0], [0, 0, 0, 0], |_| ()));
        let not_absent = |facts: &mut Facts| facts.absent[0][2] = false;
        assert!(!leaf([9, 0, 0, 0], [-1, 0, 1, 0], [0, 0, 0, 0], not_absent));
    }

    /// A state absent at the start joins no sum and has a free sign, also where it has fixed agents; one without fixed
    /// agents joins once where it is present.
    #[test]
    fn facts_of_fixed_agents() {
        let absent = |state: usize| move |facts: &mut Facts| facts.absent[0][state] = true;
        assert!(!leaf([1, 5, 1, 0], [-1, 0, 1, 0], [0, 0, 0, 0], |_| ()));
        assert!(leaf([1, 5, 1, 0], [-1, 0, 1, 0], [0, 0, 0, 0], absent(2)));
        assert!(!leaf([9, 5, 1, 0], [-1, 0, 1, 0], [0, 0, 0, 0], absent(0)));
        assert!(leaf([9, 5, 1, 0], [-1, 1, 1, 0], [0, 0, 0, 0], absent(1)));
        let present = |facts: &mut Facts| facts.present[0][0] = true;
        assert!(leaf([0, 0, 1, 0], [-2, 0, 1, 0], [0, 0, 0, 0], present));
        assert!(!leaf([0, 0, 2, 0], [-2, 0, 1, 0], [0, 0, 0, 0], present));
        assert!(!leaf([0, 0, 1, 0], [-2, 0, 1, 0], [0, 0, 0, 0], |_| ()));
    }

    /// 64 states with 1,000 fixed agents each: the sum is as great as it can be, or 0 but for one agent.
    #[test]
    fn greatest_sums_of_a_leaf() {
        let split = |below: usize| std::array::from_fn(|i| if i < below { -10_000 } else { 10_000 });
        assert!(leaf([1000; 64], split(64), split(64), |_| ()));
        assert!(!leaf([1000; 64], split(2), split(2), |_| ()));
        assert!(!leaf([1000; 64], split(32), split(32), |_| ()));
        for (place, closes) in [(2, false), (31, false), (32, true), (63, true)] {
            let fixed = std::array::from_fn(|i| if i == place { 999 } else { 1000 });
            assert_eq!(leaf(fixed, split(32), split(32), |_| ()), closes, "{place}");
        }
    }

    /// The parity docket after a change.
    fn parity_line(change: impl FnOnce(&mut Docket)) -> String {
        let mut docket = parity();
        change(&mut docket);
        line(&docket.bytes())
    }

    #[test]
    fn parity_closes_modulo_2() {
        assert_eq!(parity().bytes(), include_bytes!("../../examples/parity.docket"));
        assert_eq!(parity_line(|_| ()), "accepted 4 5 3 18 3 4\n");
        assert_eq!(parity_line(|d| d.nodes[12].set = bits(3)), "refused 13 12\n");
        assert_eq!(parity_line(|d| d.nodes[7].argument = 2), "refused 13 12\n");
        assert_eq!(parity_line(|d| d.leaves[0].y1[0] = -1), "accepted 4 5 3 18 3 4\n");
        assert_eq!(parity_line(|d| d.leaves[0].y2[0] = 2), "refused 13 12\n");
    }

    /// A node of kind 7 has party 0, an argument below K, and a modulus that is all of the set field.
    #[test]
    fn fields_of_a_remainder() {
        let said = |nodes: &str| {
            let (y1, y2) = (vec![0, 0], vec![0, 0]);
            let leaves = vec![Leaf { y1, y2 }];
            let docket = Docket {
                leaves,
                ..broadcast(nodes)
            };
            line(&docket.bytes())
        };
        for nodes in ["7 0 0 2", "7 0 0 3", "7 0 0 1000"] {
            assert_eq!(said(nodes), "refused 13 0\n", "{nodes}");
        }
        let moduli = [
            "7 0 0 0",
            "7 0 0 1",
            "7 0 0 1001",
            "7 0 0 65538",
            "7 0 0 4294967298",
            "7 0 0 9223372036854775810",
            "7 0 0 18446744073709551615",
        ];
        let others = [
            "7 1 0 2",
            "7 2 0 2",
            "7 255 0 2",
            "7 0 1 2",
            "7 0 256 2",
            "8 0 0 2",
            "255 0 0 2",
        ];
        for nodes in [moduli, others].concat() {
            assert_eq!(said(nodes), "refused 12 0\n", "{nodes}");
        }
    }

    /// Whether the remainder rule holds in a table whose one rule is 0 0 to 1 1, where only state 0 is an input, state 0
    /// is absent at end 1 and exactly one at end 2, and state 1 absent at both; after a change of these facts.
    fn remainder(y1: [i64; 2], y2: [i64; 2], m: i128, change: impl FnOnce(&mut Facts)) -> bool {
        let docket = docket("3 1", "0 0 1 1 0", "1 0", "1 1 0 0");
        let (y1, y2) = (y1.to_vec(), y2.to_vec());
        let mut facts = Facts::fresh(&docket);
        facts.absent[1][..2].fill(true);
        facts.absent[2][1] = true;
        facts.present[2][0] = true;
        facts.at_most_one[2][0] = true;
        change(&mut facts);
        remainder_closes(&docket, &facts, &Leaf { y1, y2 }, m)
    }

    #[test]
    fn rules_of_a_remainder() {
        assert!(remainder([2, 0], [-2, 0], 4, |_| ()));
        assert!(!remainder([2, 1], [-2, 0], 4, |_| ()));
        assert!(!remainder([2, 0], [-2, 1], 4, |_| ()));
        assert!(remainder([2, 1], [-2, 0], 4, |facts| facts.unused[1][0] = true));
        assert!(!remainder([2, 1], [-2, 0], 4, |facts| facts.unused[2][0] = true));
        assert!(remainder([2, 0], [-2, 1], 4, |facts| facts.unused[2][0] = true));
        assert!(!remainder([2, 0], [-2, 1], 4, |facts| facts.unused[1][0] = true));
    }

    /// A state absent at the start is free of the remainder rule there, also where it is present.
    #[test]
    fn start_of_a_remainder() {
        assert!(remainder([2, 0], [2, 0], 4, |_| ()));
        assert!(!remainder([0, 0], [2, 0], 4, |_| ()));
        assert!(remainder([0, 0], [2, 0], 4, |facts| facts.absent[0][0] = true));
        assert!(remainder([0, 0], [2, 0], 4, |facts| {
            facts.absent[0][0] = true;
            facts.present[0][0] = true;
        }));
    }

    /// Whether the remainder rule holds in a table of states of this number with no rule, of which the first is an input
    /// and the others not, with all states absent at both ends, so that their sum is 0; after a change of the facts.
    fn fixed_remainder<const S: usize>(
        fixed: [i64; S],
        y1: [i64; S],
        y2: [i64; S],
        m: i128,
        change: impl FnOnce(&mut Facts),
    ) -> bool {
        let states = ["2", &" 0".repeat(S - 1)].concat();
        let docket = with_fixed(docket(&states, "", "", "1 1 0 0"), fixed);
        let (y1, y2) = (y1.to_vec(), y2.to_vec());
        let mut facts = absent_at_ends(&docket);
        change(&mut facts);
        remainder_closes(&docket, &facts, &Leaf { y1, y2 }, m)
    }

    /// Where a state is no input, its fixed number times y1 + y2 is taken off the sum of the ends.
    #[test]
    fn fixed_agents_of_a_remainder() {
        assert!(fixed_remainder([0, 1], [0, 1], [0, 0], 2, |_| ()));
        assert!(fixed_remainder([0, 1], [0, 0], [0, 1], 2, |_| ()));
        assert!(!fixed_remainder([0, 1], [0, 1], [0, 1], 2, |_| ()));
        assert!(!fixed_remainder([0, 2], [0, 1], [0, 0], 2, |_| ()));
        assert!(fixed_remainder([0, 2], [0, 1], [0, 0], 3, |_| ()));
        assert!(!fixed_remainder([0, 256], [0, 1], [0, 0], 2, |_| ()));
        assert!(fixed_remainder([0, 256], [0, 1], [0, 0], 257, |_| ()));
        assert!(!fixed_remainder([0, 1000], [0, 1], [0, 0], 1000, |_| ()));
        assert!(!fixed_remainder([0, 1, 2], [0, 2, -1], [0, 0, 0], 5, |_| ()));
        assert!(!fixed_remainder([0, 1, 2], [0, 1, 1], [0, 0, 0], 3, |_| ()));
        assert!(fixed_remainder([0, 1, 2], [0, 1, 1], [0, 0, 0], 4, |_| ()));
        assert!(!fixed_remainder([0, 0], [0, 1], [0, 0], 2, |_| ()));
    }

    /// It is taken off, and not added: with one agent at end 1 the sum is 1 less the fixed number.
    #[test]
    fn taken_off_the_ends() {
        let exactly_one = |facts: &mut Facts| {
            facts.absent[1][1] = false;
            facts.present[1][1] = true;
            facts.at_most_one[1][1] = true;
        };
        for (fixed, m, closes) in [(1, 3, false), (2, 3, true), (4, 3, false), (1, 2, false), (3, 4, true)] {
            assert_eq!(
                fixed_remainder([0, fixed], [0, 1], [0, 0], m, exactly_one),
                closes,
                "{fixed}, {m}"
            );
        }
    }

    /// An input is like any input, also with fixed agents; a state absent at the start is free, also with fixed agents.
    #[test]
    fn inputs_of_a_remainder() {
        assert!(!fixed_remainder([1, 0], [1, 0], [0, 0], 2, |_| ()));
        assert!(!fixed_remainder([1, 0], [1, 0], [1, 0], 2, |_| ()));
        assert!(!fixed_remainder([1, 1], [1, 1], [0, 0], 2, |_| ()));
        assert!(fixed_remainder([1, 1], [1, 1], [1, 0], 2, |_| ()));
        let absent = |state: usize| move |facts: &mut Facts| facts.absent[0][state] = true;
        assert!(fixed_remainder([1, 1], [1, 1], [0, 0], 2, absent(0)));
        assert!(!fixed_remainder([1, 1], [0, 1], [0, 0], 2, absent(1)));
        let not_absent = |facts: &mut Facts| facts.absent[0][1] = false;
        assert!(!fixed_remainder([0, 0], [0, 1], [0, 0], 2, not_absent));
        assert!(!fixed_remainder([0, 0, 1], [0, 1, 1], [0, 0, 0], 2, |facts| facts
            .absent[0][1] =
            false));
    }

    /// 63 states with 1,000 fixed agents each, weights at the limits, and modulus 32: 10,000 is 16 modulo 32.
    #[test]
    fn greatest_sums_of_a_remainder() {
        for (weight, rest) in [(10_000, 9_984), (-10_000, -9_984)] {
            let (mut y1, mut y2) = ([weight; 64], [rest; 64]);
            (y1[0], y2[0]) = (0, 0);
            assert!(!fixed_remainder([1000; 64], y1, y2, 32, |_| ()));
            for place in [1, 32, 63] {
                let fixed = std::array::from_fn(|i| if i == place { 999 } else { 1000 });
                assert!(fixed_remainder(fixed, y1, y2, 32, |_| ()), "{place}");
            }
            assert!(fixed_remainder([999; 64], y1, y2, 32, |_| ()));
        }
    }

    /// State 0 needs to be absent or exactly one where its weight is no multiple of the modulus, and nowhere else.
    #[test]
    fn ends_of_a_remainder() {
        let y = [2, 0];
        assert!(!remainder(y, y, 4, |facts| facts.present[2][0] = false));
        assert!(!remainder(y, y, 4, |facts| facts.at_most_one[2][0] = false));
        assert!(!remainder(y, y, 4, |facts| facts.absent[1][0] = false));
        assert!(remainder(y, y, 4, |facts| facts.absent[2][1] = false));
        assert!(remainder([2, 4], [2, -4], 4, |facts| facts.absent[2][1] = false));
        assert!(!remainder([2, 2], [2, 2], 4, |facts| facts.absent[2][1] = false));
    }

    /// Exactly one worker in state 0 at both ends.
    #[test]
    fn sum_of_a_remainder() {
        let one_at_each = |facts: &mut Facts| {
            facts.absent[1][0] = false;
            facts.present[1][0] = true;
            facts.at_most_one[1][0] = true;
        };
        assert!(!remainder([2, 0], [2, 0], 4, one_at_each));
        let without_start = |facts: &mut Facts| {
            one_at_each(facts);
            facts.absent[0][0] = true;
        };
        assert!(remainder([4, 0], [2, 0], 4, without_start));
        assert!(remainder([2, 0], [4, 0], 4, without_start));
        assert!(!remainder([4, 0], [8, 0], 4, without_start));
    }

    /// An absent state does not join the sum, also where it is exactly one.
    #[test]
    fn absent_and_exactly_one() {
        assert!(!remainder([2, 0], [2, 0], 4, |facts| facts.absent[2][0] = true));
        assert!(remainder([2, 0], [2, 0], 4, |facts| {
            facts.present[1][0] = true;
            facts.at_most_one[1][0] = true;
        }));
    }

    /// It closes where the weight of state 0 is a multiple of half the modulus, as the rule demands, and no multiple of
    /// the modulus.
    #[test]
    fn weights_of_a_remainder() {
        for (weight, m, closes) in [
            (-1, 2, true),
            (-2, 2, false),
            (-3, 6, true),
            (-3, 4, false),
            (9_500, 1000, true),
            (-9_500, 1000, true),
            (-9_501, 1000, false),
            (10_000, 1000, false),
            (10_000, 32, true),
            (-10_000, 32, true),
            (-10_000, 3, false),
        ] {
            assert_eq!(remainder([weight, 0], [-weight, 0], m, |_| ()), closes, "{weight}, {m}");
            assert_eq!(remainder([weight, 0], [weight, 0], m, |_| ()), closes, "{weight}, {m}");
        }
    }

    /// Modulus 510 has eight bits; the widest set has one state, or there is none.
    #[test]
    fn modulus_is_no_set() {
        let said = |nodes: &str| {
            let (y1, y2) = (vec![255, 0], vec![255, 0]);
            let docket = Docket {
                leaves: vec![Leaf { y1, y2 }],
                ..docket("3 1", "0 0 1 1 0", "1 0", nodes)
            };
            line(&docket.bytes())
        };
        let (first, last) = ("4 1 0 0; 3 2 0 0; 4 2 0 0; 1 1 0 0;", "7 0 0 510; 1 1 0 0");
        assert_eq!(said(&format!("{first} {last}")), "accepted 2 1 1 6 1 0\n");
        assert_eq!(
            said(&format!("{first} 4 2 1 0; 5 2 0 2; {last}; 1 1 0 0")),
            "accepted 2 1 1 9 1 1\n"
        );
    }

    #[test]
    fn leaf_weights_have_limits() {
        let mut docket = broadcast(TREE);
        for (weight, said) in [
            (10_000, Ok(())),
            (-10_000, Ok(())),
            (10_001, refuse(11, 1)),
            (-10_001, refuse(11, 1)),
        ] {
            let (y1, y2) = (vec![0, 0], vec![0, 0]);
            docket.leaves = vec![Leaf { y1, y2 }; 2];
            docket.leaves[1].y2[1] = weight;
            assert_eq!(check(&docket.bytes()).map(|_| ()), said);
        }
    }
}
