//! Samples of kind 7.

use crate::make::remainder::{digits, largest, many_leaves, parity, table};
use crate::make::{bits, node, remainder_node, rule, set_node};
use crate::samples::{changed, Sample};
use second::{Docket, Leaf, Node, Rule, State};

/// A name, the facts that lead to a node of kind 7, its modulus, the weights of its leaf at end 1 and at end 2 for A, B,
/// C and D, and the line. A fact is a state, a party and a mark: - absent, + present, ! at most one, which C has no rule
/// for, s a siphon of this state alone in that run.
const GROUNDS: &str = "\
one worker at end 2 | A1- A2! A2+ | 2 | 1 0 0 0 | 1 0 0 0 | accepted 4 3 1 6 2 0
one worker at end 1 | A2- A1! A1+ | 2 | 1 0 0 0 | 1 0 0 0 | accepted 4 3 1 6 2 0
modulus 1,000 | A1- A2! A2+ | 1000 | 500 0 0 0 | 500 0 0 0 | accepted 4 3 1 6 2 0
a modulus with more bits than the widest set | D1s A1- A2! A2+ | 510 | 255 0 0 0 | 255 0 0 0 | accepted 4 3 1 7 2 1
a modulus and no set | A1- A2! A2+ | 510 | 255 0 0 0 | 255 0 0 0 | accepted 4 3 1 6 2 0
a rule changes the weights of both runs by 2, modulus 3 | A1- A2! A2+ | 3 | 1 0 0 0 | 2 0 0 0 | refused 13 4
a rule changes the weights of run 1 | A1- C1- A2! A2+ | 4 | 2 0 2 0 | 2 0 0 0 | refused 13 5
a rule changes the weights of run 1, unused there | D1s A1- C1- A2! A2+ | 4 | 2 0 2 0 | 2 0 0 0 | accepted 4 3 1 9 2 1
a rule changes the weights of run 1, unused in run 2 | D2s A1- C1- A2! A2+ | 4 | 2 0 2 0 | 2 0 0 0 | refused 13 6
a rule changes the weights of run 2 | A1- A2! A2+ C2- | 4 | 2 0 0 0 | 2 0 2 0 | refused 13 5
a rule changes the weights of run 2, unused there | D2s A1- A2! A2+ C2- | 4 | 2 0 0 0 | 2 0 2 0 | accepted 4 3 1 9 2 1
a rule changes the weights of run 2, unused in run 1 | D1s A1- A2! A2+ C2- | 4 | 2 0 0 0 | 2 0 2 0 | refused 13 6
a rule changes the weights by 39,984, a multiple of m | B1- B2! B2+ | 6 | -9996 3 9996 0 | 9996 3 -9996 0 | accepted 4 3 1 6 2 0
a rule from 2 to -2, modulus 4 | D1s D2s A1- B1- C1- A2! A2+ B2- C2- | 4 | 1 1 -1 0 | -1 -1 1 0 | accepted 4 3 1 16 2 1
y1 + y2 at the start | A1- A2! A2+ | 4 | 0 0 0 0 | 2 0 0 0 | refused 13 4
y1 + y2 of a state absent at the start | A0- A1- A2! A2+ | 4 | 0 0 0 0 | 2 0 0 0 | accepted 4 3 1 8 2 0
y1 + y2 of a state absent and present at the start | A0- A0+ A1- A2! A2+ | 4 | 0 0 0 0 | 2 0 0 0 | accepted 4 3 1 10 2 0
y1 + y2 of the last input state | A1- B1- A2! A2+ B2- | 4 | 2 2 0 0 | 2 0 0 0 | refused 13 6
y1 + y2 is m for the last input state | A1- B1- A2! A2+ B2- | 4 | 2 2 0 0 | 2 2 0 0 | accepted 4 3 1 10 2 0
y1 - y2 is 0 at the start, y1 + y2 is 2 | A1! A1+ B1- C1- D1- B2! B2+ A2- C2- D2- | 3 | 1 1 1 1 | 1 1 1 1 | refused 13 12
present alone at end 2 | A1- A2+ | 2 | 1 0 0 0 | 1 0 0 0 | refused 13 3
at most one alone at end 2 | A1- A2! | 2 | 1 0 0 0 | 1 0 0 0 | refused 13 2
neither at end 2 | A1- | 2 | 1 0 0 0 | 1 0 0 0 | refused 13 1
present alone at end 1 | A2! A2+ A1+ | 2 | 1 0 0 0 | 1 0 0 0 | refused 13 5
at most one alone at end 1 | A2! A2+ A1! | 2 | 1 0 0 0 | 1 0 0 0 | refused 13 4
neither at end 1 | A2! A2+ | 2 | 1 0 0 0 | 1 0 0 0 | refused 13 3
at most one at end 2, present at end 1 | A1- A1+ A2! | 2 | 1 0 0 0 | 1 0 0 0 | refused 13 4
at most one at end 2, present at the start | A1- A0+ A2! | 2 | 1 0 0 0 | 1 0 0 0 | refused 13 4
present at end 2, at most one at end 1 | A1- A1! A2+ | 2 | 1 0 0 0 | 1 0 0 0 | refused 13 4
another state exactly one | A1- B2! B2+ | 2 | 1 0 0 0 | 1 0 0 0 | refused 13 4
weights that are multiples of m | A1- A2! A2+ | 4 | 2 4 -8 0 | -2 -4 8 0 | accepted 4 3 1 6 2 0
exactly one, and the weight is m | B1! B1+ A1- A2! A2+ | 4 | 2 4 0 0 | 2 4 0 0 | accepted 4 3 1 9 2 0
one worker at each end, the sum is m | A1! A1+ A2! A2+ | 4 | 2 0 0 0 | 2 0 0 0 | refused 13 6
one worker at each end, the sum is 0 | A1! A1+ A2! A2+ | 4 | 2 0 0 0 | -2 0 0 0 | refused 13 6
two workers at end 2, the sum is m | A1- B1- A2! A2+ B2! B2+ | 1000 | 500 500 0 0 | 500 500 0 0 | refused 13 8
two workers at end 2, the sum is -m | A1- B1- A2! A2+ B2! B2+ | 1000 | 500 500 0 0 | -500 -500 0 0 | refused 13 8
two workers at end 1, the sum is m | A2- B2- A1! A1+ B1! B1+ | 2 | 1 1 0 0 | 1 1 0 0 | refused 13 8
three workers, the sum is 3 modulo 2 | A1! A1+ B1- A2! A2+ B2! B2+ | 2 | 1 1 0 0 | 1 1 0 0 | accepted 4 3 1 12 2 0
no state is exactly one | A1- A2- | 2 | 1 0 0 0 | 1 0 0 0 | refused 13 2
all weights are 0 | A1- A2! A2+ | 2 | 0 0 0 0 | 0 0 0 0 | refused 13 4
absent and exactly one at end 2 | A1- A2! A2+ A2- | 2 | 1 0 0 0 | 1 0 0 0 | refused 13 5
absent and exactly one at end 1 | A1! A1+ A1- A2! A2+ | 2 | 1 0 0 0 | 1 0 0 0 | accepted 4 3 1 9 2 0
";

/// A name, a modulus, one weight for all states at each end, and the line. The facts are those of `NUMBER_FACTS`: every
/// rule keeps the number of workers, which is 1 at end 1 and 2 at end 2.
const NUMBERS: &str = "\
the number of workers | 3 | 1 | -1 | accepted 4 3 1 20 2 0
all weights negative | 3 | -1 | -2 | accepted 4 3 1 20 2 0
all weights negative, the sum is a multiple of m | 5 | -10 | -5 | refused 13 14
all weights positive | 3 | 10000 | 9998 | accepted 4 3 1 20 2 0
weights -10,000 and 10,000, modulus 7 | 7 | -10000 | 10000 | accepted 4 3 1 20 2 0
weights 10,000 and -10,000, modulus 32 | 32 | 10000 | -10000 | accepted 4 3 1 20 2 0
weights -10,000 and 10,000, modulus 16 | 16 | -10000 | 10000 | refused 13 14
weights -10,000 and 10,000, modulus 1,000 | 1000 | -10000 | 10000 | refused 13 14
weights -9,999 and 9,999, modulus 1,000 | 1000 | -9999 | 9999 | accepted 4 3 1 20 2 0
";

const NUMBER_FACTS: &str = "A1! A1+ B1- C1- D1- A2! A2+ B2! B2+ C2- D2-";

/// Dockets and their lines.
pub fn lines() -> Vec<Sample> {
    let mut all: Vec<Sample> = GROUNDS.lines().map(ground).collect();
    all.extend(NUMBERS.lines().map(number));
    all.extend([fields(), trees(), format_page(), tables(), counts(), limits()].concat());
    all
}

/// The fields of a row of a text.
pub fn row<const COUNT: usize>(text: &'static str) -> [&'static str; COUNT] {
    let mut fields = text.split(" | ");
    std::array::from_fn(|_| fields.next().expect("another field"))
}

pub fn numbers(text: &str) -> Vec<i64> {
    let words = text.split_whitespace();
    words.map(|number| number.parse().expect("a number")).collect()
}

fn ground(text: &'static str) -> Sample {
    let [name, facts, modulus, y1, y2, line] = row(text);
    (name, closed(facts, modulus, numbers(y1), numbers(y2)).bytes(), line)
}

fn number(text: &'static str) -> Sample {
    let [name, modulus, weight1, weight2, line] = row(text);
    let all = |weight: &str| numbers(weight).repeat(4);
    (
        name,
        closed(NUMBER_FACTS, modulus, all(weight1), all(weight2)).bytes(),
        line,
    )
}

/// States A, B, C and D, of which A and B are inputs, with the rules A A to C C, B B to C C and D D to C D. No state has
/// verdict 0, so kind 1 closes for party 1. The tree closes so except where the facts hold, and there by kind 7.
fn closed(facts: &str, modulus: &str, y1: Vec<i64>, y2: Vec<i64>) -> Docket {
    let modulus = modulus.parse().expect("a modulus");
    closed_by(remainder_node(0, modulus), facts, y1, y2)
}

/// The same with another last node.
pub fn closed_by(last: Node, facts: &str, y1: Vec<i64>, y2: Vec<i64>) -> Docket {
    let state = |input: bool| State {
        verdict: 1,
        input,
        fixed: 0,
    };
    Docket {
        version: 1,
        states: vec![state(true), state(true), state(false), state(false)],
        rules: rules(),
        weights: vec![vec![2, 2, 0, 1]],
        nodes: with_facts(facts, last, node(1, 1, 0)),
        leaves: vec![Leaf { y1, y2 }],
    }
}

/// The tree that has one node where the facts hold, and the other elsewhere.
pub fn with_facts(facts: &str, last: Node, other: Node) -> Vec<Node> {
    let words = facts.split_whitespace().rev();
    words.fold(vec![last], |nodes, word| with_fact(word, nodes, other))
}

fn rules() -> Vec<Rule> {
    vec![
        rule([0, 0], [2, 2], 0),
        rule([1, 1], [2, 2], 0),
        rule([3, 3], [2, 3], 0),
    ]
}

/// The rule that takes two workers from a state.
fn own_rule(state: usize) -> usize {
    let own = |rule: &Rule| rule.before == [state; 2];
    rules().iter().position(own).expect("a rule for this state")
}

/// The tree that has these nodes where a fact holds, and the other node where it does not.
fn with_fact(word: &str, nodes: Vec<Node>, other: Node) -> Vec<Node> {
    let [letter, party, mark] = word.as_bytes() else {
        panic!("{word} is no fact");
    };
    let (state, party) = (usize::from(letter - b'A'), usize::from(party - b'0'));
    let (before, after) = match mark {
        b'-' => (vec![node(4, party, state)], vec![other]),
        b'+' => (vec![node(4, party, state), other], vec![]),
        b'!' => (vec![node(3, party, own_rule(state))], vec![]),
        b's' => (vec![set_node(6, party, state..state + 1)], vec![]),
        _ => panic!("{word} has no mark"),
    };
    [before, nodes, after].concat()
}

/// One worker at end 2, weights 2 modulo 4; node 4 is of kind 7.
fn one_worker() -> Docket {
    closed("A1- A2! A2+", "4", vec![2, 0, 0, 0], vec![2, 0, 0, 0])
}

/// Node 4 with other fields. Test 12 comes before test 13, which the last of these would fail too.
fn fields() -> Vec<Sample> {
    let field = |change: &dyn Fn(&mut Node)| changed(one_worker(), |d| change(&mut d.nodes[4]));
    let modulus = |modulus: u64| field(&|node| node.set = bits(modulus));
    vec![
        ("modulus 0", modulus(0), "refused 12 4"),
        ("modulus 1", modulus(1), "refused 12 4"),
        ("modulus 1,001", modulus(1001), "refused 12 4"),
        ("modulus 4 + 1,024", modulus(4 + 1024), "refused 12 4"),
        ("modulus 4 + 65,536", modulus(4 + 65_536), "refused 12 4"),
        ("modulus 4 and bit 32", modulus(4 | 1 << 32), "refused 12 4"),
        ("modulus 4 and bit 63", modulus(4 | 1 << 63), "refused 12 4"),
        ("modulus 0 and bit 63", modulus(1 << 63), "refused 12 4"),
        ("the greatest 64-bit modulus", modulus(u64::MAX), "refused 12 4"),
        ("kind 7, party 1", field(&|node| node.party = 1), "refused 12 4"),
        ("kind 7, party 2", field(&|node| node.party = 2), "refused 12 4"),
        ("kind 7, party 128", field(&|node| node.party = 128), "refused 12 4"),
        ("kind 7, argument K", field(&|node| node.argument = 1), "refused 12 4"),
        (
            "kind 7, argument K, which is 0",
            changed(one_worker(), |d| d.leaves.clear()),
            "refused 12 4",
        ),
        (
            "kind 7, argument 256",
            field(&|node| node.argument = 256),
            "refused 12 4",
        ),
        ("kind 0 with a modulus", field(&|node| node.kind = 0), "refused 12 4"),
        ("kind 6 with a modulus", field(&|node| node.kind = 6), "refused 12 4"),
        ("kind 8", field(&|node| node.kind = 8), "refused 12 4"),
        ("kind 15", field(&|node| node.kind = 15), "refused 12 4"),
        ("kind 255", field(&|node| node.kind = 255), "refused 12 4"),
        (
            "modulus 1,002, and the ground fails too",
            changed(one_worker(), |d| {
                d.nodes[1].argument = 1;
                d.nodes[4].set = bits(1002);
            }),
            "refused 12 4",
        ),
    ]
}

fn trees() -> Vec<Sample> {
    let deep = |repeats: usize| {
        let facts = "A2! ".repeat(repeats) + "A2+ A1-";
        closed(&facts, "4", vec![2, 0, 0, 0], vec![2, 0, 0, 0]).bytes()
    };
    let more = |nodes: Vec<Node>| changed(one_worker(), |d| drop(d.nodes.splice(4..5, nodes)));
    vec![
        (
            "kind 7 as the whole tree",
            changed(one_worker(), |d| d.nodes = vec![remainder_node(0, 4)]),
            "refused 13 0",
        ),
        (
            "a child of kind 7",
            more(vec![remainder_node(0, 4), node(1, 1, 0)]),
            "refused 12 6",
        ),
        (
            "one leaf and two moduli",
            changed(one_worker(), |d| {
                d.leaves[0].y1[0] = 6;
                d.leaves[0].y2[0] = -6;
                d.nodes
                    .splice(4..5, [node(4, 0, 1), remainder_node(0, 4), remainder_node(0, 12)]);
            }),
            "accepted 4 3 1 8 2 0",
        ),
        (
            "one leaf and two moduli, the second of which fails",
            more(vec![node(4, 0, 1), remainder_node(0, 4), remainder_node(0, 2)]),
            "refused 13 6",
        ),
        (
            "a leaf that kind 7 closes and kind 0 does not",
            more(vec![node(4, 0, 1), remainder_node(0, 4), node(0, 0, 0)]),
            "refused 13 6",
        ),
        (
            "two children of kind 7",
            more(vec![node(4, 1, 1), remainder_node(0, 4), remainder_node(0, 4)]),
            "accepted 4 3 1 8 2 0",
        ),
        ("kind 7 at depth 40", deep(37), "accepted 4 3 1 42 2 0"),
        ("kind 7 at depth 41", deep(38), "refused 12 41"),
        (
            "the facts of the first child do not stay",
            changed(digits(2, [0, 1]), |d| d.nodes[5] = remainder_node(0, 2)),
            "refused 13 5",
        ),
    ]
}

/// The parity docket of docs/FORMAT.md, and what that page says of changes to it.
fn format_page() -> Vec<Sample> {
    let modulus = |modulus: u64| changed(parity(), |d| d.nodes[12].set = bits(modulus));
    vec![
        ("parity", parity().bytes(), "accepted 4 5 3 18 3 4"),
        ("parity, modulus 3", modulus(3), "refused 13 12"),
        ("parity, modulus 1", modulus(1), "refused 12 12"),
        ("parity, modulus 1,001", modulus(1001), "refused 12 12"),
        (
            "parity, rule E E to E e in node 7",
            changed(parity(), |d| d.nodes[7].argument = 2),
            "refused 13 12",
        ),
    ]
}

fn tables() -> Vec<Sample> {
    let last = |node: &&mut Node| node.kind == 7 && node.argument == 127;
    vec![
        ("sums modulo 2", table(2, 1, &[1]).bytes(), "accepted 4 5 2 24 3 4"),
        (
            "sums modulo 3",
            table(3, 0, &[0, 1, 2]).bytes(),
            "accepted 5 9 2 37 3 5",
        ),
        ("sums modulo 7", table(7, 5, &[1, 6]).bytes(), "accepted 9 35 2 109 3 9"),
        (
            "128 leaves closed by kind 7",
            many_leaves().bytes(),
            "accepted 19 170 2 653 3 19",
        ),
        (
            "weight of leaf 127 in kind 7",
            changed(many_leaves(), |d| d.leaves[127].y2[3] += 1),
            "refused 13 649",
        ),
        (
            "leaf 128 in kind 7",
            changed(many_leaves(), |d| {
                d.nodes.iter_mut().filter(last).for_each(|node| node.argument = 128)
            }),
            "refused 12 649",
        ),
    ]
}

/// The binary digits of two numbers modulo 1,000, once with each weight as near to one of its limits as it can be.
fn counts() -> Vec<Sample> {
    let near = |limit: i64, ends: [u64; 2]| {
        changed(digits(1000, ends), |d| {
            let Leaf { y1, y2 } = &mut d.leaves[0];
            for weight in y1.iter_mut().chain(y2) {
                *weight += (limit - *weight) / 1000 * 1000;
            }
        })
    };
    let same = |ends: [u64; 2]| digits(1000, ends).bytes();
    vec![
        ("0 and 999", same([0, 999]), "accepted 11 10 1 49 15 0"),
        ("0 and 1,000", same([0, 1000]), "refused 13 32"),
        ("1,023 and 511", same([1023, 511]), "accepted 11 10 1 60 15 0"),
        ("1,023 and 1,022", same([1023, 1022]), "accepted 11 10 1 60 15 0"),
        (
            "1,023 and 511, weights near 10,000",
            near(10_000, [1023, 511]),
            "accepted 11 10 1 60 15 0",
        ),
        (
            "1,023 and 511, weights near -10,000",
            near(-10_000, [1023, 511]),
            "accepted 11 10 1 60 15 0",
        ),
        (
            "1,023 and 23, weights near 10,000",
            near(10_000, [1023, 23]),
            "refused 13 48",
        ),
        (
            "1,023 and 23, weights near -10,000",
            near(-10_000, [1023, 23]),
            "refused 13 48",
        ),
    ]
}

/// Every count at its limit, for run 1 with weights of 10,000, for run 2 with weights of -10,000, and changes to both.
/// Node 2,047 is of kind 7. Nodes 2,017 and 2,018 say that state 63 holds exactly one worker at the end of that run,
/// nodes 2,044 and 2,045 that it does at the other end; rule 253 takes two workers from state 57.
fn limits() -> Vec<Sample> {
    let docket = |run: usize| largest(run, if run == 1 { 10_000 } else { -10_000 });
    let other_siphon = |run| changed(docket(run), |d| d.nodes[0].party = 3 - run);
    // State 62 alone is in the siphon, so a rule that takes from state 61 in its place is not unused.
    let takes_from = |run, r: usize, before| changed(docket(run), |d| d.rules[r].before = before);
    let names = |place: usize, argument| changed(docket(1), |d| d.nodes[place].argument = argument);
    let absent = |run| {
        changed(docket(run), |d| {
            let last = [node(4, 3 - run, 63), d.nodes[2047], node(1, 1, 0)];
            d.nodes.splice(2044.., last);
        })
    };
    // y1 + y2 is 19,600 for both states, no multiple of m. The sum is 189,200, no multiple of m either.
    let start = |input| {
        changed(docket(1), |d| {
            (d.states[57].input, d.states[63].input) = (false, input);
            (d.leaves[127].y2[57], d.leaves[127].y2[63]) = (9_600, 9_600);
        })
    };
    let (accepted, refused) = ("accepted 64 256 16 2048 16000000 1", "refused 13 2047");
    vec![
        ("sum 190,000", docket(1).bytes(), accepted),
        ("sum -190,000", docket(2).bytes(), accepted),
        ("sum 180,000, a multiple of m", absent(1), "refused 13 2045"),
        ("sum -180,000, a multiple of m", absent(2), "refused 13 2045"),
        ("four rules unused in run 2 alone", other_siphon(1), refused),
        ("four rules unused in run 1 alone", other_siphon(2), refused),
        ("rule 0 changes y1", takes_from(1, 0, [9, 61]), refused),
        ("rule 85 changes y1", takes_from(1, 85, [9, 61]), refused),
        ("rule 170 changes y1", takes_from(1, 170, [9, 61]), refused),
        ("rule 255 changes y1", takes_from(1, 255, [9, 61]), refused),
        ("rule 255 keeps y1", takes_from(1, 255, [60, 61]), accepted),
        ("rule 0 changes y2", takes_from(2, 0, [9, 61]), refused),
        ("rule 85 changes y2", takes_from(2, 85, [9, 61]), refused),
        ("rule 170 changes y2", takes_from(2, 170, [9, 61]), refused),
        ("rule 255 changes y2", takes_from(2, 255, [9, 61]), refused),
        ("rule 255 keeps y2", takes_from(2, 255, [60, 61]), accepted),
        ("state 63 present alone at end 1", names(2017, 253), refused),
        ("state 63 at most one alone at end 1", names(2018, 57), refused),
        ("state 63 present alone at end 2", names(2044, 253), refused),
        ("state 63 at most one alone at end 2", names(2045, 57), refused),
        ("y1 + y2 of state 63", start(true), refused),
        ("y1 + y2 of state 63, which is no input state", start(false), accepted),
    ]
}
