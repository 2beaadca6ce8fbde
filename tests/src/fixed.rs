//! Samples of version 2 and of fixed agents.

use crate::calls::Call;
use crate::make::fixed::{broadcast, largest, layered, majority, sum, with_fixed};
use crate::make::{self, node, remainder_node, set_node};
use crate::remainders::{closed_by, numbers, row};
use crate::samples::{changed, CallSample, Sample};
use second::{Docket, Leaf, Node, State};

/// A name, the fixed agents of A, B, C and D, the facts that lead to a leaf, its weights at end 1 and at end 2, and the
/// line. States, rules and facts are those of `remainders`: A and B are inputs, and no rule but D D to C D puts into D.
const LEAVES: &str = "\
3 of an input against 2 | 3 0 0 2 | A1- C1- | -1 0 -1 1 | 0 0 0 0 | accepted 4 3 1 5 2 0
2 of an input against 2 | 2 0 0 2 | A1- C1- | -1 0 -1 1 | 0 0 0 0 | refused 13 2
2 of an input against 3 | 2 0 0 3 | A1- C1- | -1 0 -1 1 | 0 0 0 0 | refused 13 2
the weights of end 2 | 3 0 0 2 | A2- C2- | 0 0 0 0 | -1 0 -1 1 | accepted 4 3 1 5 2 0
the weights of both ends | 3 0 0 2 | A2- C2- | 0 0 0 1 | -1 0 -1 0 | accepted 4 3 1 5 2 0
the weights of both ends, equal sums | 2 0 0 2 | A2- C2- | 0 0 0 1 | -1 0 -1 0 | refused 13 2
once -2 against twice 1 | 1 0 0 2 | A1- C1- | -2 0 -2 1 | 0 0 0 0 | refused 13 2
once -2 against once 1 | 1 0 0 1 | A1- C1- | -2 0 -2 1 | 0 0 0 0 | accepted 4 3 1 5 2 0
256 against 1 of an input | 1 0 0 256 | A1- C1- | -1 0 -1 1 | 0 0 0 0 | refused 13 2
256 of an input against 255 | 256 0 0 255 | A1- C1- | -1 0 -1 1 | 0 0 0 0 | accepted 4 3 1 5 2 0
257 of an input against 2 | 257 0 0 2 | A1- C1- | -1 0 -1 1 | 0 0 0 0 | accepted 4 3 1 5 2 0
257 against 2 of an input | 2 0 0 257 | A1- C1- | -1 0 -1 1 | 0 0 0 0 | refused 13 2
513 of an input against 512 | 513 0 0 512 | A1- C1- | -1 0 -1 1 | 0 0 0 0 | accepted 4 3 1 5 2 0
1,000 of an input against 999 | 1000 0 0 999 | A1- C1- | -1 0 -1 1 | 0 0 0 0 | accepted 4 3 1 5 2 0
1,000 of an input against 1,000 | 1000 0 0 1000 | A1- C1- | -1 0 -1 1 | 0 0 0 0 | refused 13 2
1 of an input, no others | 1 0 0 0 | A1- C1- | -1 0 -1 0 | 0 0 0 0 | accepted 4 3 1 5 2 0
none of an input | 0 0 0 0 | A1- C1- | -1 0 -1 0 | 0 0 0 0 | refused 13 2
1 of the other input | 0 1 0 0 | A1- C1- | -1 0 -1 0 | 0 0 0 0 | refused 13 2
1 of no input with a negative sum | 0 0 0 1 | C1- D1- | 0 0 -1 -1 | 0 0 0 0 | accepted 4 3 1 5 2 0
none of no input with a negative sum | 0 0 0 0 | C1- D1- | 0 0 -1 -1 | 0 0 0 0 | refused 13 2
two states that are no inputs, 3 against 2 | 0 0 3 2 | C1- | 0 0 -1 1 | 0 0 0 0 | accepted 4 3 1 3 2 0
two states that are no inputs, 2 against 2 | 0 0 2 2 | C1- | 0 0 -1 1 | 0 0 0 0 | refused 13 1
a positive sum of an input with fixed agents | 9 1 0 0 | A1- C1- | -1 1 -1 0 | 0 0 0 0 | refused 13 2
a positive sum of an input with fixed agents at end 2 | 9 1 0 0 | A1- C1- | -1 0 -1 0 | 0 1 0 0 | refused 13 2
a positive sum of an input with 9 fixed agents against -20 | 9 0 0 1 | C1- D1- | 1 0 -20 -20 | 0 0 0 0 | refused 13 2
a sum of 0 of an input with 9 fixed agents against -20 | 9 0 0 1 | C1- D1- | 0 0 -20 -20 | 0 0 0 0 | accepted 4 3 1 5 2 0
a positive sum of an input without fixed agents | 9 0 0 0 | A1- C1- | -1 1 -1 0 | 0 0 0 0 | refused 13 2
a sum of 0 of an input with fixed agents | 9 1 0 0 | A1- C1- B2- C2- | -1 1 -1 0 | 0 -1 -1 0 | accepted 4 3 1 9 2 0
a positive sum of no input without fixed agents | 9 0 0 0 | A1- C1- | -1 0 -1 1 | 0 0 0 0 | accepted 4 3 1 5 2 0
two inputs, both at most 0 | 2 2 0 3 | A1- B1- C1- | -1 -1 -1 1 | 0 0 0 0 | accepted 4 3 1 7 2 0
two inputs, equal sums | 2 2 0 4 | A1- B1- C1- | -1 -1 -1 1 | 0 0 0 0 | refused 13 3
an input present without fixed agents joins once | 0 0 0 1 | A0+ A1- C1- | -2 0 -2 1 | 0 0 0 0 | accepted 4 3 1 7 2 0
an input present without fixed agents, equal sums | 0 0 0 2 | A0+ A1- C1- | -2 0 -2 1 | 0 0 0 0 | refused 13 4
an input not known to be present | 0 0 0 1 | A1- C1- | -2 0 -2 1 | 0 0 0 0 | refused 13 2
an input with fixed agents, found present again | 2 0 0 1 | A0+ A1- C1- | -1 0 -1 1 | 0 0 0 0 | accepted 4 3 1 7 2 0
an input with fixed agents, found present again, equal sums | 2 0 0 2 | A0+ A1- C1- | -1 0 -1 1 | 0 0 0 0 | refused 13 4
an input with fixed agents and absent at the start | 9 0 0 1 | A0- A1- C1- | -1 0 -1 1 | 0 0 0 0 | refused 13 3
no input with fixed agents and absent at the start | 1 0 0 9 | D0- A1- C1- | -1 0 -1 1 | 0 0 0 0 | accepted 4 3 1 7 2 0
no input with fixed agents, found present again | 1 0 0 9 | D0+ A1- C1- | -1 0 -1 1 | 0 0 0 0 | refused 13 4
a positive sum of an input that is absent at the start | 5 3 0 0 | B0- A1- C1- | -1 1 -1 0 | 0 0 0 0 | accepted 4 3 1 7 2 0
present at end 1, equal sums but for it | 2 0 0 2 | A1- C1- D1+ | -1 0 -1 1 | 0 0 0 0 | accepted 4 3 1 7 2 0
fixed agents are not present at an end | 2 0 0 2 | A2- C2- | 0 0 0 1 | -1 0 -1 0 | refused 13 2
";

/// The same with a modulus before the weights, for a node of kind 7.
const REMAINDERS: &str = "\
1 modulo 2 | 0 0 0 1 | C1- D1- | 2 | 0 0 1 1 | 0 0 0 0 | accepted 4 3 1 5 2 0
2 modulo 2 | 0 0 0 2 | C1- D1- | 2 | 0 0 1 1 | 0 0 0 0 | refused 13 2
3 modulo 2 | 0 0 0 3 | C1- D1- | 2 | 0 0 1 1 | 0 0 0 0 | accepted 4 3 1 5 2 0
none modulo 2 | 0 0 0 0 | C1- D1- | 2 | 0 0 1 1 | 0 0 0 0 | refused 13 2
1 modulo 2, the weights of end 2 | 0 0 0 1 | C2- D2- | 2 | 0 0 0 0 | 0 0 1 1 | accepted 4 3 1 5 2 0
1 modulo 2, the weights of both ends | 0 0 0 1 | C1- D1- C2- D2- | 2 | 0 0 1 1 | 0 0 1 1 | refused 13 4
1 modulo 2, negative weights | 0 0 0 1 | C1- D1- | 2 | 0 0 -1 -1 | 0 0 0 0 | accepted 4 3 1 5 2 0
of two states, 1 and 2 modulo 2 | 0 0 1 2 | C1- D1- | 2 | 0 0 1 1 | 0 0 0 0 | accepted 4 3 1 5 2 0
of two states, 1 and 3 modulo 2 | 0 0 1 3 | C1- D1- | 2 | 0 0 1 1 | 0 0 0 0 | refused 13 2
of two states, 1 and 1, weights 1 and -1 | 0 0 1 1 | C1- D1- | 2 | 0 0 1 -1 | 0 0 0 0 | refused 13 2
of two states, 2 and 1, weights 1 and -1 | 0 0 2 1 | C1- D1- | 2 | 0 0 1 -1 | 0 0 0 0 | accepted 4 3 1 5 2 0
1 at the start, 1 at end 2 | 0 0 0 1 | A1- C1- D1- A2! A2+ | 2 | 1 0 1 1 | 1 0 0 0 | refused 13 6
2 at the start, 1 at end 2 | 0 0 0 2 | A1- C1- D1- A2! A2+ | 2 | 1 0 1 1 | 1 0 0 0 | accepted 4 3 1 10 2 0
none at the start, 1 at end 2 | 0 0 0 0 | A1- C1- D1- A2! A2+ | 2 | 1 0 1 1 | 1 0 0 0 | accepted 4 3 1 10 2 0
1 at the start and at end 1, modulo 3 | 0 0 0 1 | A0- B0- A1! A1+ B1- C1- D1- | 3 | 1 1 1 1 | 0 0 0 0 | refused 13 8
2 at the start, 1 at end 1, modulo 3 | 0 0 0 2 | A0- B0- A1! A1+ B1- C1- D1- | 3 | 1 1 1 1 | 0 0 0 0 | accepted 4 3 1 14 2 0
3 at the start, 1 at end 1, modulo 3 | 0 0 0 3 | A0- B0- A1! A1+ B1- C1- D1- | 3 | 1 1 1 1 | 0 0 0 0 | accepted 4 3 1 14 2 0
4 at the start, 1 at end 1, modulo 3 | 0 0 0 4 | A0- B0- A1! A1+ B1- C1- D1- | 3 | 1 1 1 1 | 0 0 0 0 | refused 13 8
256 at the start, 1 at end 1, modulo 3 | 0 0 0 256 | A0- B0- A1! A1+ B1- C1- D1- | 3 | 1 1 1 1 | 0 0 0 0 | refused 13 8
257 at the start, 1 at end 1, modulo 3 | 0 0 0 257 | A0- B0- A1! A1+ B1- C1- D1- | 3 | 1 1 1 1 | 0 0 0 0 | accepted 4 3 1 14 2 0
999 modulo 1,000, weight 500 | 0 0 0 999 | C1- D1- | 1000 | 0 0 500 500 | 0 0 0 0 | accepted 4 3 1 5 2 0
1,000 modulo 1,000, weight 500 | 0 0 0 1000 | C1- D1- | 1000 | 0 0 500 500 | 0 0 0 0 | refused 13 2
an input with fixed agents | 1 0 0 0 | A1- | 2 | 1 0 0 0 | 0 0 0 0 | refused 13 1
an input with fixed agents at end 2 | 1 0 0 0 | A2- | 2 | 0 0 0 0 | 1 0 0 0 | refused 13 1
the other input with fixed agents | 0 1 0 0 | B1- | 2 | 0 1 0 0 | 0 0 0 0 | refused 13 1
an input with 3 fixed agents, modulo 4 | 3 0 0 0 | A1- | 4 | 2 0 0 0 | 0 0 0 0 | refused 13 1
an input with fixed agents, and no input with some | 2 0 0 1 | A1- C1- D1- | 2 | 1 0 1 1 | 0 0 0 0 | refused 13 3
an input with fixed agents, its sum a multiple of m | 1 0 0 1 | A1- A2- C1- D1- | 2 | 1 0 1 1 | 1 0 0 0 | accepted 4 3 1 9 2 0
an input with fixed agents, one agent at end 2 | 1 0 0 0 | A1- A2! A2+ | 2 | 1 0 0 0 | 1 0 0 0 | accepted 4 3 1 6 2 0
an input with fixed agents and absent at the start | 1 0 0 0 | A0- A1- | 2 | 1 0 0 0 | 0 0 0 0 | refused 13 2
no input with fixed agents and absent at the start | 0 0 0 1 | D0- C1- D1- | 2 | 0 0 1 1 | 0 0 0 0 | refused 13 3
no input, absent at the start, one agent at end 2 | 0 0 0 1 | D0- A1- C1- D1- A2! A2+ | 2 | 1 0 1 1 | 1 0 0 0 | accepted 4 3 1 12 2 0
a sum of 0 modulo m of no input | 0 0 0 1 | A1- A2! A2+ | 2 | 1 0 0 2 | 1 0 0 0 | accepted 4 3 1 6 2 0
exactly one agent is a fact of the ends alone | 0 0 0 1 | C1- | 2 | 0 0 1 1 | 0 0 0 0 | refused 13 1
";

/// Dockets and their lines.
pub fn lines() -> Vec<Sample> {
    let mut all: Vec<Sample> = LEAVES.lines().map(leaf).collect();
    all.extend(REMAINDERS.lines().map(remainder));
    all.extend(
        [
            versions(),
            states(),
            present(),
            families(),
            greatest_leaf(),
            greatest_remainder(),
        ]
        .concat(),
    );
    all
}

fn leaf(text: &'static str) -> Sample {
    let [name, fixed, facts, y1, y2, line] = row(text);
    let docket = closed_by(node(0, 0, 0), facts, numbers(y1), numbers(y2));
    (name, with_fixed(docket, &numbers(fixed)).bytes(), line)
}

fn remainder(text: &'static str) -> Sample {
    let [name, fixed, facts, modulus, y1, y2, line] = row(text);
    let last = remainder_node(0, modulus.parse().expect("a modulus"));
    let docket = closed_by(last, facts, numbers(y1), numbers(y2));
    (name, with_fixed(docket, &numbers(fixed)).bytes(), line)
}

/// Both lengths with every version.
fn versions() -> Vec<Sample> {
    let first = make::broadcast().bytes();
    let second = with_fixed(make::broadcast(), &[]).bytes();
    let told = |docket: &[u8], version: u16| [&version.to_le_bytes(), &docket[2..]].concat();
    let line = "accepted 2 1 1 5 1 1";
    let too_few = |version: u16| told(&changed(make::still(1), |d| d.version = 2), version);
    vec![
        ("version 1", told(&first, 1), line),
        ("version 2", told(&second, 2), line),
        ("version 2, states of one byte", told(&first, 2), "refused 4 1"),
        ("version 1, states of three bytes", told(&second, 1), "refused 4 1"),
        ("version 0, states of three bytes", told(&second, 0), "refused 2 0"),
        ("version 3, states of one byte", told(&first, 3), "refused 2 0"),
        ("version 3, states of three bytes", told(&second, 3), "refused 2 0"),
        ("version 256", told(&first, 256), "refused 2 0"),
        ("version 257", told(&first, 257), "refused 2 0"),
        ("version 258", told(&second, 258), "refused 2 0"),
        ("version 512", told(&second, 512), "refused 2 0"),
        ("version 65,535", told(&second, 65_535), "refused 2 0"),
        ("version 3 and 1 state", too_few(3), "refused 2 0"),
        ("version 2 and 1 state", too_few(2), "refused 3 0"),
        ("version 2, first 102 bytes", second[..102].to_vec(), "refused 1 0"),
        (
            "the least docket of version 2",
            with_fixed(make::still(2), &[]).bytes(),
            "accepted 2 0 0 1 0 0",
        ),
        (
            "version 2, 64 states",
            with_fixed(make::still(64), &[1000; 64]).bytes(),
            "accepted 64 0 0 1 0 0",
        ),
        (
            "version 2, 65 states",
            with_fixed(make::still(65), &[]).bytes(),
            "refused 3 0",
        ),
        (
            "version 2, every count at its limit",
            largest().bytes(),
            "accepted 64 256 16 2048 16000000 0",
        ),
        (
            "version 2, 129 leaves",
            changed(largest(), |d| d.leaves.push(d.leaves[0].clone())),
            "refused 3 4",
        ),
    ]
}

/// Test 5 in version 2; state 63 of 64 is the last.
fn states() -> Vec<Sample> {
    let line = "accepted 64 0 0 1 0 0";
    let number = |at: usize, fixed: i64| changed(with_fixed(make::still(64), &[]), |d| d.states[at].fixed = fixed);
    let both = |bit: usize, over: usize| {
        changed(with_fixed(make::still(64), &[]), |d| {
            d.states[bit].verdict = 4;
            d.states[over].fixed = 1001;
        })
    };
    let no_input = |fixed: &[i64]| {
        changed(with_fixed(make::still(64), fixed), |d| {
            d.states.iter_mut().for_each(|state| state.input = false);
        })
    };
    vec![
        ("1,000 fixed agents in state 0", number(0, 1000), line),
        ("1,001 fixed agents in state 0", number(0, 1001), "refused 5 0"),
        ("1,000 fixed agents in state 31", number(31, 1000), line),
        ("1,001 fixed agents in state 31", number(31, 1001), "refused 5 31"),
        ("1,000 fixed agents in state 63", number(63, 1000), line),
        ("1,001 fixed agents in state 63", number(63, 1001), "refused 5 63"),
        ("1,024 fixed agents, the lowest byte 0", number(5, 1024), "refused 5 5"),
        ("1,279 fixed agents", number(5, 1279), "refused 5 5"),
        ("33,768 fixed agents", number(5, 33_768), "refused 5 5"),
        ("65,535 fixed agents", number(5, 65_535), "refused 5 5"),
        ("a bit of state 3, 1,001 in state 9", both(3, 9), "refused 5 3"),
        ("1,001 in state 3, a bit of state 9", both(9, 3), "refused 5 3"),
        ("a bit and 1,001 of one state", both(9, 9), "refused 5 9"),
        ("no input", no_input(&[]), "refused 5 64"),
        (
            "no input, fixed agents in every state",
            no_input(&[1000; 64]),
            "refused 5 64",
        ),
        (
            "no input, 1,001 fixed agents in state 0",
            no_input(&[1001]),
            "refused 5 0",
        ),
        (
            "1,001 no-input fixed agents in the last state",
            changed(with_fixed(make::last_no_input(), &[]), |d| d.states[63].fixed = 1001),
            "refused 5 63",
        ),
        (
            "test 5 before test 6 in version 2",
            changed(broadcast(false, 1001), |d| d.rules[0].layer = 1),
            "refused 5 1",
        ),
    ]
}

/// What a fresh set of facts says of fixed agents: A is an input, D is none.
fn present() -> Vec<Sample> {
    let tree = |fixed: &[i64], nodes: Vec<Node>| {
        let docket = closed_by(node(1, 1, 0), "", vec![0; 4], vec![0; 4]);
        changed(with_fixed(docket, fixed), |d| d.nodes = nodes)
    };
    let closed = node(1, 1, 0);
    let split = |state: usize| vec![node(4, 0, state), node(2, 0, state), closed];
    let siphon = |state: usize| vec![set_node(6, 1, state..state + 1), closed];
    let (accepted, refused) = ("accepted 4 3 1 3 2 0", "refused 13 1");
    vec![
        ("an input with a fixed agent is present", tree(&[1], split(0)), accepted),
        (
            "an input with 256 fixed agents is present",
            tree(&[256], split(0)),
            accepted,
        ),
        ("an input without is not", tree(&[0, 1, 1, 1], split(0)), refused),
        (
            "no input with a fixed agent is present",
            tree(&[0, 0, 0, 1], split(3)),
            accepted,
        ),
        (
            "no input with 256 fixed agents is present",
            tree(&[0, 0, 0, 256], split(3)),
            accepted,
        ),
        ("no input without is not", tree(&[1, 1, 1, 0], split(3)), refused),
        (
            "no input with a fixed agent is not absent",
            tree(&[0, 0, 0, 1], vec![node(2, 0, 3)]),
            "refused 13 0",
        ),
        (
            "an input with a fixed agent is not absent",
            tree(&[1], vec![node(2, 0, 0)]),
            "refused 13 0",
        ),
        (
            "a siphon without fixed agents",
            tree(&[1, 1, 1, 0], siphon(3)),
            "accepted 4 3 1 2 2 1",
        ),
        (
            "a siphon with fixed agents",
            tree(&[0, 0, 0, 1], siphon(3)),
            "refused 13 0",
        ),
        (
            "present at the start alone",
            tree(&[1], vec![node(4, 1, 0), node(2, 1, 0), closed]),
            refused,
        ),
        (
            "broadcast of a fixed agent",
            broadcast(false, 1).bytes(),
            "accepted 2 1 1 4 1 1",
        ),
        (
            "broadcast of a fixed agent in an input",
            broadcast(true, 1).bytes(),
            "accepted 2 1 1 4 1 1",
        ),
        ("broadcast of none", broadcast(false, 0).bytes(), "refused 13 3"),
        (
            "broadcast of none in an input",
            broadcast(true, 0).bytes(),
            "refused 13 3",
        ),
        (
            "broadcast of fixed agents in version 1",
            changed(broadcast(true, 1), |d| d.version = 1),
            "refused 13 3",
        ),
    ]
}

/// Families that need the numbers of their fixed agents, with these numbers and with others.
fn families() -> Vec<Sample> {
    let other = |docket: Docket, state: usize, fixed: i64| changed(docket, |d| d.states[state].fixed = fixed);
    let (first, second) = ("accepted 4 4 2 7 2 0", "accepted 4 4 2 10 2 3");
    vec![
        ("majority of 3 and 2", majority(3, 2).bytes(), first),
        (
            "majority of 3 and 2, then 3 and 3",
            other(majority(3, 2), 1, 3),
            "refused 13 1",
        ),
        ("majority of 257 and 256", majority(257, 256).bytes(), first),
        (
            "majority of 257 and 256, then 256 and 256",
            other(majority(257, 256), 0, 256),
            "refused 13 1",
        ),
        ("majority of 2 and 2", majority(2, 2).bytes(), second),
        (
            "majority of 2 and 2, then 3 and 2",
            other(majority(2, 2), 0, 3),
            "refused 13 9",
        ),
        ("majority of 255 and 256", majority(255, 256).bytes(), second),
        ("majority of 1 and 1,000", majority(1, 1000).bytes(), second),
        (
            "a sum of 8 modulo 5 is 3",
            sum(5, 3, &[0, 2, 3]).bytes(),
            "accepted 7 20 2 40 3 7",
        ),
        (
            "a sum of 8 modulo 5, then 9",
            other(sum(5, 3, &[0, 2, 3]), 1, 3),
            "refused 13 9",
        ),
        (
            "a sum of 8 modulo 5 is not 4",
            sum(5, 4, &[0, 2, 3]).bytes(),
            "accepted 7 20 2 46 3 7",
        ),
        (
            "a sum of 8 modulo 5, then 9, is 4",
            other(sum(5, 4, &[0, 2, 3]), 1, 3),
            "refused 13 9",
        ),
        (
            "leaves that weigh 64 states",
            layered(3, 1, 20, 2).bytes(),
            "accepted 64 3 1 20 1000000 0",
        ),
    ]
}

/// No rule, 64 states with 1,000 fixed agents each, of which state 0 alone is an input. All verdicts are 1, so kind 1
/// closes for party 1. The tree closes so, except where the first states are absent at these ends, and there by the last
/// node.
fn many_states(absent: &[(usize, usize)], last: Node, [y1, y2]: [Vec<i64>; 2]) -> Docket {
    let cases = absent.iter().map(|&(end, state)| node(4, end, state));
    let state = |i: usize| State {
        verdict: 1,
        input: i == 0,
        fixed: 1000,
    };
    Docket {
        version: 2,
        states: (0..64).map(state).collect(),
        rules: vec![],
        weights: vec![],
        nodes: cases
            .chain([last])
            .chain(absent.iter().map(|_| node(1, 1, 0)))
            .collect(),
        leaves: vec![Leaf { y1, y2 }],
    }
}

/// States 0 to 18 weigh -10,000 at both ends, where they are absent, which takes 38 nodes; states 45 to 63 weigh 10,000.
/// So the sum goes to -380,000,000 and back to 0. With all weights 10,000 but that of the input, it is 1,260,000,000.
fn greatest_leaf() -> Vec<Sample> {
    let absent: Vec<(usize, usize)> = [1, 2]
        .into_iter()
        .flat_map(|end| (0..19).map(move |i| (end, i)))
        .collect();
    let weight = |i: usize| 10_000 * (i64::from(i >= 45) - i64::from(i < 19));
    let balanced = || {
        let y: Vec<i64> = (0..64).map(weight).collect();
        many_states(&absent, node(0, 0, 0), [y.clone(), y])
    };
    let fixed = |state: usize, fixed: i64| changed(balanced(), |d| d.states[state].fixed = fixed);
    let above = |weight: i64| {
        let y: Vec<i64> = (0..64).map(|i| if i == 0 { 0 } else { weight }).collect();
        many_states(&[], node(0, 0, 0), [y.clone(), y]).bytes()
    };
    let (accepted, refused) = ("accepted 64 0 0 77 0 0", "refused 13 38");
    vec![
        ("380,000,000 against 380,000,000", balanced().bytes(), refused),
        ("one agent less in state 45", fixed(45, 999), accepted),
        ("one agent less in state 63", fixed(63, 999), accepted),
        ("one agent less in state 0", fixed(0, 999), refused),
        ("one agent less in state 18", fixed(18, 999), refused),
        (
            "one less in the weight of state 63",
            changed(balanced(), |d| d.leaves[0].y2[63] = 9_999),
            accepted,
        ),
        (
            "one less in the weight of state 63, one more in that of state 18",
            changed(balanced(), |d| {
                (d.leaves[0].y2[63], d.leaves[0].y1[18]) = (9_999, -9_999)
            }),
            refused,
        ),
        (
            "one agent in state 20 for each of 20,000",
            changed(balanced(), |d| {
                (
                    d.states[63].fixed,
                    d.states[20].fixed,
                    d.leaves[0].y1[20],
                    d.leaves[0].y2[20],
                ) = (999, 1, 10_000, 10_000);
            }),
            refused,
        ),
        ("the greatest sum", above(10_000), "refused 13 0"),
        ("the sum of 63 states of weight 0", above(0), "refused 13 0"),
        ("the least weights, not absent", above(-10_000), "refused 13 0"),
    ]
}

/// 10,000 is 16 modulo 32, and 9,984 is 0. States 1 to 39 are absent at end 1 and weigh 10,000 there, which takes 39
/// nodes; all other weights are 9,984. So what is taken off is 1,258,000,000 or near it, 39 times 16 modulo 32 where the
/// numbers of these states are odd.
fn greatest_remainder() -> Vec<Sample> {
    let absent: Vec<(usize, usize)> = (1..40).map(|i| (1, i)).collect();
    let docket = |sign: i64| {
        let weight = |i: usize| sign * if (1..40).contains(&i) { 10_000 } else { 9_984 };
        let weights = [(0..64).map(weight).collect(), vec![sign * 9_984; 64]];
        let mut docket = many_states(&absent, remainder_node(0, 32), weights);
        docket.states[1..40].iter_mut().for_each(|state| state.fixed = 999);
        docket
    };
    let fixed = |sign: i64, state: usize, fixed: i64| changed(docket(sign), |d| d.states[state].fixed = fixed);
    let (accepted, refused) = ("accepted 64 0 0 79 0 0", "refused 13 39");
    vec![
        ("the greatest sum modulo 32", docket(1).bytes(), accepted),
        ("the least sum modulo 32", docket(-1).bytes(), accepted),
        ("one agent more in state 1", fixed(1, 1, 1000), refused),
        ("one agent more in state 39", fixed(1, 39, 1000), refused),
        (
            "one agent more in state 39, negative weights",
            fixed(-1, 39, 1000),
            refused,
        ),
        ("two agents less in state 39", fixed(1, 39, 997), accepted),
        ("one agent less in state 40", fixed(1, 40, 999), accepted),
        ("one agent less in the input", fixed(1, 0, 999), accepted),
        ("one agent less in state 63", fixed(-1, 63, 999), accepted),
    ]
}

/// Calls and their answers.
pub fn calls() -> Vec<CallSample> {
    let mut all = starts();
    all.extend(meetings());
    all
}

/// Starts of majority with 2 fixed agents in A, which is an input, as B is, and 3 in a, which is none; and of broadcasts.
fn starts() -> Vec<CallSample> {
    let some = changed(with_fixed(make::majority(), &[2, 0, 3, 0]), |d| {
        d.nodes.push(node(1, 1, 0))
    });
    let start = |name, docket: &[u8], counts: &[u32], refusal: Option<(u32, u32)>| {
        let said = refusal.map_or(Ok(vec![]), Err);
        CallSample::same(name, docket, counts, Call::StartTest, said)
    };
    let (wide, one) = (broadcast(false, 257).bytes(), broadcast(false, 1).bytes());
    let input = broadcast(true, 257).bytes();
    let all = with_fixed(make::still(64), &[1000; 64]).bytes();
    let last = with_fixed(make::last_no_input(), &[[0; 63].as_slice(), &[5]].concat()).bytes();
    let counts = |first: u32, last: u32| [vec![first; 63], vec![last]].concat();
    let refused = |state: u32| Some((22, state));
    vec![
        start("the fixed agents alone", &some, &[2, 0, 3, 0], None),
        start("one more in an input", &some, &[3, 0, 3, 0], None),
        start("one in the other input", &some, &[2, 1, 3, 0], None),
        start("1,000,000 with the fixed agents", &some, &[999_997, 0, 3, 0], None),
        start(
            "1,000,001 with the fixed agents",
            &some,
            &[999_998, 0, 3, 0],
            Some((21, 0)),
        ),
        start("one less in an input", &some, &[1, 9, 3, 0], refused(0)),
        start("none in an input", &some, &[0, 9, 3, 0], refused(0)),
        start("one less in no input", &some, &[2, 0, 2, 0], refused(2)),
        start("one more in no input", &some, &[2, 0, 4, 0], refused(2)),
        start("none in no input", &some, &[2, 0, 0, 0], refused(2)),
        start("one in no input without fixed agents", &some, &[2, 0, 3, 1], refused(3)),
        start("the first state against the rule", &some, &[1, 0, 2, 1], refused(0)),
        start("the second state against the rule", &some, &[2, 0, 4, 1], refused(2)),
        start("all zeros", &some, &[0; 4], Some((21, 0))),
        start("one agent", &some, &[0, 0, 1, 0], Some((21, 0))),
        start("two agents, not the fixed ones", &some, &[0, 2, 0, 0], refused(0)),
        start("counts too short, not the fixed ones", &some, &[0, 2, 0], Some((20, 0))),
        start(
            "counts too long, not the fixed ones",
            &some,
            &[0, 2, 0, 0, 0],
            Some((20, 0)),
        ),
        start("one fixed agent and nobody else", &one, &[0, 1], Some((21, 0))),
        start("one fixed agent and one more", &one, &[1, 1], None),
        start("two agents, the fixed one is missing", &one, &[2, 0], refused(1)),
        start("257 fixed agents", &wide, &[0, 257], None),
        start("256 of 257 fixed agents", &wide, &[1, 256], refused(1)),
        start("1 of 257 fixed agents", &wide, &[1, 1], refused(1)),
        start("258 of 257 fixed agents", &wide, &[0, 258], refused(1)),
        start("256 of 257 fixed agents in an input", &input, &[1, 256], refused(1)),
        start("513 of 257 fixed agents in an input", &input, &[0, 513], None),
        start(
            "1,000 fixed agents in each of 64 states",
            &all,
            &counts(1000, 1000),
            None,
        ),
        start("999 in the last of 64 states", &all, &counts(1000, 999), refused(63)),
        start("1,001 in the last of 64 states", &all, &counts(1000, 1001), None),
        start("fixed agents in the last state, no input", &last, &counts(0, 5), None),
        start(
            "one less in the last state, no input",
            &last,
            &counts(1, 4),
            refused(63),
        ),
        start(
            "one more in the last state, no input",
            &last,
            &counts(0, 6),
            refused(63),
        ),
        start(
            "1,001 fixed agents",
            &broadcast(false, 1001).bytes(),
            &[0, 1001],
            Some((5, 1)),
        ),
        start(
            "a length of the other version",
            &[&[1], &one[1..]].concat(),
            &[1, 1],
            Some((4, 1)),
        ),
    ]
}

/// Calls other than the start test take any group.
fn meetings() -> Vec<CallSample> {
    let docket = broadcast(false, 5).bytes();
    let (sample, same) = (CallSample::new, CallSample::same);
    vec![
        sample(
            "a run with fixed agents",
            &docket,
            &[3, 5],
            Call::Run(9),
            Ok(vec![3, 1]),
            &[0, 8],
        ),
        sample(
            "a run with fewer agents",
            &docket,
            &[3, 1],
            Call::Run(2),
            Ok(vec![2, 0]),
            &[1, 3],
        ),
        sample(
            "a step with fewer agents",
            &docket,
            &[1, 1],
            Call::Step(0),
            Ok(vec![]),
            &[0, 2],
        ),
        same(
            "a step without the fixed agents",
            &docket,
            &[2, 0],
            Call::Step(0),
            Err((24, 0)),
        ),
        same(
            "a rule number in version 2",
            &docket,
            &[1, 5],
            Call::Step(1),
            Err((23, 1)),
        ),
        same(
            "can act with fewer agents",
            &docket,
            &[1, 1],
            Call::CanAct(0),
            Ok(vec![1]),
        ),
        same(
            "a standstill without the fixed agents",
            &docket,
            &[2, 0],
            Call::IsStandstill,
            Ok(vec![1]),
        ),
        same(
            "the verdict without the fixed agents",
            &docket,
            &[2, 0],
            Call::Verdict,
            Ok(vec![0]),
        ),
        same(
            "the verdict with fixed agents",
            &docket,
            &[1, 5],
            Call::Verdict,
            Ok(vec![2]),
        ),
        same("all zeros, verdict", &docket, &[0, 0], Call::Verdict, Err((21, 0))),
    ]
}
