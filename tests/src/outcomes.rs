//! Samples of test 7 and of tables in which a pair of states has several rules.

use crate::calls::Call;
use crate::make::{self, rule, set_node};
use crate::samples::{changed, CallSample, Sample};
use second::{Docket, Rule};

/// A name, the rules (p, q, p', q', layer) that stand in the docket of two outcomes, and its line.
const TABLES: &str = "\
equal in all but q' | 0 1 1 1 0; 0 1 1 2 0; 0 2 1 2 0 | accepted 3 3 1 7 1 2
equal in all but p' | 0 1 1 2 0; 0 1 2 2 0; 0 2 1 2 0 | accepted 3 3 1 7 1 2
equal in the before pair alone | 0 1 1 1 0; 0 1 2 2 0; 0 2 1 2 0 | accepted 3 3 1 7 1 2
the first rule of a pair in the higher layer | 0 1 1 1 1; 0 1 1 2 0; 0 2 1 2 0 | accepted 3 3 2 7 2 2
handover by the other rule of the pair | 0 1 1 1 0; 0 1 1 2 1; 0 2 1 2 0 | accepted 3 3 2 7 2 2
an equal rule | 0 1 1 1 0; 0 1 1 1 0; 0 2 1 2 0 | refused 7 1
an equal rule in a higher layer | 0 1 1 1 0; 0 1 1 1 1; 0 2 1 2 0 | refused 7 1
an equal rule in a lower layer | 0 1 1 1 1; 0 1 1 1 0; 0 2 1 2 0 | refused 7 1
three equal rules | 0 1 1 1 0; 0 1 1 2 0; 0 2 1 2 0; 0 1 1 1 0; 0 1 1 1 0 | refused 7 3
equal to rule 2, then to rule 0 | 0 1 1 1 0; 0 1 1 2 0; 0 2 1 2 0; 0 2 1 2 0; 0 1 1 1 0 | refused 7 3
test 6 at a later rule than test 7 | 0 1 1 1 0; 0 1 1 1 0; 0 2 0 2 0 | refused 6 2
test 8 at a lower place than test 7 | 0 1 1 1 1; 0 1 1 1 1; 0 2 1 2 1 | refused 7 1
test 8 behind several rules for a pair | 0 1 1 1 1; 0 1 1 2 1; 0 2 1 2 1 | refused 8 0
lowering of one outcome | 0 1 1 1 0; 0 1 0 2 0; 0 2 1 2 0 | refused 9 1
handover of one outcome | 0 1 1 1 1; 0 1 1 2 1; 0 2 1 2 0 | refused 10 1
";

/// The docket of two outcomes with other rules.
fn table(rules: &str) -> Docket {
    with_rules(make::two_outcomes(), rules, vec![1, 0, 0])
}

/// The docket with these rules, and as many layers of these weights as they need.
pub fn with_rules(mut docket: Docket, rules: &str, weights: Vec<i64>) -> Docket {
    let read = |text: &str| {
        let mut numbers = text.split_whitespace().map(|number| number.parse().expect("a number"));
        let [p, q, p1, q1, layer] = std::array::from_fn(|_| numbers.next().expect("five numbers"));
        rule([p, q], [p1, q1], layer)
    };
    docket.rules = rules.split(';').map(read).collect();
    let layers = docket.rules.iter().map(|rule| rule.layer + 1).max();
    docket.weights = vec![weights; layers.expect("a rule")];
    docket
}

/// Dockets and their lines.
pub fn lines() -> Vec<Sample> {
    let sample = |text: &'static str| {
        let mut fields = text.split(" | ");
        let [name, rules, line] = std::array::from_fn(|_| fields.next().expect("three fields"));
        (name, table(rules).bytes(), line)
    };
    let mut all: Vec<Sample> = TABLES.lines().map(sample).collect();
    all.extend([trees(), many_rules(), shared_marks()].concat());
    all
}

/// Trees over several outcomes: a checker that looks only at the first rule of each pair does not see what is refused.
fn trees() -> Vec<Sample> {
    let two = make::two_outcomes;
    vec![
        (
            "standstill by the second rule of a pair",
            changed(two(), |d| d.nodes[0].argument = 1),
            "accepted 3 3 1 7 1 2",
        ),
        (
            "a trap that one outcome leaves",
            changed(two(), |d| {
                d.rules[1].after = [2, 2];
                d.nodes[4] = set_node(5, 1, 1..2);
            }),
            "refused 13 4",
        ),
        (
            "a siphon that one outcome fills",
            changed(two(), |d| d.nodes.insert(0, set_node(6, 1, 2..3))),
            "refused 13 0",
        ),
        (
            "a leaf that the last outcomes raise",
            changed(make::outcomes(64, 256, 1), |d| d.leaves[0].y1[23] = 1),
            "refused 13 3",
        ),
    ]
}

fn many_rules() -> Vec<Sample> {
    let (one_pair, largest) = (|layers| make::outcomes(64, 256, layers), make::largest);
    vec![
        (
            "256 rules for one pair",
            one_pair(1).bytes(),
            "accepted 64 256 1 6 1000000 63",
        ),
        (
            "256 rules for one pair in 16 layers",
            one_pair(16).bytes(),
            "accepted 64 256 16 6 16000000 63",
        ),
        (
            "256 rules for one pair, the last equal to the first but for the layer",
            changed(one_pair(16), |d| d.rules[255].after = d.rules[0].after),
            "refused 7 255",
        ),
        (
            "before pair of rule 255",
            changed(largest(), |d| d.rules[255] = rule(d.rules[0].before, [1, 2], 0)),
            "accepted 64 256 16 2048 16000000 63",
        ),
        (
            "rules 254 and 255 equal",
            changed(largest(), |d| d.rules[255] = d.rules[254]),
            "refused 7 255",
        ),
    ]
}

/// Rules that share their marks. A checker that compares a rule only where its mark is set may take rule 0 for rule
/// 255, where they have one before pair.
fn shared_marks() -> Vec<Sample> {
    let line = "accepted 64 256 1 6 1000000 63";
    let (all, last) = (make::shared_marks, make::shared_marks().rules[255]);
    let [a, b] = last.after;
    let first = |after| changed(all(), |d| d.rules[0] = Rule { after, ..last });
    let equal = |other: usize| changed(all(), |d| d.rules[255] = d.rules[other]);
    vec![
        ("shared marks", all().bytes(), line),
        ("shared marks, rules 0 and 255 equal but for q'", first([a, a]), line),
        ("shared marks, rules 0 and 255 equal but for p'", first([1, b]), line),
        ("shared marks, rules 0 and 255 of one pair", first([1, 1]), line),
        ("shared marks, rules 1 and 255 equal", equal(1), "refused 7 255"),
        ("shared marks, rules 254 and 255 equal", equal(254), "refused 7 255"),
    ]
}

/// Calls and their answers.
pub fn calls() -> Vec<CallSample> {
    let mut all = meetings();
    all.extend(same_counts());
    all
}

/// A step makes the outcome of its rule, and a run that of the lowest number in the lowest layer.
fn meetings() -> Vec<CallSample> {
    let step = |name, docket: &Docket, counts: &[u32], rule, after: &[u32]| {
        CallSample::new(name, &docket.bytes(), counts, Call::Step(rule), Ok(vec![]), after)
    };
    let run = |name, docket: &Docket, counts: &[u32], after: &[u32]| {
        let (call, said) = (Call::Run(u32::MAX), Ok(vec![1, 1]));
        CallSample::new(name, &docket.bytes(), counts, call, said, after)
    };
    let (two, many) = (make::two_outcomes(), make::outcomes(64, 256, 16));
    let first_higher = table("0 1 1 1 1; 0 1 1 2 0; 0 2 1 2 0");
    let both_higher = table("0 1 1 1 1; 0 1 1 2 1; 0 2 1 2 0");
    let (met, first, second) = ([1, 1, 0], [0, 2, 0], [0, 1, 1]);
    let [many_met, last, lowest] = [[62, 63], [3, 23], [10, 22]].map(two_workers);
    vec![
        step("step by rule 0 of a pair", &two, &met, 0, &first),
        step("step by rule 1 of a pair", &two, &met, 1, &second),
        step("step by rule 0 in layer 1", &first_higher, &met, 0, &first),
        step("step by rule 255 of a pair", &many, &many_met, 255, &last),
        run("run by rule 0 of a pair", &two, &met, &first),
        run("run by rule 1, rule 0 in layer 1", &first_higher, &met, &second),
        run("run by rule 0, both in layer 1", &both_higher, &met, &first),
        run("run by rule 240 of a pair in 16 layers", &many, &many_met, &lowest),
    ]
}

/// One worker in each of two states of 64.
fn two_workers(states: [usize; 2]) -> Vec<u32> {
    (0..64).map(|state| u32::from(states.contains(&state))).collect()
}

fn same_counts() -> Vec<CallSample> {
    let two = make::two_outcomes().bytes();
    let equal = table("0 1 1 1 0; 0 1 1 1 0; 0 2 1 2 0").bytes();
    let (met, apart, same) = ([1, 1, 0], [2, 0, 0], CallSample::same);
    vec![
        same("rule 1 of a pair can act", &two, &met, Call::CanAct(1), Ok(vec![1])),
        same("rule 1 of a pair cannot", &two, &apart, Call::Step(1), Err((24, 1))),
        same("step, equal rules", &equal, &met, Call::Step(0), Err((7, 1))),
    ]
}
