//! The order of the rules in version 2, and samples of test 14.

use crate::calls::Call;
use crate::make::{self, fixed::with_fixed, node};
use crate::outcomes::with_rules;
use crate::remainders::row;
use crate::samples::{changed, CallSample, Sample};
use second::{Docket, Leaf, Rule};

/// What the record of a rule is ordered by: the layer, then p, q, p' and q'.
pub fn key(record: &[u8]) -> [u8; 5] {
    [4, 0, 1, 2, 3].map(|at| record[at])
}

/// The first of these records of rules that does not stand after the one before it.
pub fn out_of_order(rules: &[u8]) -> Option<usize> {
    let keys: Vec<[u8; 5]> = rules.chunks(5).map(key).collect();
    keys.windows(2)
        .position(|two| two[0] >= two[1])
        .map(|earlier| earlier + 1)
}

/// A name, rules (p, q, p', q', layer), and the line of their table in version 1 and in version 2.
const TABLES: &str = "\
by the layer, p falls | 1 1 2 2 0; 0 3 2 3 1 | accepted 4 2 2 1 6 0 | accepted 4 2 2 1 6 0
by p, q falls | 0 3 2 3 0; 1 1 2 2 0 | accepted 4 2 1 1 3 0 | accepted 4 2 1 1 3 0
by q, p' falls | 0 1 2 3 0; 0 2 1 3 0 | accepted 4 2 1 1 3 0 | accepted 4 2 1 1 3 0
by p', q' falls | 0 1 1 3 0; 0 1 2 2 0 | accepted 4 2 1 1 3 0 | accepted 4 2 1 1 3 0
by q' | 0 1 2 2 0; 0 1 2 3 0 | accepted 4 2 1 1 3 0 | accepted 4 2 1 1 3 0
not by the layer, p rises | 0 3 2 3 1; 1 1 2 2 0 | accepted 4 2 2 1 6 0 | refused 14 1
not by p, q rises | 1 1 2 2 0; 0 3 2 3 0 | accepted 4 2 1 1 3 0 | refused 14 1
not by q, p' rises | 0 2 1 3 0; 0 1 2 3 0 | accepted 4 2 1 1 3 0 | refused 14 1
not by p', q' rises | 0 1 2 2 0; 0 1 1 3 0 | accepted 4 2 1 1 3 0 | refused 14 1
not by q' | 0 1 2 3 0; 0 1 2 2 0 | accepted 4 2 1 1 3 0 | refused 14 1
five rules in order | 0 1 1 3 0; 0 1 2 2 0; 0 1 2 3 0; 0 2 1 3 0; 1 1 2 2 0 | accepted 4 5 1 1 3 0 | accepted 4 5 1 1 3 0
the first two exchanged | 0 1 2 2 0; 0 1 1 3 0; 0 1 2 3 0; 0 2 1 3 0; 1 1 2 2 0 | accepted 4 5 1 1 3 0 | refused 14 1
two in the middle exchanged | 0 1 1 3 0; 0 1 2 3 0; 0 1 2 2 0; 0 2 1 3 0; 1 1 2 2 0 | accepted 4 5 1 1 3 0 | refused 14 2
the last two exchanged | 0 1 1 3 0; 0 1 2 2 0; 0 1 2 3 0; 1 1 2 2 0; 0 2 1 3 0 | accepted 4 5 1 1 3 0 | refused 14 4
first and last exchanged | 1 1 2 2 0; 0 1 2 2 0; 0 1 2 3 0; 0 2 1 3 0; 0 1 1 3 0 | accepted 4 5 1 1 3 0 | refused 14 1
rules 1 and 3 exchanged | 0 1 1 3 0; 0 2 1 3 0; 0 1 2 3 0; 0 1 2 2 0; 1 1 2 2 0 | accepted 4 5 1 1 3 0 | refused 14 2
the first moved to the end | 0 1 2 2 0; 0 1 2 3 0; 0 2 1 3 0; 1 1 2 2 0; 0 1 1 3 0 | accepted 4 5 1 1 3 0 | refused 14 4
the last moved to the front | 1 1 2 2 0; 0 1 1 3 0; 0 1 2 2 0; 0 1 2 3 0; 0 2 1 3 0 | accepted 4 5 1 1 3 0 | refused 14 1
all the other way round | 1 1 2 2 0; 0 2 1 3 0; 0 1 2 3 0; 0 1 2 2 0; 0 1 1 3 0 | accepted 4 5 1 1 3 0 | refused 14 1
two layers in order | 0 1 1 3 0; 0 1 2 3 0; 0 1 2 2 1 | accepted 4 3 2 1 6 0 | accepted 4 3 2 1 6 0
a rule moved to the higher layer | 0 1 1 3 0; 0 1 2 2 1; 0 1 2 3 0 | accepted 4 3 2 1 6 0 | refused 14 2
a rule moved to the lower layer | 0 1 1 3 1; 0 1 2 2 0; 0 1 2 3 1 | accepted 4 3 2 1 6 0 | refused 14 1
layers in order, the rules of the last not | 0 1 1 3 0; 0 1 2 3 1; 0 1 2 2 1 | accepted 4 3 2 1 6 0 | refused 14 2
an equal rule next to its double | 0 1 1 3 0; 0 1 1 3 0; 0 1 2 2 0 | refused 7 1 | refused 7 1
an equal rule next to its double, in a higher layer | 0 1 1 3 0; 0 1 1 3 1 | refused 7 1 | refused 7 1
an equal rule next to its double, in a lower layer | 0 1 1 3 1; 0 1 1 3 0 | refused 7 1 | refused 7 1
an equal rule in order by its layer | 0 1 1 3 0; 0 1 2 2 0; 0 1 1 3 1 | refused 7 2 | refused 7 2
an equal rule, not in order | 0 1 1 3 0; 0 1 2 2 0; 0 1 1 3 0 | refused 7 2 | refused 7 2
test 7 behind test 14 | 0 2 1 3 0; 0 1 1 3 0; 0 1 2 2 0; 0 1 2 2 0 | refused 7 3 | refused 7 3
test 7 in front of test 14 | 0 1 1 3 0; 0 1 1 3 1; 0 2 1 3 0 | refused 7 1 | refused 7 1
test 6 behind test 14 | 0 2 1 3 0; 0 1 1 3 0; 0 3 0 3 0 | refused 6 2 | refused 6 2
test 6 in front of test 14 | 0 1 0 1 0; 0 2 1 3 0; 0 1 1 3 0 | refused 6 0 | refused 6 0
test 6 at the place of test 14 | 0 2 1 3 0; 0 1 0 1 0 | refused 6 1 | refused 6 1
test 6 at the place before that of test 14 | 0 4 1 3 0; 0 1 1 3 0 | refused 6 0 | refused 6 0
tests 6, 7, 14 and 8 | 0 2 1 3 1; 0 1 1 3 1; 0 1 1 3 1; 0 1 0 1 1 | refused 6 3 | refused 6 3
tests 7, 14 and 8 | 0 2 1 3 1; 0 1 1 3 1; 0 1 1 3 1 | refused 7 2 | refused 7 2
tests 14 and 8, layer 0 has no rule | 0 2 1 3 1; 0 1 1 3 1 | refused 8 0 | refused 14 1
test 8 alone | 0 1 1 3 1; 0 2 1 3 1 | refused 8 0 | refused 8 0
tests 14 and 9 | 0 2 1 3 0; 0 1 0 0 0 | refused 9 1 | refused 14 1
test 9 in order | 0 1 0 0 0; 0 2 1 3 0 | refused 9 0 | refused 9 0
tests 14 and 10 | 1 2 2 3 0; 0 3 1 3 1; 0 2 1 2 1 | refused 10 1 | refused 14 2
test 10 in order | 1 2 2 3 0; 0 2 1 2 1; 0 3 1 3 1 | refused 10 1 | refused 10 1
";

/// A table of four states of verdict 0, so that a tree of one node closes; the weights of every layer fall from state to
/// state.
fn table(version: u32, rules: &str) -> Docket {
    let docket = with_rules(make::still(4), rules, vec![3, 2, 1, 0]);
    Docket { version, ..docket }
}

/// Rules in order, and the same exchanged.
const IN_ORDER: &str = "0 1 1 3 0; 0 2 1 3 0";
const EXCHANGED: &str = "0 2 1 3 0; 0 1 1 3 0";

/// Dockets and their lines.
pub fn lines() -> Vec<Sample> {
    let rows = TABLES.lines().flat_map(|text| {
        let [name, rules, first, second] = row(text);
        [(1, first), (2, second)].map(|(version, line)| (name, table(version, rules).bytes(), line))
    });
    rows.chain(other_tests()).chain(many_rules()).collect()
}

/// The docket after a change, in both versions, with both lines.
fn in_both(
    name: &'static str,
    docket: &Docket,
    change: impl Fn(&mut Docket),
    [first, second]: [&'static str; 2],
) -> [Sample; 2] {
    [(1, first), (2, second)].map(|(version, line)| {
        let bytes = changed(docket.clone(), |d| {
            d.version = version;
            change(d);
        });
        (name, bytes, line)
    })
}

/// A name, a change of a table, and its line afterwards.
type Change = (&'static str, fn(&mut Docket), &'static str);

/// Changes of a table with its rules exchanged, which a test before 14 then refuses; with the line of both versions.
const EARLIER_TESTS: [Change; 4] = [
    ("test 14 and no node", |d| d.nodes.clear(), "refused 3 3"),
    ("tests 14 and 5", |d| d.states[3].verdict = 4, "refused 5 3"),
    ("tests 14 and 6, a layer", |d| d.rules[0].layer = 1, "refused 6 0"),
    ("test 6, a layer in order", |d| d.rules[1].layer = 1, "refused 6 1"),
];

/// Changes of the same table, which in version 1 a test behind 14 then refuses; with the line of that version.
const LATER_TESTS: [Change; 5] = [
    (
        "tests 14 and 8, a weight",
        |d| d.weights[0][3] = 1_000_001,
        "refused 8 0",
    ),
    (
        "tests 14 and 8, a layer more",
        |d| d.weights.push(vec![0; 4]),
        "refused 8 1",
    ),
    ("tests 14 and 11", heavy_leaf, "refused 11 0"),
    ("tests 14 and 12", |d| d.nodes.push(node(1, 2, 0)), "refused 12 1"),
    ("tests 14 and 13", |d| d.nodes[0].party = 1, "refused 13 0"),
];

fn heavy_leaf(docket: &mut Docket) {
    let (y1, y2) = (vec![0; 4], vec![0, 0, 0, 10_001]);
    docket.leaves.push(Leaf { y1, y2 });
}

/// Two rules exchanged, and another fault.
fn other_tests() -> Vec<Sample> {
    let docket = table(1, EXCHANGED);
    let earlier = EARLIER_TESTS.map(|(name, change, line)| in_both(name, &docket, change, [line, line]));
    let later = LATER_TESTS.map(|(name, change, line)| in_both(name, &docket, change, [line, "refused 14 1"]));
    [earlier.concat(), later.concat()].concat()
}

/// A name, changes of 256 rules in order, and the line of their table in version 1 and in version 2.
const MANY_RULES: &str = "\
rules 0 and 1 of 256 exchanged | exchange 0 1 | accepted 64 256 16 6 16000000 63 | refused 14 1
rules 15 and 16 of 256 exchanged, two layers | exchange 15 16 | accepted 64 256 16 6 16000000 63 | refused 14 16
rules 127 and 128 of 256 exchanged | exchange 127 128 | accepted 64 256 16 6 16000000 63 | refused 14 128
rules 254 and 255 of 256 exchanged | exchange 254 255 | accepted 64 256 16 6 16000000 63 | refused 14 255
rules 0 and 255 of 256 exchanged | exchange 0 255 | accepted 64 256 16 6 16000000 63 | refused 14 1
rules 100 and 200 of 256 exchanged | exchange 100 200 | accepted 64 256 16 6 16000000 63 | refused 14 101
the first of 256 rules moved to the end | move 0 255 | accepted 64 256 16 6 16000000 63 | refused 14 255
the last of 256 rules moved to the front | move 255 0 | accepted 64 256 16 6 16000000 63 | refused 14 1
256 rules the other way round | reverse 0 255 | accepted 64 256 16 6 16000000 63 | refused 14 1
rules 254 and 255 of 256 equal | copy 254 255 | refused 7 255 | refused 7 255
rules 0 and 1 of 256 exchanged, rules 254 and 255 equal | exchange 0 1; copy 254 255 | refused 7 255 | refused 7 255
";

/// Changes rules by a text such as `exchange 0 1`.
fn change_rules(rules: &mut Vec<Rule>, text: &str) {
    let words: Vec<&str> = text.split_whitespace().collect();
    let [from, to] = [1, 2].map(|at| words[at].parse().expect("the number of a rule"));
    match words[0] {
        "exchange" => rules.swap(from, to),
        "move" => {
            let rule = rules.remove(from);
            rules.insert(to, rule);
        }
        "reverse" => rules[from..=to].reverse(),
        "copy" => rules[to] = rules[from],
        _ => panic!("no change: {text}"),
    }
}

/// 256 rules in 16 layers, of which every one has its own before pair, or all have one: in order and out of it.
fn many_rules() -> Vec<Sample> {
    let tables = [make::layered(64, 256, 16, 6, 1), make::outcomes(64, 256, 16)];
    let mut all = vec![];
    for docket in tables.map(|docket| with_fixed(docket, &[])) {
        let line = "accepted 64 256 16 6 16000000 63";
        all.extend(in_both("256 rules in order", &docket, |_| {}, [line; 2]));
        for text in MANY_RULES.lines() {
            let [name, changes, first, second] = row(text);
            let change = |d: &mut Docket| changes.split(';').for_each(|text| change_rules(&mut d.rules, text));
            all.extend(in_both(name, &docket, change, [first, second]));
        }
    }
    all
}

/// Calls and their answers.
pub fn calls() -> Vec<CallSample> {
    let mut all = refused();
    all.extend(answered());
    all
}

/// Every call on rules out of order in version 2 is refused, also where tests 20 to 24 would refuse it.
fn refused() -> Vec<CallSample> {
    let docket = table(2, EXCHANGED).bytes();
    let call = |name, counts: &[u32], call| CallSample::same(name, &docket, counts, call, Err((14, 1)));
    let group = [1, 1, 1, 0];
    let last = changed(with_fixed(make::outcomes(64, 256, 16), &[]), |d| d.rules.swap(254, 255));
    vec![
        call("start test, test 14", &group, Call::StartTest),
        call("can act, test 14", &group, Call::CanAct(0)),
        call("can act of the rule that test 14 names", &group, Call::CanAct(1)),
        call("standstill, test 14", &group, Call::IsStandstill),
        call("verdict, test 14", &group, Call::Verdict),
        call("step, test 14", &group, Call::Step(0)),
        call("run, test 14", &group, Call::Run(9)),
        call("a run of limit 0, test 14", &group, Call::Run(0)),
        call("start test, tests 14 and 20", &[1, 1, 1], Call::StartTest),
        call("verdict, tests 14 and 20", &[], Call::Verdict),
        call("start test, tests 14 and 21", &[0; 4], Call::StartTest),
        call("run, tests 14 and 21", &[u32::MAX; 4], Call::Run(1)),
        call("standstill, tests 14 and 21", &[1, 0, 0, 0], Call::IsStandstill),
        call("can act, tests 14 and 23", &group, Call::CanAct(2)),
        call("step, tests 14 and 23", &group, Call::Step(u32::MAX)),
        call("step, tests 14 and 24", &[0, 0, 0, 2], Call::Step(1)),
        CallSample::same(
            "start test, tests 14 and 22",
            &changed(table(2, EXCHANGED), |d| d.states[3].input = false),
            &[1, 1, 0, 1],
            Call::StartTest,
            Err((14, 1)),
        ),
        CallSample::same(
            "step, test 14 at rule 255",
            &last,
            &[vec![2], vec![0; 63]].concat(),
            Call::Step(0),
            Err((14, 255)),
        ),
    ]
}

/// The same rules exchanged in version 1 and in order in version 2: a run uses the lowest rule number in either.
fn answered() -> Vec<CallSample> {
    let [old, new] = [table(1, EXCHANGED), table(2, IN_ORDER)].map(|docket| docket.bytes());
    let group = [1, 1, 1, 0];
    let (first, second) = ([0, 1, 1, 1], [0, 2, 0, 1]);
    let run =
        |name, docket: &[u8], after: &[u32]| CallSample::new(name, docket, &group, Call::Run(9), Ok(vec![1, 1]), after);
    let step = |name, docket: &[u8], rule, after: &[u32]| {
        CallSample::new(name, docket, &group, Call::Step(rule), Ok(vec![]), after)
    };
    vec![
        run("run, out of order in version 1", &old, &second),
        run("run, in order in version 2", &new, &first),
        step("step by rule 1, out of order in version 1", &old, 1, &first),
        step("step by rule 1, in order in version 2", &new, 1, &second),
        CallSample::same(
            "start test, out of order in version 1",
            &old,
            &group,
            Call::StartTest,
            Ok(vec![]),
        ),
    ]
}

#[cfg(test)]
mod tests {
    use super::*;

    /// Sorted records are those of a sorted docket, and the first that is out of order is the one that test 14 names.
    #[test]
    fn records_have_an_order() {
        for text in TABLES.lines() {
            let [name, rules, _, _] = row(text);
            let bytes = table(2, rules).bytes();
            let (_, [_, records, ..]) = second::sections(&bytes).expect("its sections");
            let mut sorted: Vec<&[u8]> = records.chunks(5).collect();
            sorted.sort_by_key(|record| key(record));
            let docket = with_fixed(table(1, rules), &[]).bytes();
            let (_, [_, expected, ..]) = second::sections(&docket).expect("its sections");
            assert_eq!(sorted.concat(), expected, "{name}");
            match second::parse(&bytes).map_err(|refusal| (refusal.number, refusal.place as usize)) {
                Err((14, place)) => assert_eq!(out_of_order(records), Some(place), "{name}"),
                Err(_) => {}
                Ok(_) => assert_eq!(out_of_order(records), None, "{name}"),
            }
        }
    }
}
