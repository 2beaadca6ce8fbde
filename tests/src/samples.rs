//! Inputs with the answers that document 01 gives them: its samples, and every limit at its edge.

use crate::calls::Call;
use crate::make::{self, node};
use second::{Docket, Leaf, Node};

/// A name, a docket's bytes and the line that the check's program prints.
pub type Sample = (&'static str, Vec<u8>, &'static str);

/// A name, a docket's bytes, counts, a call, the refusal or the answers, and the counts afterwards.
pub struct CallSample {
    pub name: &'static str,
    pub docket: Vec<u8>,
    pub counts: Vec<u32>,
    pub call: Call,
    pub said: Answer,
    pub after: Vec<u32>,
}

type Answer = Result<Vec<u64>, (u32, u32)>;

impl CallSample {
    pub fn new(
        name: &'static str,
        docket: &[u8],
        counts: &[u32],
        call: Call,
        said: Answer,
        after: &[u32],
    ) -> CallSample {
        CallSample {
            name,
            docket: docket.to_vec(),
            counts: counts.to_vec(),
            call,
            said,
            after: after.to_vec(),
        }
    }

    /// A call that leaves the counts as they are.
    pub fn same(name: &'static str, docket: &[u8], counts: &[u32], call: Call, said: Answer) -> CallSample {
        CallSample::new(name, docket, counts, call, said, counts)
    }
}

/// The bytes of a docket after a change.
pub fn changed(mut docket: Docket, change: impl FnOnce(&mut Docket)) -> Vec<u8> {
    change(&mut docket);
    docket.bytes()
}

/// P1 to P7 and P10 of document 01.
pub fn published() -> Vec<Sample> {
    let broadcast = make::broadcast;
    let whole = broadcast().bytes();
    vec![
        ("P1", whole.clone(), "accepted 2 1 1 5 1 1"),
        ("P2", whole[..98].to_vec(), "refused 1 0"),
        ("P3", changed(broadcast(), |d| d.weights[0] = vec![0, 0]), "refused 9 0"),
        (
            "P4",
            changed(broadcast(), |d| d.nodes[2].set = make::set_node(5, 1, 2..3).set),
            "refused 12 2",
        ),
        (
            "P5",
            changed(broadcast(), |d| d.nodes[2].set = make::set_node(5, 1, 0..1).set),
            "refused 13 2",
        ),
        (
            "P6",
            changed(broadcast(), |d| d.nodes.truncate(d.nodes.len() - 1)),
            "refused 12 4",
        ),
        (
            "P7",
            changed(broadcast(), |d| d.nodes.push(node(1, 2, 0))),
            "refused 12 5",
        ),
        ("P10", changed(make::majority(), exchange_layers), "refused 10 0"),
    ]
}

fn exchange_layers(docket: &mut Docket) {
    docket.nodes.push(node(1, 1, 0));
    docket.weights.swap(0, 1);
    docket.rules.iter_mut().for_each(|rule| rule.layer = 1 - rule.layer);
}

/// A tree with a leaf that weighs -10,000 for every state at both ends. State 0 is present at the start, -20,000 for the
/// upper sum, and state 1 absent at both ends; `first` and `last` stand around the nodes that say the latter.
fn both_ends(first: Vec<Node>, last: Vec<Node>) -> Vec<u8> {
    let weights = vec![-10_000; 2];
    let closed = node(1, 1, 0);
    changed(make::deep(1), |d| {
        d.leaves.push(Leaf {
            y1: weights.clone(),
            y2: weights,
        });
        d.nodes = vec![node(4, 0, 0), closed];
        d.nodes.extend(first);
        d.nodes
            .extend([node(4, 1, 1), node(4, 2, 1), node(0, 0, 0), closed, closed]);
        d.nodes.extend(last);
    })
}

/// Every limit of the format at its edge, on both sides.
pub fn edges() -> Vec<Sample> {
    let (still, largest, broadcast) = (make::still, make::largest, make::broadcast);
    let leaf = |y: i64| Leaf {
        y1: vec![0, 0],
        y2: vec![0, y],
    };
    vec![
        ("1 state", still(1).bytes(), "refused 3 0"),
        ("2 states, no rule", still(2).bytes(), "accepted 2 0 0 1 0 0"),
        ("64 states", still(64).bytes(), "accepted 64 0 0 1 0 0"),
        ("65 states", still(65).bytes(), "refused 3 0"),
        (
            "every count at its limit",
            largest().bytes(),
            "accepted 64 256 16 2048 16000000 63",
        ),
        (
            "257 rules",
            changed(largest(), |d| d.rules.push(d.rules[0])),
            "refused 3 1",
        ),
        (
            "17 layers",
            changed(largest(), |d| d.weights.push(vec![0; 64])),
            "refused 3 2",
        ),
        (
            "rules and no layer",
            changed(broadcast(), |d| d.weights.clear()),
            "refused 3 2",
        ),
        (
            "a layer and no rule",
            changed(broadcast(), |d| d.rules.clear()),
            "refused 3 2",
        ),
        (
            "257 rules, no layer",
            changed(broadcast(), too_many_rules),
            "refused 3 1",
        ),
        ("no node", changed(broadcast(), |d| d.nodes.clear()), "refused 3 3"),
        (
            "2,049 nodes",
            changed(largest(), |d| d.nodes.push(node(1, 2, 0))),
            "refused 3 3",
        ),
        (
            "129 leaves",
            changed(largest(), |d| d.leaves.push(d.leaves[0].clone())),
            "refused 3 4",
        ),
        (
            "no input",
            changed(broadcast(), |d| d.states.iter_mut().for_each(|s| s.input = false)),
            "refused 5 2",
        ),
        (
            "bit 2 of a state",
            changed(broadcast(), |d| d.states[1].verdict = 5),
            "refused 5 1",
        ),
        (
            "weight 1,000,000",
            changed(broadcast(), |d| d.weights[0][0] = 1_000_000),
            "accepted 2 1 1 5 1000000 1",
        ),
        (
            "weight 1,000,001",
            changed(broadcast(), |d| d.weights[0][0] = 1_000_001),
            "refused 8 0",
        ),
        (
            "leaf weight 10,000",
            changed(broadcast(), |d| d.leaves.push(leaf(10_000))),
            "accepted 2 1 1 5 1 1",
        ),
        (
            "leaf weight 10,001",
            changed(broadcast(), |d| d.leaves.push(leaf(10_001))),
            "refused 11 0",
        ),
        (
            "leaf weight -10,000",
            changed(broadcast(), |d| d.leaves.push(leaf(-10_000))),
            "accepted 2 1 1 5 1 1",
        ),
        (
            "leaf weight -10,001",
            changed(broadcast(), |d| d.leaves.push(leaf(-10_001))),
            "refused 11 0",
        ),
        (
            "leaf weights -10,000 at both ends, at most one worker at each",
            both_ends(vec![node(3, 1, 0), node(3, 2, 0)], vec![]),
            "refused 13 6",
        ),
        (
            "leaf weights -10,000 at both ends, no worker at end 1",
            both_ends(vec![node(3, 2, 0), node(4, 1, 0)], vec![node(1, 1, 0)]),
            "accepted 2 1 1 10 1 0",
        ),
        ("depth 40", make::deep(40).bytes(), "accepted 2 1 1 40 1 0"),
        ("depth 41", make::deep(41).bytes(), "refused 12 40"),
        (
            "nodes run out at depth 41",
            changed(make::deep(41), |d| d.nodes.truncate(d.nodes.len() - 1)),
            "refused 12 40",
        ),
        (
            "set with state 63",
            make::relay(64, 2048).bytes(),
            "accepted 64 63 1 2048 63 63",
        ),
        (
            "60 states, 2,048 nodes",
            make::relay(60, 2048).bytes(),
            "accepted 60 59 1 2048 59 59",
        ),
        (
            "state 63",
            changed(largest(), |d| d.states[63].verdict = 5),
            "refused 5 63",
        ),
        (
            "layer of rule 255",
            changed(largest(), |d| d.rules[255].layer = 16),
            "refused 6 255",
        ),
        (
            "rule 255 equal to rule 0",
            changed(largest(), |d| d.rules[255] = d.rules[0]),
            "refused 7 255",
        ),
        (
            "lowering of rule 255",
            changed(largest(), |d| d.rules[255].after = [63, 63]),
            "refused 9 255",
        ),
        (
            "weight of leaf 127",
            changed(largest(), |d| d.leaves[127].y2[63] = 10_001),
            "refused 11 127",
        ),
        (
            "field of node 2,047",
            changed(largest(), |d| d.nodes[2047].kind = 9),
            "refused 12 2047",
        ),
        (
            "ground of node 2,047",
            changed(largest(), |d| d.nodes[2047].party = 1),
            "refused 13 2047",
        ),
        ("no byte", vec![], "refused 1 0"),
        ("23 bytes", broadcast().bytes()[..23].to_vec(), "refused 1 0"),
        ("65,536 bytes more", longer(broadcast().bytes(), 65_536), "refused 1 0"),
    ]
}

fn too_many_rules(docket: &mut Docket) {
    docket.rules = vec![docket.rules[0]; 257];
    docket.weights.clear();
}

fn longer(mut bytes: Vec<u8>, more: usize) -> Vec<u8> {
    bytes.extend(vec![0; more]);
    bytes
}

/// The samples of document 01 that a machine call answers, and the limits of a group.
pub fn calls() -> Vec<CallSample> {
    let broadcast = make::broadcast().bytes();
    let majority = changed(make::majority(), |d| d.nodes.push(node(1, 1, 0)));
    let own_kind = make::deep(2).bytes();
    let (sample, same) = (CallSample::new, CallSample::same);
    let most = u32::MAX;
    vec![
        sample(
            "P8 run",
            &majority,
            &[2, 1, 0, 0],
            Call::Run(most),
            Ok(vec![2, 1]),
            &[1, 0, 2, 0],
        ),
        same("P8 verdict", &majority, &[1, 0, 2, 0], Call::Verdict, Ok(vec![0])),
        sample(
            "P9 run",
            &majority,
            &[1, 1, 0, 0],
            Call::Run(most),
            Ok(vec![2, 1]),
            &[0, 0, 0, 2],
        ),
        same("P9 verdict", &majority, &[0, 0, 0, 2], Call::Verdict, Ok(vec![1])),
        same("own kind acts on 2 0", &own_kind, &[2, 0], Call::CanAct(0), Ok(vec![1])),
        same(
            "own kind does not act on 1 1",
            &own_kind,
            &[1, 1],
            Call::CanAct(0),
            Ok(vec![0]),
        ),
        sample(
            "own kind steps on 2 0",
            &own_kind,
            &[2, 0],
            Call::Step(0),
            Ok(vec![]),
            &[1, 1],
        ),
        same(
            "own kind does not step on 1 1",
            &own_kind,
            &[1, 1],
            Call::Step(0),
            Err((24, 0)),
        ),
        same("1 0 is too few", &broadcast, &[1, 0], Call::StartTest, Err((21, 0))),
        same("1 1 passes", &broadcast, &[1, 1], Call::StartTest, Ok(vec![])),
        same(
            "1,000,000 0 passes",
            &broadcast,
            &[1_000_000, 0],
            Call::StartTest,
            Ok(vec![]),
        ),
        same(
            "1,000,000 1 is too many",
            &broadcast,
            &[1_000_000, 1],
            Call::StartTest,
            Err((21, 0)),
        ),
        same(
            "a size that would wrap",
            &broadcast,
            &[most, 3],
            Call::Run(1),
            Err((21, 0)),
        ),
        same("a run of limit 0", &broadcast, &[1, 1], Call::Run(0), Ok(vec![0, 0])),
        same(
            "a run of limit 0 at rest",
            &broadcast,
            &[0, 2],
            Call::Run(0),
            Ok(vec![0, 1]),
        ),
        sample(
            "a run that ends at its limit",
            &broadcast,
            &[1, 1],
            Call::Run(1),
            Ok(vec![1, 1]),
            &[0, 2],
        ),
        same("a mixed group", &broadcast, &[1, 1], Call::Verdict, Ok(vec![2])),
        same("a standstill", &broadcast, &[0, 2], Call::IsStandstill, Ok(vec![1])),
        same("no standstill", &broadcast, &[1, 1], Call::IsStandstill, Ok(vec![0])),
        same("counts too short", &broadcast, &[1], Call::Verdict, Err((20, 0))),
        same("counts too long", &broadcast, &[1, 1, 0], Call::Verdict, Err((20, 0))),
        same(
            "no input state",
            &majority,
            &[1, 1, 0, 1],
            Call::StartTest,
            Err((22, 3)),
        ),
        same(
            "no input state, the last of 64",
            &make::last_no_input().bytes(),
            &[[1; 32], [1; 32]].concat(),
            Call::StartTest,
            Err((22, 63)),
        ),
        same("rule number R", &broadcast, &[1, 1], Call::Step(1), Err((23, 1))),
        same(
            "the greatest rule number",
            &broadcast,
            &[1, 1],
            Call::CanAct(most),
            Err((23, most)),
        ),
        same(
            "rule 255 cannot act",
            &make::largest().bytes(),
            &[vec![2], vec![0; 63]].concat(),
            Call::Step(255),
            Err((24, 255)),
        ),
        same(
            "a refused docket",
            &broadcast[..98],
            &[1, 1],
            Call::Step(0),
            Err((1, 0)),
        ),
    ]
}
