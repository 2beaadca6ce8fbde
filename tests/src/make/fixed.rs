//! Families of accepted dockets of version 2 with fixed agents. Without them each is refused, but for some of `sum`.

use super::remainder::{alone, table, told_by, which_value};
use super::{layer_from_top, node, pairs, remainder_node, rising_weights, rule, set_node, sort_rules, split, state};
use second::{Docket, Leaf, Node};

/// The docket in version 2, its rules in order, with these numbers of fixed agents for its first states.
pub fn with_fixed(mut docket: Docket, fixed: &[i64]) -> Docket {
    docket.version = 2;
    sort_rules(&mut docket);
    for (state, &fixed) in docket.states.iter_mut().zip(fixed) {
        state.fixed = fixed;
    }
    docket
}

/// The fixed agents of state 1, which is an input or not, draw all others there. A trap would leave them none at the
/// start.
pub fn broadcast(input: bool, fixed: i64) -> Docket {
    let docket = Docket {
        version: 2,
        states: vec![state(0, true), state(1, input)],
        rules: vec![rule([0, 1], [1, 1], 0)],
        weights: vec![vec![1, 0]],
        nodes: vec![node(3, 1, 0), node(1, 1, 0), set_node(5, 1, 1..2), node(2, 0, 1)],
        leaves: vec![],
    };
    with_fixed(docket, &[0, fixed])
}

/// Document 01's majority between fixed agents, `a` in A and `b` in B; a and b alone are inputs. There are more agents
/// in A, and the output is 0, or not, and it is 1; at least one number is not 0.
pub fn majority(a: i64, b: i64) -> Docket {
    let mut docket = with_fixed(super::majority(), &[a, b]);
    for (i, state) in docket.states.iter_mut().enumerate() {
        state.input = i >= 2;
    }
    let mut weights = [vec![0; 4], vec![0; 4]];
    if a > b {
        docket.nodes = more_in_a();
        weights[1][..2].copy_from_slice(&[-1, 1]);
    } else {
        docket.nodes = no_more_in_a();
        weights[0][..2].copy_from_slice(&[1, -1]);
    }
    let [y1, y2] = weights;
    docket.leaves.push(Leaf { y1, y2 });
    docket
}

/// A leaf refutes that A is absent at end 2. Else B and b are absent there.
fn more_in_a() -> Vec<Node> {
    vec![
        node(4, 2, 0),
        node(0, 0, 0),
        node(3, 2, 0),
        node(2, 2, 0),
        node(3, 2, 1),
        node(2, 2, 0),
        node(1, 2, 0),
    ]
}

/// A leaf refutes that A is present at end 1, where B is absent then. Else a is absent there, or all states but a, which
/// form a trap.
fn no_more_in_a() -> Vec<Node> {
    let mut trap = set_node(5, 1, 0..2);
    trap.set[3] = true;
    vec![
        node(4, 1, 0),
        node(3, 1, 2),
        node(3, 1, 3),
        node(1, 1, 0),
        trap,
        node(2, 0, 1),
        node(1, 1, 0),
        node(3, 1, 0),
        node(2, 1, 0),
        node(0, 0, 0),
    ]
}

/// The table of sums modulo m, where value 0 alone is an input: `fixed` has the number of fixed agents of each value, of
/// which one but the first is not 0. So the sum is the same from every start; at one of the ends a node of kind 7
/// refutes each other value.
pub fn sum(m: usize, r: usize, fixed: &[i64]) -> Docket {
    let total: i64 = fixed.iter().zip(0..).map(|(fixed, value)| fixed * value).sum();
    let k = if total % m as i64 == r as i64 { 1 } else { 2 };
    let mut docket = table(m, r, &[0]);
    let values: Vec<usize> = (0..m).collect();
    docket.nodes = which_value(k, m, &values, &|value, later| {
        let told = (value == r) == (k == 1);
        let argument = if told {
            told_by(k, m, value)
        } else {
            vec![remainder_node(0, m as u64)]
        };
        alone(k, value, later, argument)
    });
    let Leaf { y1, y2 } = &mut docket.leaves[0];
    if k == 1 { y2 } else { y1 }.fill(0);
    with_fixed(docket, fixed)
}

/// Every count at its limit, and 1,000 fixed agents in each of 64 states.
pub fn largest() -> Docket {
    layered(256, 16, 2048, 128)
}

/// 64 states with 1,000 fixed agents each, of which the first alone is an input; no rule takes from it or puts into it.
/// All verdicts are 1, so kind 1 closes for party 1. The tree closes so, or by leaves, each of which weighs all states.
pub fn layered(rules: usize, layers: usize, nodes: usize, leaves: usize) -> Docket {
    let befores = pairs(2, 64).take(rules).enumerate();
    let docket = Docket {
        version: 2,
        states: (0..64).map(|i| state(1, i == 0)).collect(),
        rules: befores
            .map(|(r, before)| rule(before, [1, 1], layer_from_top(r, rules, layers)))
            .collect(),
        weights: rising_weights(64, layers),
        nodes: split(nodes, 8, 0, &|n, place| leaf_argument(n, place % leaves)),
        leaves: (0..leaves).map(all_states_leaf).collect(),
    };
    with_fixed(docket, &[1000; 64])
}

/// State 0 absent at end 1 is refuted by a leaf, all else by kind 1; in n nodes, 3 or more. Rule 0, as the rules are
/// before they are put in order, takes two agents from one state, so its node has one child.
fn leaf_argument(n: usize, leaf: usize) -> Vec<Node> {
    let mut nodes = vec![node(4, 1, 0)];
    nodes.extend((3..n).map(|_| node(3, 2, 0)));
    nodes.extend([node(0, 0, leaf), node(1, 1, 0)]);
    nodes
}

/// The weight of state 0 is near -10,000, which its fixed agents make less than all others together.
fn all_states_leaf(leaf: usize) -> Leaf {
    Leaf {
        y1: [leaf as i64 - 10_000].into_iter().chain(1..64).collect(),
        y2: vec![0; 64],
    }
}

#[cfg(test)]
mod tests {
    use super::*;
    use crate::random::Random;
    use second::Verdict;

    fn line(docket: &Docket) -> String {
        second::line(&docket.bytes())
    }

    /// It is accepted, and refused without its fixed agents.
    fn needs_them(docket: &Docket) {
        let states = docket.states.len();
        let without = with_fixed(docket.clone(), &vec![0; states]);
        assert!(line(docket).starts_with("accepted "), "{}", line(docket));
        assert!(line(&without).starts_with("refused 13 "), "{}", line(&without));
    }

    #[test]
    fn fixed_agents_are_needed() {
        for fixed in [1, 2, 255, 256, 257, 1000] {
            needs_them(&broadcast(true, fixed));
            needs_them(&broadcast(false, fixed));
            needs_them(&majority(fixed, fixed - 1));
            needs_them(&majority(fixed - 1, fixed));
            needs_them(&majority(fixed, fixed));
            needs_them(&sum(11, 0, &[0, fixed, 0, 5]));
            needs_them(&sum(11, (fixed as usize + 15) % 11, &[0, fixed, 0, 5]));
        }
        needs_them(&largest());
        assert_eq!(largest().bytes().len(), 62_936);
    }

    /// From every start a run rests on the verdict that the tree is made for.
    #[test]
    fn runs_rest_on_the_verdict() {
        let mut random = Random::new(10);
        let mut rests_on = |docket: Docket, verdict: Verdict| {
            for _ in 0..20 {
                let more = |input: bool, random: &mut Random| if input { random.below(9) as u32 } else { 0 };
                let states = docket.states.iter();
                let mut counts: Vec<u32> = states
                    .map(|state| state.fixed as u32 + more(state.input, &mut random))
                    .collect();
                counts[0] += u32::from(docket.states[0].input);
                let bytes = docket.bytes();
                if second::start_test(&bytes, &counts).is_ok() {
                    let ran = second::run(&bytes, &mut counts, u32::MAX);
                    assert!(ran.is_ok_and(|ran| ran.rests));
                    assert_eq!(second::verdict(&bytes, &counts), Ok(verdict));
                }
            }
        };
        rests_on(broadcast(false, 1), Verdict::One);
        for (a, b, verdict) in [(3, 2, Verdict::Zero), (2, 2, Verdict::One), (2, 3, Verdict::One)] {
            rests_on(majority(a, b), verdict);
        }
        for (r, verdict) in [(2, Verdict::Zero), (3, Verdict::One)] {
            rests_on(sum(5, r, &[2, 1, 0, 4]), verdict);
        }
    }

    /// With one fixed agent more, a docket is refused just where its sum is no longer r, or is r now.
    #[test]
    fn sums_need_their_numbers() {
        let mut random = Random::new(11);
        for m in 2..=18 {
            for r in 0..m {
                let mut fixed: Vec<i64> = (0..m).map(|_| random.below(4) as i64).collect();
                fixed[m - 1] += 1;
                let docket = sum(m, r, &fixed);
                assert!(line(&docket).starts_with("accepted "), "{m}, {r}, {fixed:?}");
                let mut other = docket.clone();
                other.states[1 + random.below(m - 1)].fixed += 1;
                let total = |docket: &Docket| {
                    let states = docket.states.iter().zip(0..m as i64);
                    states.map(|(state, value)| state.fixed * value).sum::<i64>() % m as i64
                };
                let refused = [total(&other), total(&docket)].contains(&(r as i64)) && total(&other) != total(&docket);
                assert_eq!(line(&other).starts_with("refused 13 "), refused, "{m}, {r}, {fixed:?}");
            }
        }
    }
}
