//! Changes to dockets: those that keep a docket accepted, and faults of every kind.

use crate::make::{bits, node, reorder_rules, rule, sort_rules};
use crate::random::Random;
use second::{Docket, Leaf, Node, Rule, State};

// ---- Changes that keep a docket accepted

/// The same protocol and certificate written in another way: without fixed agents in the other version, states and rules
/// numbered anew, weights raised, moduli multiplied, leaves that no node names. In version 2 the rules are in order, in
/// version 1 now and then.
pub fn rewritten(docket: &Docket, random: &mut Random) -> Docket {
    let mut other = docket.clone();
    if random.chance(1, 4) && docket.states.iter().all(|state| state.fixed == 0) {
        other.version = 3 - docket.version;
    }
    if random.chance(2, 3) {
        renumber_states(&mut other, &random_order(docket.states.len(), random));
    }
    if random.chance(2, 3) {
        reorder_rules(&mut other, &random_order(docket.rules.len(), random));
    }
    if random.chance(1, 2) {
        raise_weights(&mut other, random);
    }
    if random.chance(1, 2) {
        change_remainders(&mut other, random);
    }
    if random.chance(1, 4) {
        let count = random.below(129 - other.leaves.len().min(128));
        let weights = |random: &mut Random| {
            (0..docket.states.len())
                .map(|_| random.below(20_001) as i64 - 10_000)
                .collect()
        };
        let room = (65_535 - other.bytes().len().min(65_535)) / (4 * docket.states.len());
        for _ in 0..count.min(room) {
            other.leaves.push(Leaf {
                y1: weights(random),
                y2: weights(random),
            });
        }
    }
    if other.version == 2 || random.chance(1, 3) {
        sort_rules(&mut other);
    }
    other
}

/// The numbers below one, in random order.
pub(crate) fn random_order(count: usize, random: &mut Random) -> Vec<usize> {
    let mut order: Vec<usize> = (0..count).collect();
    random.shuffle(&mut order);
    order
}

/// Gives each state the number that stands in its place.
pub(crate) fn renumber_states(docket: &mut Docket, new: &[usize]) {
    let old = docket.clone();
    let sorted = |[a, b]: [usize; 2]| [new[a].min(new[b]), new[a].max(new[b])];
    for rule in &mut docket.rules {
        (rule.before, rule.after) = (sorted(rule.before), sorted(rule.after));
    }
    for (i, &at) in new.iter().enumerate() {
        docket.states[at] = old.states[i];
        for (layer, was) in docket.weights.iter_mut().zip(&old.weights) {
            layer[at] = was[i];
        }
        for (leaf, was) in docket.leaves.iter_mut().zip(&old.leaves) {
            (leaf.y1[at], leaf.y2[at]) = (was.y1[i], was.y2[i]);
        }
        for (node, was) in docket.nodes.iter_mut().zip(&old.nodes).filter(|(_, was)| was.kind != 7) {
            node.set[at] = was.set[i];
        }
    }
    for (place, was) in old.nodes.iter().enumerate() {
        if was.kind == 2 || was.kind == 4 {
            docket.nodes[place].argument = new[was.argument];
        }
    }
    swap_children(docket, &old, new);
}

/// Where the numbers of p and q of a rule change their order, so do the two children of its nodes.
fn swap_children(docket: &mut Docket, old: &Docket, new: &[usize]) {
    for place in (0..docket.nodes.len()).rev() {
        let node = docket.nodes[place];
        if node.kind == 3 {
            let [p, q] = old.rules[node.argument].before;
            if p != q && new[p] > new[q] {
                let middle = after_subtree(docket, place + 1);
                let end = after_subtree(docket, middle);
                docket.nodes[place + 1..end].rotate_left(middle - place - 1);
            }
        }
    }
}

/// The place after the subtree that begins at a place.
fn after_subtree(docket: &Docket, place: usize) -> usize {
    let mut open = 1;
    let mut at = place;
    while open > 0 && at < docket.nodes.len() {
        open += children(docket, &docket.nodes[at]);
        open -= 1;
        at += 1;
    }
    at
}

/// How many children a node has.
pub(crate) fn children(docket: &Docket, node: &Node) -> usize {
    match node.kind {
        3 => docket
            .rules
            .get(node.argument)
            .map_or(0, |rule| 1 + usize::from(rule.before[0] != rule.before[1])),
        4 => 2,
        5 | 6 => 1,
        _ => 0,
    }
}

/// Multiplies a layer's weights and adds to them, up to the limit.
fn raise_weights(docket: &mut Docket, random: &mut Random) {
    for layer in &mut docket.weights {
        let greatest = layer.iter().copied().max().unwrap_or(0).max(1);
        let factor = 1 + random.below((1_000_000 / greatest) as usize) as i64;
        let rest = 1_000_000 - greatest * factor;
        let more = if random.chance(1, 2) {
            rest
        } else {
            random.below(rest as usize + 1) as i64
        };
        for weight in layer {
            *weight = *weight * factor + more;
        }
    }
}

/// Multiplies a modulus and the weights of its leaf by one factor, and adds multiples of the new modulus to the weights,
/// so that they lie anywhere within their limits.
fn change_remainders(docket: &mut Docket, random: &mut Random) {
    for at in 0..docket.leaves.len() {
        let Some(old) = only_modulus(docket, at) else {
            continue;
        };
        let factor = 1 + random.below(1000 / old as usize) as i64;
        let new = old as i64 * factor;
        let Leaf { y1, y2 } = &mut docket.leaves[at];
        for weight in y1.iter_mut().chain(y2) {
            let least = (*weight * factor + 10_000).rem_euclid(new) - 10_000;
            let steps = (10_000 - least) / new;
            *weight = least + new * random.below(steps as usize + 1) as i64;
        }
        let nodes = docket.nodes.iter_mut();
        let named = nodes.filter(|node| node.kind == 7 && node.argument == at);
        named.for_each(|node| node.set = bits(new as u64));
    }
}

/// The modulus of all nodes that name a leaf; none where one of them is of kind 0 or two moduli differ.
fn only_modulus(docket: &Docket, leaf: usize) -> Option<u64> {
    let named = docket
        .nodes
        .iter()
        .filter(|node| matches!(node.kind, 0 | 7) && node.argument == leaf);
    let mut moduli: Vec<u64> = named.map(|node| node.modulus()).collect();
    moduli.dedup();
    (moduli.len() == 1 && moduli[0] > 0).then(|| moduli[0])
}

// ---- Faults

/// The docket's bytes with one or several faults of random kinds. In version 2 the rules are most often put in order
/// again, so that later tests find the faults. Now and then the order is then broken too, in either version.
pub fn damaged(docket: &Docket, random: &mut Random) -> Vec<u8> {
    let raw = random.chance(1, 5);
    let mut other = docket.clone();
    for _ in 0..random.below(4) / 2 + usize::from(!raw) {
        damage_record(&mut other, random);
    }
    if other.version == 2 && random.chance(7, 8) {
        sort_rules(&mut other);
    }
    if random.chance(1, 8) {
        break_order(&mut other, random);
    }
    let mut bytes = other.bytes();
    if raw {
        damage_bytes(&mut bytes, 12, random);
    }
    bytes
}

/// The docket in version 2 with other numbers of fixed agents in one state or several.
pub fn other_fixed(docket: &Docket, random: &mut Random) -> Vec<u8> {
    let mut other = docket.clone();
    for _ in 0..1 + random.below(3) {
        damage_fixed(&mut other, random);
    }
    if other.version == 2 {
        sort_rules(&mut other);
    }
    other.bytes()
}

/// Changes one record. Trees and leaves are changed more often than what comes before them.
fn damage_record(docket: &mut Docket, random: &mut Random) {
    match random.below(18) {
        0 => damage_state(docket, random),
        1 | 2 => damage_rule(docket, random),
        3 => damage_order(docket, random),
        4 | 5 => damage_weight(docket, random),
        6 => damage_leaf(docket, random),
        7 | 8 => damage_tree(docket, random),
        9 | 10 => damage_fixed(docket, random),
        _ => damage_node(docket, random),
    }
}

/// Another number of fixed agents for one state, the first or the last in half of the cases: at a limit, past it or next
/// to the old one, more than one byte holds, or that of another state. In a docket of version 1 this makes it one of
/// version 2. Now and then the version alone changes, or whether the state is an input.
fn damage_fixed(docket: &mut Docket, random: &mut Random) {
    if random.chance(1, 6) {
        docket.version = 3 - docket.version;
        return;
    }
    docket.version = 2;
    let count = docket.states.len();
    let (at, other) = (random.below(count), random.below(count));
    let at = *random.pick(&[0, count - 1, at, at]);
    let other = docket.states[other].fixed;
    let State { input, fixed, .. } = &mut docket.states[at];
    match random.below(5) {
        0 => *input ^= true,
        1 => *fixed = *random.pick(&[0, 1, 1000, 1001, 65_535]),
        2 => *fixed = *random.pick(&[255, 256, 257, 1024]),
        3 => *fixed = other,
        _ => *fixed = (*fixed + random.pick(&[-1, 1])).clamp(0, 65_535),
    }
}

fn damage_state(docket: &mut Docket, random: &mut Random) {
    let at = random.below(docket.states.len());
    match random.below(4) {
        0 => docket.states[at].verdict = random.below(256) as u8,
        1 => docket.states.iter_mut().for_each(|state| state.input = false),
        2 => docket.states[at].input ^= true,
        _ => docket.states[at].verdict ^= 1,
    }
}

fn damage_rule(docket: &mut Docket, random: &mut Random) {
    if docket.rules.is_empty() {
        docket.rules.push(rule([0, 0], [0, 1], 0));
        return;
    }
    let count = docket.states.len() + usize::from(random.chance(1, 8));
    let (at, other) = (random.below(docket.rules.len()), random.below(docket.rules.len()));
    let copy = docket.rules[other];
    let rule = &mut docket.rules[at];
    match random.below(12) {
        0 => rule.before[random.below(2)] = random.below(count),
        1 => rule.after[random.below(2)] = random.below(count),
        2 => rule.before.swap(0, 1),
        3 => rule.after.swap(0, 1),
        4 => rule.before = copy.before,
        5 => rule.after = rule.before,
        6 => rule.layer = random.below(docket.weights.len() + 1),
        7 => rule.after = copy.before,
        8 => rule.after = [random.below(count); 2],
        _ => *rule = copied(copy, rule.layer, count, random),
    }
}

/// A rule equal to another, or equal but for p' or q', which is most often one more outcome of its before pair; in the
/// layer of the other or in the one given.
fn copied(mut rule: Rule, layer: usize, count: usize, random: &mut Random) -> Rule {
    let [p, q] = rule.after;
    match random.below(3) {
        0 => {}
        1 => rule.after = [random.below(q + 1), q],
        _ => rule.after = [p, p + random.below(count - p)],
    }
    if random.chance(1, 2) {
        rule.layer = layer;
    }
    rule
}

/// Exchanges, drops or adds rules or layers.
fn damage_order(docket: &mut Docket, random: &mut Random) {
    let (rules, layers) = (docket.rules.len(), docket.weights.len());
    if rules == 0 || layers == 0 {
        return;
    }
    match random.below(5) {
        0 => docket.rules.swap(random.below(rules), random.below(rules)),
        1 => drop(docket.rules.remove(random.below(rules))),
        2 => {
            let (a, b) = (random.below(layers), random.below(layers));
            docket.weights.swap(a, b);
            docket
                .rules
                .iter_mut()
                .for_each(|rule| rule.layer = exchanged(rule.layer, a, b));
        }
        3 => docket.weights.push(docket.weights[random.below(layers)].clone()),
        _ => {
            let rule = docket.rules[random.below(rules)];
            docket
                .rules
                .push(copied(rule, random.below(layers), docket.states.len(), random));
        }
    }
}

/// Breaks the order of version 2, in one place most often: exchanges two rules that stand next to each other, at the
/// first place, at the last or at any, or two others; moves a rule; gives one another layer where it stands; or writes
/// one equal to its neighbour, or nearly so, in the place of the next. In a third of the cases there is another fault.
fn break_order(docket: &mut Docket, random: &mut Random) {
    let (count, layers, states) = (docket.rules.len(), docket.weights.len(), docket.states.len());
    if count < 2 || layers == 0 {
        return;
    }
    let (any, other) = (random.below(count - 1), random.below(count));
    let at = *random.pick(&[0, any, count - 2]);
    let [rule, next] = [docket.rules[at], docket.rules[at + 1]];
    match random.below(6) {
        0 | 1 => docket.rules.swap(at, at + 1),
        2 => docket.rules.swap(at, other),
        3 => {
            docket.rules.remove(at);
            docket.rules.insert(other, rule);
        }
        4 => docket.rules[at + 1].layer = random.below(layers),
        _ => docket.rules[at + 1] = copied(rule, next.layer, states, random),
    }
    if random.chance(1, 3) {
        damage_table(docket, random);
    }
}

/// A fault that test 6, 7 or 8 finds, most often.
fn damage_table(docket: &mut Docket, random: &mut Random) {
    let (at, other) = (random.below(docket.rules.len()), random.below(docket.rules.len()));
    let (state, layer) = (random.below(docket.states.len()), random.below(docket.weights.len()));
    let copy = docket.rules[other];
    let rule = &mut docket.rules[at];
    match random.below(5) {
        0 => rule.after = rule.before,
        1 => rule.layer = docket.weights.len(),
        2 => (rule.before, rule.after) = (copy.before, copy.after),
        3 => docket.weights[layer][state] = 1_000_001,
        _ => docket.weights.push(docket.weights[layer].clone()),
    }
}

fn exchanged(layer: usize, a: usize, b: usize) -> usize {
    match layer {
        l if l == a => b,
        l if l == b => a,
        l => l,
    }
}

fn damage_weight(docket: &mut Docket, random: &mut Random) {
    if docket.weights.is_empty() {
        return;
    }
    let layer = random.below(docket.weights.len());
    let state = random.below(docket.states.len());
    let values = [0, 1, 2, 3, 999_999, 1_000_000, 1_000_001, 4_294_967_295];
    let few = if random.chance(2, 3) { 6 } else { 8 };
    docket.weights[layer][state] = values[random.below(few)];
}

fn damage_leaf(docket: &mut Docket, random: &mut Random) {
    if docket.leaves.is_empty() {
        return;
    }
    let at = random.below(docket.leaves.len());
    let state = random.below(docket.states.len());
    // Another fault may have made the modulus as great as 64 bits allow.
    let modulus = only_modulus(docket, at).unwrap_or(2).min(1000) as i64;
    let leaf = &mut docket.leaves[at];
    let weights = if random.chance(1, 2) {
        &mut leaf.y1
    } else {
        &mut leaf.y2
    };
    let old = weights[state];
    weights[state] = match random.below(3) {
        0 => old + random.pick(&[-1, 1, -modulus, modulus]),
        _ => *random.pick(&[-32_768, -10_001, -10_000, -1, 0, 1, 2, 10_000, 10_001, 32_767]),
    };
}

/// Drops, doubles, exchanges or adds nodes, or takes facts from a subtree.
pub(crate) fn damage_tree(docket: &mut Docket, random: &mut Random) {
    let count = docket.nodes.len();
    if count == 0 {
        return;
    }
    let (at, other) = (random.below(count), random.below(count));
    match random.below(7) {
        0 => drop(docket.nodes.remove(at)),
        1 => docket.nodes.insert(at, docket.nodes[other]),
        2 => docket.nodes.swap(at, other),
        3 => docket.nodes.push(docket.nodes[other]),
        4 => wrap(docket, at, random),
        _ => lift(docket, at, random),
    }
}

/// Puts a child of a node, with all below it, in the node's place, so that it loses the facts that the node added.
fn lift(docket: &mut Docket, at: usize, random: &mut Random) {
    let end = after_subtree(docket, at);
    let mut child = at + 1..end;
    match children(docket, &docket.nodes[at]) {
        0 => return,
        1 => {}
        _ => {
            let middle = after_subtree(docket, at + 1);
            child = if random.chance(1, 2) {
                at + 1..middle
            } else {
                middle..end
            };
        }
    }
    let nodes = docket.nodes[child].to_vec();
    docket.nodes.splice(at..end, nodes);
}

/// Makes the subtree at a place both children of a case on a state: where no fact harms, the docket stays accepted.
fn wrap(docket: &mut Docket, at: usize, random: &mut Random) {
    let end = after_subtree(docket, at);
    let subtree = docket.nodes[at..end].to_vec();
    if docket.nodes.len() + subtree.len() < 2048 {
        docket.nodes.splice(at..at, subtree);
        docket
            .nodes
            .insert(at, node(4, random.below(3), random.below(docket.states.len())));
    }
}

pub(crate) fn damage_node(docket: &mut Docket, random: &mut Random) {
    let count = docket.nodes.len();
    if count == 0 {
        return;
    }
    let (states, rules, leaves) = (docket.states.len(), docket.rules.len(), docket.leaves.len());
    let remainders: Vec<usize> = (0..count).filter(|&at| docket.nodes[at].kind == 7).collect();
    let at = if !remainders.is_empty() && random.chance(1, 3) {
        *random.pick(&remainders)
    } else {
        random.below(count)
    };
    let node = &mut docket.nodes[at];
    match random.below(6) {
        0 => node.kind = random.below(9) as u8,
        1 => node.party = random.below(3),
        2 => node.party = *random.pick(&[0, 3, 255]),
        3 => node.argument = random.below(1 + states.max(rules).max(leaves)),
        _ if node.kind == 7 => node.set = bits(other_modulus(node.modulus(), random)),
        4 => node.set[random.below(states)] ^= true,
        _ => node.set[random.below(64)] ^= true,
    }
}

/// A modulus at a limit or past it, one of those of `digits`, one next to the old one, half of it or twice of it, or the
/// old one with a bit more.
fn other_modulus(old: u64, random: &mut Random) -> u64 {
    match random.below(4) {
        0 => *random.pick(&[0, 1, 2, 999, 1000, 1001, u64::MAX]),
        1 => *random.pick(&[2, 3, 7, 1000]),
        2 => *random.pick(&[old.wrapping_sub(1), old.wrapping_add(1), old / 2, old.wrapping_mul(2)]),
        _ => old | 1 << random.below(64),
    }
}

/// Changes bytes with no regard to records. The header has so many numbers, of which the last, the length, follows a new
/// length in half of the cases.
pub(crate) fn damage_bytes(bytes: &mut Vec<u8>, numbers: usize, random: &mut Random) {
    let (len, header) = (bytes.len(), 2 * numbers);
    match random.below(6) {
        0 => bytes.truncate(random.below(len)),
        1 => bytes.extend(std::iter::repeat_n(random.word() as u8, 1 + random.below(30))),
        2 | 3 if len >= header => damage_header(bytes, numbers - 1, random),
        _ => {
            for _ in 0..1 + random.below(3) {
                let at = random.below(len);
                bytes[at] = if random.chance(1, 2) {
                    bytes[at] ^ (1 << random.below(8))
                } else {
                    random.word() as u8
                };
            }
        }
    }
    if bytes.len() != len && bytes.len() >= header && random.chance(1, 2) {
        let total = (bytes.len() as u16).to_le_bytes();
        bytes[header - 2..header].copy_from_slice(&total);
    }
}

/// Changes one of the first numbers of a header.
fn damage_header(bytes: &mut [u8], numbers: usize, random: &mut Random) {
    let field = random.below(numbers);
    let old = u16::from_le_bytes([bytes[2 * field], bytes[2 * field + 1]]);
    let edges = [
        0, 1, 2, 3, 16, 17, 64, 65, 128, 129, 256, 257, 258, 1024, 1025, 2048, 2049, 65_535,
    ];
    let new = match random.below(3) {
        0 => old.wrapping_add(1),
        1 => old.wrapping_sub(1),
        _ => *random.pick(&edges),
    };
    bytes[2 * field..2 * field + 2].copy_from_slice(&new.to_le_bytes());
}

/// Random bytes, with a header that begins like that of a docket of either version in half of the cases.
pub fn noise(random: &mut Random) -> Vec<u8> {
    let len = random.below(160);
    let mut bytes: Vec<u8> = (0..len).map(|_| random.word() as u8).collect();
    if len >= 24 && random.chance(1, 2) {
        bytes[..2].copy_from_slice(&[1 + random.below(2) as u8, 0]);
        bytes[22..24].copy_from_slice(&(len as u16).to_le_bytes());
    }
    bytes
}

#[cfg(test)]
mod tests {
    use super::*;
    use crate::make::{self, fixed, remainder};
    use crate::prover;
    use std::collections::BTreeSet;

    #[test]
    fn rewritten_dockets_stay_accepted() {
        let mut random = Random::new(1);
        let mut dockets = vec![
            make::broadcast(),
            make::relay(10, 40),
            make::maximum(&[0, 1, 1, 0, 1]),
            make::deep(40),
            make::two_outcomes(),
            make::outcomes(10, 40, 4),
            make::layered(8, 10, 3, 30, 3),
            remainder::parity(),
            remainder::table(7, 2, &[1, 5]),
            remainder::digits(1000, [391, 24]),
            remainder::many_leaves(),
            remainder::largest(1, 10_000),
            fixed::broadcast(true, 3),
            fixed::majority(257, 256),
            fixed::majority(3, 3),
            fixed::sum(7, 2, &[3, 5, 0, 256]),
            fixed::largest(),
        ];
        dockets.extend((0..40).filter_map(|_| prover::prove(make::majority(), &mut random)));
        assert!(dockets.len() > 5, "no tree was found for majority");
        for docket in &dockets {
            for _ in 0..50 {
                let bytes = rewritten(docket, &mut random).bytes();
                assert!(second::check(&bytes).is_ok(), "{}", second::line(&bytes));
            }
        }
    }

    /// Rules are made equal, in one layer and in two, and equal but for p', but for q', or in their before pair alone.
    #[test]
    fn rules_are_copied() {
        let mut random = Random::new(3);
        let mut met = BTreeSet::new();
        for _ in 0..1000 {
            let mut docket = make::majority();
            damage_rule(&mut docket, &mut random);
            for (place, r) in docket.rules.iter().enumerate() {
                let earlier = docket.rules[..place].iter().filter(|s| s.before == r.before);
                met.extend(earlier.map(|s| (s.after[0] == r.after[0], s.after[1] == r.after[1], s.layer == r.layer)));
            }
        }
        assert_eq!(met.len(), 8, "{met:?}");
    }

    /// A broken order is refused with 14 at the first place, in the middle and at the last one; with another fault at an
    /// earlier or a later rule, or in a layer, tests 6, 7 and 8 are reached too. In version 1 it is no fault.
    #[test]
    fn order_is_broken() {
        let mut random = Random::new(14);
        let docket = fixed::sum(5, 3, &[0, 2, 3]);
        let last = docket.rules.len() as u32 - 1;
        for version in [1, 2] {
            let mut met = BTreeSet::new();
            for _ in 0..2000 {
                let mut other = docket.clone();
                other.version = version;
                break_order(&mut other, &mut random);
                met.extend(
                    second::parse(&other.bytes())
                        .err()
                        .map(|refusal| (refusal.number, refusal.place)),
                );
            }
            let numbers: BTreeSet<u32> = met.iter().map(|(number, _)| *number).collect();
            let expected: &[u32] = if version == 1 { &[6, 7, 8] } else { &[6, 7, 8, 14] };
            assert_eq!(numbers, expected.iter().copied().collect());
            assert!(version == 1 || (1..=last).all(|place| met.contains(&(14, place))));
        }
    }

    /// Damage to fixed agents leads to every limit, in inputs and in others, and to each of the answers that it can give.
    #[test]
    fn fixed_agents_are_damaged() {
        let mut random = Random::new(13);
        let (mut numbers, mut lines) = (BTreeSet::new(), BTreeSet::new());
        for _ in 0..4000 {
            let mut docket = fixed::majority(256, 255);
            damage_fixed(&mut docket, &mut random);
            let line = second::line(&docket.bytes());
            lines.insert((docket.version, line[..10].to_string()));
            let states = docket.states.iter().enumerate();
            numbers.extend(states.map(|(i, state)| (i, state.fixed)));
        }
        let limits = [0, 1, 255, 256, 257, 1000, 1001, 65_535];
        for state in 0..4 {
            assert!(limits.iter().all(|&fixed| numbers.contains(&(state, fixed))), "{state}");
        }
        let expected = [
            (1, "refused 13"),
            (2, "accepted 4"),
            (2, "refused 13"),
            (2, "refused 5 "),
        ];
        assert_eq!(lines, expected.map(|(version, line)| (version, line.into())).into());
    }

    /// Moduli are multiplied up to the limit, and the weights of their leaves come near both limits.
    #[test]
    fn remainders_are_changed() {
        let mut random = Random::new(7);
        let (mut moduli, mut weights) = (BTreeSet::new(), BTreeSet::new());
        for _ in 0..1000 {
            let mut docket = remainder::table(2, 0, &[0, 1]);
            change_remainders(&mut docket, &mut random);
            moduli.extend(docket.nodes.iter().filter(|node| node.kind == 7).map(Node::modulus));
            weights.extend([docket.leaves[0].y1.clone(), docket.leaves[0].y2.clone()].concat());
        }
        assert!(
            moduli.iter().all(|m| m % 2 == 0 && (2..=1000).contains(m)),
            "{moduli:?}"
        );
        assert!(moduli.contains(&1000) && moduli.len() > 300, "{moduli:?}");
        let (least, greatest) = (weights.first(), weights.last());
        assert!(least >= Some(&-10_000) && least < Some(&-9_950), "{least:?}");
        assert!(greatest <= Some(&10_000) && greatest > Some(&9_950), "{greatest:?}");
    }

    /// Damage to the digits leads to each of the answers that a node of kind 7 can give.
    #[test]
    fn remainders_are_damaged() {
        let mut random = Random::new(8);
        let docket = remainder::digits(7, [5, 3]);
        let place = docket.nodes.iter().position(|node| node.kind == 7).unwrap_or(0);
        let lines: Vec<String> = (0..4000)
            .map(|_| second::line(&damaged(&docket, &mut random)))
            .collect();
        for line in [
            "accepted".into(),
            format!("refused 12 {place}"),
            format!("refused 13 {place}"),
        ] {
            let count = lines.iter().filter(|other| other.starts_with(&line)).count();
            assert!(count > 100, "{line}: {count}");
        }
    }

    /// A modulus of any size leads to weights of 16 bits, or at most 1,000 past them.
    #[test]
    fn weights_after_other_faults() {
        let mut random = Random::new(9);
        for modulus in [0, 1, 1001, 1 << 32, 1 << 63, u64::MAX] {
            let mut docket = remainder::parity();
            docket.nodes[12].set = bits(modulus);
            for _ in 0..200 {
                let mut other = docket.clone();
                damage_leaf(&mut other, &mut random);
                let Leaf { y1, y2 } = &other.leaves[0];
                let mut weights = y1.iter().chain(y2);
                assert!(
                    weights.all(|y| (-33_768..=33_767).contains(y)),
                    "{modulus}: {y1:?} {y2:?}"
                );
            }
        }
    }

    #[test]
    fn most_damage_shows() {
        let mut random = Random::new(2);
        let docket = make::maximum(&[0, 1, 1, 0, 1]);
        let refused = (0..1000).filter(|_| second::check(&damaged(&docket, &mut random)).is_err());
        assert!(refused.count() > 600);
    }
}
