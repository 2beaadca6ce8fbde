//! Random small protocols with certificates, with and without fixed agents: weights come first and rules are chosen to
//! lower them; a tree of arguments is searched for by traps, siphons, leaves with weights -1 to 1, remainders with small
//! moduli, and cases. The trees of claim sheets are searched for in the same way.

mod sheets;

pub use sheets::{prove_sheet, random_sheet};

use crate::make::{self, bits, node, place_of, remainder, remainder_node, rule, sort_rules};
use crate::random::Random;
use second::{Docket, Leaf, Node, State};
use sheets::{Half, MULTIPLIERS};

/// The most nodes that a search may use, and the most states for which leaves are tried.
const MOST_NODES: usize = 300;
const MOST_LEAF_STATES: usize = 4;

/// The moduli that are tried.
const MODULI: [i64; 3] = [2, 3, 4];

/// Sets of states as words; of rules too, so there are at most 64 of them.
#[derive(Clone, Copy, Default)]
pub(crate) struct Facts {
    pub absent: [u64; 3],
    pub present: [u64; 3],
    pub at_most_one: [u64; 3],
    pub unused: [u64; 3],
}

impl Facts {
    pub fn fresh(docket: &Docket) -> Facts {
        let mut facts = Facts::default();
        facts.absent[0] = states_where(docket, |state| !state.input && state.fixed == 0);
        facts.present[0] = states_where(docket, |state| state.fixed > 0);
        facts
    }

    /// The facts of each child of a node.
    pub fn children(&self, docket: &Docket, node: &Node) -> Vec<Facts> {
        let (party, argument) = (node.party, node.argument);
        let grown = |grow: &dyn Fn(&mut Facts)| {
            let mut facts = *self;
            grow(&mut facts);
            facts
        };
        let absent = |state: usize| grown(&|facts| facts.absent[party] |= 1 << state);
        match node.kind {
            3 => match docket.rules[argument].before {
                [p, q] if p == q => vec![grown(&|facts| facts.at_most_one[party] |= 1 << p)],
                [p, q] => vec![absent(p), absent(q)],
            },
            4 => vec![absent(argument), grown(&|facts| facts.present[party] |= 1 << argument)],
            5 => vec![self.with_set_absent(docket, node, 0)],
            6 => vec![self.with_set_absent(docket, node, party)],
            _ => vec![],
        }
    }

    /// The set of a node is absent at a party, and the rules touching it are unused in its run.
    fn with_set_absent(&self, docket: &Docket, node: &Node, party: usize) -> Facts {
        let mut facts = *self;
        let set = node.modulus();
        facts.absent[party] |= set;
        for (r, rule) in docket.rules.iter().enumerate() {
            let touched = (pair_set(rule.before) | pair_set(rule.after)) & set != 0;
            facts.unused[node.party] |= u64::from(touched) << r;
        }
        facts
    }
}

/// An accepted docket of a random protocol; none where this try fails.
pub fn random_docket(random: &mut Random) -> Option<Docket> {
    let protocol = random_protocol(random)?;
    prove(protocol, random)
}

/// An accepted docket of version 2 of a random protocol with fixed agents, small or near majority or near one that counts
/// modulo 2; none where this try fails.
pub fn random_fixed(random: &mut Random) -> Option<Docket> {
    let mut docket = match random.below(8) {
        0 => make::majority(),
        1 | 2 => near_parity_protocol(random),
        _ => random_protocol(random)?,
    };
    docket.version = 2;
    sort_rules(&mut docket);
    if random.chance(1, 2) {
        change_inputs(&mut docket, random);
    }
    for state in &mut docket.states {
        if random.chance(1, 2) {
            state.fixed = *random.pick(&FIXED);
        }
    }
    prove(docket, random)
}

/// The numbers of fixed agents that are tried.
const FIXED: [i64; 12] = [1, 1, 1, 2, 2, 2, 3, 3, 255, 256, 257, 1000];

/// One random state alone is an input.
fn change_inputs(docket: &mut Docket, random: &mut Random) {
    let input = random.below(docket.states.len());
    for (i, state) in docket.states.iter_mut().enumerate() {
        state.input = i == input;
    }
}

/// A random protocol of 2 to 4 states that passes tests 1 to 10, with a tree of one node that proves nothing.
fn random_protocol(random: &mut Random) -> Option<Docket> {
    let count = 2 + random.below(3);
    let input = random.below(count);
    let states = (0..count).map(|i| State {
        verdict: random.below(2) as u8,
        input: i == input || random.chance(1, 2),
        fixed: 0,
    });
    let mut docket = Docket {
        version: 1,
        states: states.collect(),
        rules: vec![],
        weights: vec![],
        nodes: vec![],
        leaves: vec![],
    };
    let layers = 1 + random.below(3);
    docket.weights = (0..layers)
        .map(|_| (0..count).map(|_| random.below(4) as i64).collect())
        .collect();
    for _ in 0..4 * count {
        add_rule(&mut docket, random);
    }
    docket.nodes.push(node(1, 1, 0));
    let bytes = docket.bytes();
    (second::parse(&bytes).is_ok() && second::handover(&bytes).is_ok()).then_some(docket)
}

/// An accepted docket of a random protocol near one that counts modulo 2; none where this try fails.
pub fn near_parity(random: &mut Random) -> Option<Docket> {
    let docket = near_parity_protocol(random);
    prove(docket, random)
}

fn near_parity_protocol(random: &mut Random) -> Docket {
    let mut docket = match random.below(2) {
        0 => remainder::parity(),
        _ => remainder::table(2, random.below(2), &[1]),
    };
    for _ in 0..random.below(4) {
        change_protocol(&mut docket, random);
    }
    docket
}

/// Drops or adds a rule, or changes the verdict of a state or whether it is an input.
fn change_protocol(docket: &mut Docket, random: &mut Random) {
    let state = random.below(docket.states.len());
    match random.below(4) {
        0 => drop(docket.rules.remove(random.below(docket.rules.len()))),
        1 => add_rule(docket, random),
        2 => docket.states[state].input ^= true,
        _ => docket.states[state].verdict ^= 1,
    }
}

/// Adds a random rule where no rule has its four states and its layer's weights fall.
fn add_rule(docket: &mut Docket, random: &mut Random) {
    let count = docket.states.len();
    let mut sorted = || {
        let (a, b) = (random.below(count), random.below(count));
        [a.min(b), a.max(b)]
    };
    let (before, after) = (sorted(), sorted());
    let layer = random.below(docket.weights.len());
    let weight = |pair: [usize; 2]| docket.weights[layer][pair[0]] + docket.weights[layer][pair[1]];
    let known = docket.rules.iter().any(|r| (r.before, r.after) == (before, after));
    if !known && weight(before) > weight(after) {
        docket.rules.push(rule(before, after, layer));
    }
}

/// The protocol with a tree that proves that it rests on one verdict; none where the search fails.
pub fn prove(mut docket: Docket, random: &mut Random) -> Option<Docket> {
    docket.nodes.clear();
    docket.leaves.clear();
    let facts = Facts::fresh(&docket);
    let mut search = Search {
        docket,
        random,
        half: None,
    };
    search.close(facts, 1)?;
    second::check(&search.docket.bytes()).is_ok().then_some(search.docket)
}

pub(crate) fn states_where(docket: &Docket, test: impl Fn(&State) -> bool) -> u64 {
    let states = docket.states.iter().enumerate();
    states
        .filter(|(_, state)| test(state))
        .fold(0, |set, (i, _)| set | 1 << i)
}

pub(crate) fn pair_set(pair: [usize; 2]) -> u64 {
    1 << pair[0] | 1 << pair[1]
}

struct Search<'a> {
    docket: Docket,
    random: &'a mut Random,
    /// What a tree of a claim sheet is about; none for a docket's tree, which is about two runs.
    half: Option<Half>,
}

/// The weights for one end, and their part of a sum over both.
type Side = (Vec<i64>, i64);

/// The first weights for both ends that fit; `fits` is given them and their sum.
fn first_leaf(sides: &[Vec<Side>; 2], fits: impl Fn(&[i64], &[i64], i64) -> bool) -> Option<Leaf> {
    let [first, second] = sides;
    let mut pairs = first
        .iter()
        .flat_map(|one| second.iter().map(move |other| (one, other)));
    let ((y1, _), (y2, _)) = pairs.find(|((y1, sum1), (y2, sum2))| fits(y1, y2, sum1 + sum2))?;
    let (y1, y2) = (y1.clone(), y2.clone());
    Some(Leaf { y1, y2 })
}

impl Search<'_> {
    /// Adds the nodes that refute the facts; none where the search fails.
    fn close(&mut self, facts: Facts, depth: usize) -> Option<()> {
        if depth > 40 || self.docket.nodes.len() > MOST_NODES {
            return None;
        }
        if let Some(node) = self.contradiction(&facts).or_else(|| self.outputs_absent(&facts)) {
            self.docket.nodes.push(node);
            return Some(());
        }
        let mut sets = (1..1 + 2 * self.runs()).map(|i| (5 + i as u8 % 2, 1 + i / 3));
        if let Some((node, child)) = sets.find_map(|(kind, party)| self.set_argument(&facts, kind, party)) {
            self.docket.nodes.push(node);
            return self.close(child, depth + 1);
        }
        if let Some(node) = self.leaf_node(&facts) {
            self.docket.nodes.push(node);
            return Some(());
        }
        let (node, children) = self.cases(&facts)?;
        self.docket.nodes.push(node);
        children.into_iter().try_for_each(|child| self.close(child, depth + 1))
    }

    fn runs(&self) -> usize {
        self.half.as_ref().map_or(2, |_| 1)
    }

    /// The states of the output that is assumed for an end.
    fn assumed(&self, party: usize) -> u64 {
        let output = self.half.as_ref().map_or(party as u8 - 1, |half| half.output);
        states_where(&self.docket, |state| state.verdict == output)
    }

    fn contradiction(&self, facts: &Facts) -> Option<Node> {
        let both = |party: usize| facts.absent[party] & facts.present[party];
        let party = (0..3).find(|&party| both(party) != 0)?;
        Some(node(2, party, both(party).trailing_zeros() as usize))
    }

    fn outputs_absent(&self, facts: &Facts) -> Option<Node> {
        let mut runs = 1..=self.runs();
        let party = runs.find(|&party| self.assumed(party) & !facts.absent[party] == 0)?;
        Some(node(1, party, 0))
    }

    /// The greatest trap or siphon of absent states, where it says something new.
    fn set_argument(&self, facts: &Facts, kind: u8, party: usize) -> Option<(Node, Facts)> {
        let (from, to) = if kind == 5 { (party, 0) } else { (0, party) };
        let mut set = facts.absent[from];
        for _ in 0..self.docket.states.len() {
            for (r, rule) in self.docket.rules.iter().enumerate() {
                let (one, other) = (pair_set(rule.before), pair_set(rule.after));
                let (needs, gives) = if kind == 5 { (one, other) } else { (other, one) };
                if facts.unused[party] >> r & 1 == 0 && needs & set != 0 && gives & set == 0 {
                    set &= !needs;
                }
            }
        }
        let node = Node {
            set: bits(set),
            ..node(kind, party, 0)
        };
        let child = facts.with_set_absent(&self.docket, &node, to);
        let new = child.absent[to] != facts.absent[to] || child.unused[party] != facts.unused[party];
        new.then_some((node, child))
    }

    /// A node that is closed by a leaf, which is added where it is new.
    fn leaf_node(&mut self, facts: &Facts) -> Option<Node> {
        if self.docket.states.len() > MOST_LEAF_STATES {
            return None;
        }
        if self.half.is_some() {
            let mut multipliers = MULTIPLIERS;
            self.random.shuffle(&mut multipliers);
            let leaf = self.sheet_leaf(facts, &multipliers)?;
            return Some(node(0, 0, place_of(&mut self.half.as_mut()?.leaves, leaf)));
        }
        let (leaf, modulus) = self.any_leaf(facts)?;
        let at = place_of(&mut self.docket.leaves, leaf);
        Some(modulus.map_or(node(0, 0, at), |m| remainder_node(at, m as u64)))
    }

    /// A leaf that closes by the leaf rule, or one that closes by the remainder rule, with its modulus.
    fn any_leaf(&mut self, facts: &Facts) -> Option<(Leaf, Option<i64>)> {
        let m = *self.random.pick(&MODULI);
        let remainder = |search: &Self| search.remainder(facts, m).map(|leaf| (leaf, Some(m)));
        let leaf = |search: &Self| search.leaf(facts).map(|leaf| (leaf, None));
        if self.random.chance(1, 2) {
            remainder(self).or_else(|| leaf(self))
        } else {
            leaf(self).or_else(|| remainder(self))
        }
    }

    /// A leaf with weights -1 to 1 that closes by the leaf rule.
    fn leaf(&self, facts: &Facts) -> Option<Leaf> {
        let sides = [1, 2].map(|party| self.leaf_sides(facts, party, 3));
        first_leaf(&sides, |y1, y2, lower| {
            let upper = self.upper_sum(facts, |i| y1[i] + y2[i]);
            upper.is_some_and(|upper| lower > upper)
        })
    }

    /// A leaf that closes by the remainder rule.
    fn remainder(&self, facts: &Facts, m: i64) -> Option<Leaf> {
        let exactly_one = |party: usize| facts.present[party] & facts.at_most_one[party] & !facts.absent[party];
        let fixed = states_where(&self.docket, State::only_fixed) & !facts.absent[0];
        if exactly_one(1) | exactly_one(2) | fixed == 0 {
            return None;
        }
        let sides = [1, 2].map(|party| self.remainder_sides(facts, party, exactly_one(party), m));
        first_leaf(&sides, |y1, y2, sum| {
            let start = self.start_remainder(facts, y1, y2, m);
            start.is_some_and(|start| (sum - start) % m != 0)
        })
    }

    /// The sum over the fixed agents of states that are no inputs; none where y1 + y2 is not 0 modulo m elsewhere.
    fn start_remainder(&self, facts: &Facts, y1: &[i64], y2: &[i64], m: i64) -> Option<i64> {
        let here = self
            .not_absent(facts, 0)
            .map(|i| (&self.docket.states[i], y1[i] + y2[i]));
        let (fixed, others): (Vec<_>, Vec<_>) = here.partition(|(state, _)| state.only_fixed());
        let fit = others.iter().all(|(_, both)| both % m == 0);
        fit.then(|| fixed.iter().map(|(state, both)| state.fixed * both).sum())
    }

    /// The weights for one end, `range` numbers around 0 for each state, that the rules and the end allow, with their part
    /// of the lower sum.
    fn leaf_sides(&self, facts: &Facts, party: usize, range: i64) -> Vec<Side> {
        let is_at = |set: u64, i: usize| set >> i & 1 == 1;
        let mut sides = vec![];
        for y in self.kept(facts, party, range, |raised| raised <= 0) {
            let fits = |i: usize| y[i] >= 0 || is_at(facts.at_most_one[party], i);
            if self.not_absent(facts, party).all(fits) {
                let joins = |i: &usize| y[*i] < 0 || is_at(facts.present[party], *i);
                let lower = self.not_absent(facts, party).filter(joins).map(|i| y[i]).sum();
                sides.push((y, lower));
            }
        }
        sides
    }

    /// The weights for one end that the rules and the end allow modulo m, with their part of the sum.
    fn remainder_sides(&self, facts: &Facts, party: usize, exactly_one: u64, m: i64) -> Vec<Side> {
        let joins = |i: &usize| exactly_one >> i & 1 == 1;
        let mut sides = vec![];
        for y in self.kept(facts, party, m, |raised| raised % m == 0) {
            if self.not_absent(facts, party).all(|i| joins(&i) || y[i] % m == 0) {
                let sum = self.not_absent(facts, party).filter(joins).map(|i| y[i]).sum();
                sides.push((y, sum));
            }
        }
        sides
    }

    fn not_absent(&self, facts: &Facts, party: usize) -> impl Iterator<Item = usize> {
        let absent = facts.absent[party];
        (0..self.docket.states.len()).filter(move |i| absent >> i & 1 == 0)
    }

    /// The weights, `range` numbers around 0 for each state, by which every rule not unused raises by what is allowed.
    fn kept(&self, facts: &Facts, party: usize, range: i64, allowed: impl Fn(i64) -> bool) -> Vec<Vec<i64>> {
        let count = self.docket.states.len() as u32;
        let weights = |number: i64| (0..count).map(move |i| number / range.pow(i) % range - range / 2);
        let all = (0..range.pow(count)).map(|number| weights(number).collect());
        let is_kept = |y: &Vec<i64>| {
            let weight = |pair: [usize; 2]| y[pair[0]] + y[pair[1]];
            let mut rules = self.docket.rules.iter().enumerate();
            rules
                .all(|(r, rule)| facts.unused[party] >> r & 1 == 1 || allowed(weight(rule.after) - weight(rule.before)))
        };
        all.filter(is_kept).collect()
    }

    /// The sum over a start of these weights, at most; none where one is above 0 and its state may have any number.
    fn upper_sum(&self, facts: &Facts, weight: impl Fn(usize) -> i64) -> Option<i64> {
        let mut sum = 0;
        for i in self.not_absent(facts, 0) {
            let (state, weight) = (&self.docket.states[i], weight(i));
            if weight > 0 && !state.only_fixed() {
                return None;
            }
            sum += weight * state.fixed.max((facts.present[0] >> i & 1) as i64);
        }
        Some(sum)
    }

    /// A random case that is still open: a rule not enabled at an end, or a state absent or present.
    fn cases(&mut self, facts: &Facts) -> Option<(Node, Vec<Facts>)> {
        let mut open = vec![];
        for party in 0..=self.runs() {
            let decided = facts.absent[party] | facts.present[party];
            let states = 0..self.docket.states.len();
            open.extend(states.filter(|i| decided >> i & 1 == 0).map(|i| node(4, party, i)));
        }
        for party in 1..=self.runs() {
            let known = facts.absent[party] | facts.at_most_one[party];
            for (r, rule) in self.docket.rules.iter().enumerate() {
                let [p, q] = rule.before;
                let decided = if p == q { known } else { facts.absent[party] };
                if decided & pair_set(rule.before) == 0 {
                    open.push(node(3, party, r));
                }
            }
        }
        if open.is_empty() {
            return None;
        }
        let chosen = *self.random.pick(&open);
        Some((chosen, facts.children(&self.docket, &chosen)))
    }
}

#[cfg(test)]
mod tests {
    use super::*;
    use second::Rule;
    use std::collections::BTreeSet;

    /// Pairs with several rules are found in one layer and in two.
    #[test]
    fn pairs_have_several_outcomes() {
        let mut random = Random::new(4);
        let dockets: Vec<Docket> = (0..2000).filter_map(|_| random_docket(&mut random)).collect();
        for same_layer in [true, false] {
            let fits = |r: &Rule, s: &Rule| r.before == s.before && r != s && (r.layer == s.layer) == same_layer;
            let found = |docket: &&Docket| docket.rules.iter().any(|r| docket.rules.iter().any(|s| fits(r, s)));
            let count = dockets.iter().filter(found).count();
            assert!(20 * count > dockets.len(), "{count} of {}", dockets.len());
        }
    }

    /// Trees are found that need the fixed agents, or their number, at nodes of kinds 0, 2 and 7.
    #[test]
    fn fixed_agents_close_trees() {
        let mut random = Random::new(12);
        let dockets: Vec<Docket> = (0..4000).filter_map(|_| random_fixed(&mut random)).collect();
        for (most, kinds) in [(0, vec![0, 2, 7]), (1, vec![0, 7])] {
            let needed: Vec<u8> = dockets.iter().filter_map(|docket| needed_kind(docket, most)).collect();
            for kind in kinds {
                let count = needed.iter().filter(|&&other| other == kind).count();
                assert!(count > 20, "{most}, kind {kind}: {count} of {}", dockets.len());
            }
        }
    }

    /// The kind of the node that is refused where no fixed number is above this one; none where it is accepted still.
    fn needed_kind(docket: &Docket, most: i64) -> Option<u8> {
        let mut other = docket.clone();
        other
            .states
            .iter_mut()
            .for_each(|state| state.fixed = state.fixed.min(most));
        let refusal = second::check(&other.bytes()).err()?;
        Some(other.nodes[refusal.place as usize].kind)
    }

    /// Trees of tables that count modulo 2, and of protocols near them, are closed by remainders.
    #[test]
    fn remainders_close_trees() {
        let mut random = Random::new(9);
        let has_remainder = |docket: &Docket| docket.nodes.iter().any(|node| node.kind == 7);
        for table in [remainder::parity(), remainder::table(2, 1, &[1])] {
            let found: Vec<Docket> = (0..100).filter_map(|_| prove(table.clone(), &mut random)).collect();
            assert!(found.len() > 50, "{} of 100", found.len());
            assert!(found.iter().all(has_remainder));
        }
        let near = (0..1000).filter_map(|_| near_parity(&mut random));
        let protocols: BTreeSet<String> = near
            .filter(has_remainder)
            .map(|docket| format!("{:?} {:?}", docket.states, docket.rules))
            .collect();
        assert!(protocols.len() > 10, "{protocols:?}");
    }
}
