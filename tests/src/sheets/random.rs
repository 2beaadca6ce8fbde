//! Random dockets with claim sheets: accepted ones, written in other ways, and with faults in either.

use super::laws::mirrored;
use crate::damage::{self, damage_bytes, damage_node, damage_tree, random_order, renumber_states};
use crate::make::fixed::{self, with_fixed};
use crate::make::sheet::*;
use crate::make::{self, is_large, reorder_rules};
use crate::prover::random_sheet;
use crate::random::Random;
use second::{Docket, Leaf, Node, Sheet, SheetLeaf};

/// Accepted sheets with their dockets. A large one is drawn seldom.
pub struct Pool {
    small: Vec<Claimed>,
    large: Vec<Claimed>,
}

impl Pool {
    /// The families, and sheets that are found for these dockets.
    pub fn new<'a>(dockets: impl Iterator<Item = &'a Docket>, random: &mut Random) -> Pool {
        let mut all = families(random);
        let few_states = dockets.filter(|docket| docket.states.len() <= 4 && docket.rules.len() <= 64);
        all.extend(few_states.filter_map(|docket| Some((docket.clone(), random_sheet(docket, random)?))));
        let (large, small) = all.into_iter().partition(|(docket, _)| is_large(docket));
        Pool { small, large }
    }

    pub fn all(&self) -> impl Iterator<Item = &Claimed> {
        self.small.iter().chain(&self.large)
    }

    fn draw(&self, random: &mut Random) -> &Claimed {
        let large = random.chance(1, 60);
        random.pick(if large { &self.large } else { &self.small })
    }

    /// The bytes of a docket and of a sheet: as they are, written in another way, with faults in the sheet, in the
    /// docket or in both, or with a sheet of another docket, or noise.
    pub fn input(&self, random: &mut Random) -> (Vec<u8>, Vec<u8>) {
        let claimed = self.draw(random);
        let (docket, sheet) = claimed;
        match random.below(24) {
            0 => (docket.bytes(), sheet.to_bytes()),
            1..=3 => as_bytes(&rewritten(claimed, random)),
            4 => (damage::damaged(docket, random), sheet.to_bytes()),
            5 => (damage::damaged(docket, random), damaged(claimed, random)),
            6 => (damage::other_fixed(docket, random), sheet.to_bytes()),
            7 => (docket.bytes(), self.other_sheet(docket, random).to_bytes()),
            8 => (docket.bytes(), noise(docket, random)),
            9..=12 => {
                let claimed = rewritten(claimed, random);
                (claimed.0.bytes(), damaged(&claimed, random))
            }
            _ => (docket.bytes(), damaged(claimed, random)),
        }
    }

    /// A sheet of another docket, with as many states if one is found soon.
    fn other_sheet(&self, docket: &Docket, random: &mut Random) -> &Sheet {
        let mut drawn = (0..20).map(|_| &self.draw(random).1);
        let fits = |sheet: &&Sheet| sheet.numbers.len() == docket.states.len();
        drawn.find(fits).unwrap_or(&self.small[0].1)
    }
}

fn as_bytes((docket, sheet): &Claimed) -> (Vec<u8>, Vec<u8>) {
    (docket.bytes(), sheet.to_bytes())
}

/// The families, many of them in several sizes.
fn families(random: &mut Random) -> Vec<Claimed> {
    let mut all = vec![
        with_sheet(make::broadcast(), |d| spread(d, 1)),
        with_sheet(make::two_outcomes(), |d| spread(d, 1)),
        with_sheet(make::relay(60, 2048), |d| relay_sheet(d, 1024, 128)),
        with_sheet(make::largest(), |d| unreached_sheet(d, 1024, 128)),
        with_sheet(with_fixed(make::largest(), &[1000]), |d| unreached_sheet(d, 1024, 128)),
        greatest_sums(1, 32_767, 2_097_088_000),
        greatest_sums(0, -32_768, -2_097_151_999),
        greatest_sums(1, 32_767, i32::MIN.into()),
        greatest_sums(0, -32_768, i32::MAX.into()),
    ];
    // So many of the greatest depth that one more is met too.
    for depth in (1..=40).chain([40; 100]) {
        all.push(with_sheet(make::deep(depth), |_| deep_sheet(depth)));
    }
    for states in 2..=12 {
        let nodes = 4 + random.below(200);
        let (relay, unreached) = (
            make::relay(states, 5 + states),
            make::layered(2 + states, states, 1, 6, 1),
        );
        all.push(with_sheet(relay, |d| relay_sheet(d, nodes, 4)));
        all.push(with_sheet(unreached, |d| unreached_sheet(d, 7 + nodes, 1 + states)));
        for output in [0, 1] {
            let least = 1 + random.below(states - 1);
            let outputs: Vec<u8> = (0..states).map(|i| output ^ u8::from(i < least)).collect();
            let fixed: Vec<i64> = (0..states).map(|_| random.below(4) as i64).collect();
            let maximum = make::maximum(&outputs);
            all.push(with_sheet(with_fixed(maximum.clone(), &fixed), |d| spread(d, output)));
            all.push(with_sheet(maximum, |d| spread(d, output)));
        }
    }
    all.extend(counting_families(random));
    all
}

/// Majority, quorums and thresholds, with and without fixed agents, and broadcasts whose limit is their number.
fn counting_families(random: &mut Random) -> Vec<Claimed> {
    let mut all = vec![];
    for threshold in 1..=11 {
        all.push(claimed_threshold(threshold, &[0, 1]));
        let inputs: Vec<usize> = (0..=threshold + 1).filter(|_| random.chance(1, 2)).collect();
        all.push(claimed_threshold(threshold, &[&inputs[..], &[1]].concat()));
    }
    for fixed in [[0, 0], [1, 0], [0, 1], [2, 1], [3, 3], [1000, 999], [255, 257]] {
        all.push(claimed_majority(fixed));
        all.extend((1..=4).map(|votes| claimed_quorum(votes, fixed)));
    }
    all.extend((5..=16).map(|votes| claimed_quorum(votes, [random.below(4) as i64, 0])));
    for number in [1, 2, 3, 255, 256, 257, 1000] {
        all.push(with_sheet(fixed::majority(number, number - 1), fixed_majority_sheet));
        let limit = (number - random.below(2) as i64).max(1);
        all.push(with_sheet(with_fixed(make::broadcast(), &[0, number]), |docket| {
            Sheet {
                limit,
                ..spread(docket, 1)
            }
        }));
    }
    all
}

// ---- Changes that keep a sheet accepted

/// The same protocol and claim written in another way: outputs exchanged with the opposite claim, states and rules
/// numbered anew, leaves multiplied, numbers multiplied, leaves in another order and such that no node names.
fn rewritten(claimed: &Claimed, random: &mut Random) -> Claimed {
    let (mut docket, mut sheet) = claimed.clone();
    if random.chance(1, 4) {
        (docket, sheet) = mirrored(&docket, &sheet).unwrap_or((docket, sheet));
    }
    if random.chance(1, 2) {
        renumber(&mut docket, &mut sheet, random);
    }
    if random.chance(1, 2) {
        multiply_numbers(&mut sheet, random);
    }
    if random.chance(1, 2) {
        multiply_leaves(&mut sheet, random);
    }
    if random.chance(1, 2) {
        reorder_leaves(&mut sheet, random);
    }
    (docket, sheet)
}

/// Changes a tree as the tree of a docket that has as many leaves.
fn on_tree(docket: &Docket, sheet: &mut Sheet, tree: usize, change: impl FnOnce(&mut Docket)) {
    let none = vec![0; docket.states.len()];
    let leaf = Leaf {
        y1: none.clone(),
        y2: none,
    };
    let nodes = [&mut sheet.first, &mut sheet.second]
        .into_iter()
        .nth(tree)
        .expect("a tree");
    let mut stand_in = Docket {
        nodes: nodes.clone(),
        leaves: vec![leaf; sheet.leaves.len()],
        ..docket.clone()
    };
    change(&mut stand_in);
    *nodes = stand_in.nodes;
}

/// States and rules numbered anew, in version 2 with the rules in order.
fn renumber(docket: &mut Docket, sheet: &mut Sheet, random: &mut Random) {
    let new = random_order(docket.states.len(), random);
    let old = docket.clone();
    renumber_states(docket, &new);
    let mut order = random_order(docket.rules.len(), random);
    if docket.version == 2 {
        order.sort_by_key(|&rule| docket.rules[rule].key());
    }
    reorder_rules(docket, &order);
    for tree in [0, 1] {
        on_tree(&old, sheet, tree, |stand_in| {
            renumber_states(stand_in, &new);
            reorder_rules(stand_in, &order);
        });
    }
    let moved = |list: &[i64]| {
        let mut other = vec![0; list.len()];
        list.iter().zip(&new).for_each(|(&number, &at)| other[at] = number);
        other
    };
    sheet.numbers = moved(&sheet.numbers);
    for leaf in &mut sheet.leaves {
        leaf.weights = moved(&leaf.weights);
    }
}

/// The greatest factor by which these numbers stay within a limit.
fn most_times<'a>(numbers: impl Iterator<Item = &'a i64>, limit: i64) -> i64 {
    let greatest = numbers.map(|number| number.abs()).max().unwrap_or(0);
    limit / greatest.max(1)
}

/// Multiplies numbers, limit and weights, and lowers the limit by less than the factor; a sheet with a multiplier of 2 or
/// more stays as it is.
fn multiply_numbers(sheet: &mut Sheet, random: &mut Random) {
    if sheet.leaves.iter().any(|leaf| leaf.multiplier > 1) {
        return;
    }
    let weights = sheet.leaves.iter().flat_map(|leaf| &leaf.weights);
    let most = most_times(weights, 10_000).min(most_times(sheet.numbers.iter(), 32_767));
    let factor = 1 + random.below(most as usize) as i64;
    sheet.numbers.iter_mut().for_each(|number| *number *= factor);
    sheet.limit = sheet.limit * factor - random.below(factor as usize) as i64;
    for leaf in &mut sheet.leaves {
        leaf.weights.iter_mut().for_each(|weight| *weight *= factor);
    }
}

/// Multiplies the weights of each leaf and its multiplier by one factor.
fn multiply_leaves(sheet: &mut Sheet, random: &mut Random) {
    for leaf in &mut sheet.leaves {
        let most = most_times(leaf.weights.iter().chain([&leaf.multiplier]), 10_000);
        let any = 1 + random.below(most as usize) as i64;
        let factor = *random.pick(&[1, 2.min(most), any, most]);
        leaf.weights.iter_mut().for_each(|weight| *weight *= factor);
        leaf.multiplier *= factor;
    }
}

/// Adds leaves that no node names, and puts all in another order.
fn reorder_leaves(sheet: &mut Sheet, random: &mut Random) {
    let room = 128 - sheet.leaves.len();
    for _ in 0..random.below(1 + room).min(random.below(8)) {
        let states = sheet.numbers.len();
        let weights = (0..states).map(|_| random.below(20_001) as i64 - 10_000).collect();
        let multiplier = random.below(10_001) as i64;
        sheet.leaves.push(SheetLeaf { weights, multiplier });
    }
    let order = random_order(sheet.leaves.len(), random);
    sheet.leaves = order.iter().map(|&leaf| sheet.leaves[leaf].clone()).collect();
    let of_leaf = |node: &&mut Node| node.kind == 0;
    for node in sheet.first.iter_mut().chain(&mut sheet.second).filter(of_leaf) {
        let place = order.iter().position(|&leaf| leaf == node.argument);
        node.argument = place.expect("a leaf that is named");
    }
}

// ---- Faults

/// The sheet's bytes with one or several faults of random kinds.
fn damaged((docket, sheet): &Claimed, random: &mut Random) -> Vec<u8> {
    let raw = random.chance(1, 5);
    let mut other = sheet.clone();
    for _ in 0..random.below(4) / 2 + usize::from(!raw) {
        damage_part(docket, &mut other, random);
    }
    let mut bytes = other.to_bytes();
    if raw {
        damage_bytes(&mut bytes, 8, random);
    }
    bytes
}

/// Changes one part. Trees are changed more often than what comes before them.
fn damage_part(docket: &Docket, sheet: &mut Sheet, random: &mut Random) {
    let tree = random.below(2);
    match random.below(16) {
        0 | 1 => damage_number(&mut sheet.numbers, random),
        2 | 3 => sheet.limit = other_limit(sheet.limit, random),
        4 | 5 => damage_leaf(sheet, random),
        6 | 7 => damage_trees(sheet, random),
        8 | 9 => on_tree(docket, sheet, tree, |stand_in| damage_tree(stand_in, random)),
        _ => on_tree(docket, sheet, tree, |stand_in| damage_node(stand_in, random)),
    }
}

/// Another number for one state, an input or not: next to the old one, at a limit, its opposite, or one of a high byte.
fn damage_number(numbers: &mut [i64], random: &mut Random) {
    let number = &mut numbers[random.below(numbers.len())];
    *number = match random.below(4) {
        0 | 1 => (*number + random.pick(&[-1, 1])).clamp(-32_768, 32_767),
        2 => (-*number).min(32_767),
        _ => *random.pick(&[-32_768, -256, 0, 256, 32_767]),
    };
}

/// Another limit: next to the old one, at an end of its range, with other high bits, or a small one.
fn other_limit(old: i64, random: &mut Random) -> i64 {
    let limit = match random.below(4) {
        0 | 1 => old + random.pick(&[-1, 1]),
        2 => *random.pick(&[-1, 0, 1, i32::MIN.into(), i32::MAX.into()]),
        _ => old + random.pick(&[-65_536, 65_536, 256]),
    };
    limit.clamp(i32::MIN.into(), i32::MAX.into())
}

/// Another weight or multiplier; or a leaf more, less or twice.
fn damage_leaf(sheet: &mut Sheet, random: &mut Random) {
    let count = sheet.leaves.len();
    if count == 0 {
        return;
    }
    let (at, other) = (random.below(count), random.below(count));
    let copy = sheet.leaves[other].clone();
    let leaf = &mut sheet.leaves[at];
    let state = random.below(leaf.weights.len());
    match random.below(8) {
        0 | 1 => leaf.weights[state] += random.pick(&[-1, 1]),
        2 => leaf.weights[state] = *random.pick(&[-32_768, -10_001, -10_000, 10_000, 10_001, 32_767]),
        3 | 4 => leaf.multiplier = (leaf.multiplier + random.pick(&[-1, 1])).max(0),
        5 => leaf.multiplier = *random.pick(&[0, 1, 2, 256, 10_000, 10_001, 32_768, 65_535]),
        6 => sheet.leaves.swap(at, other),
        _ if random.chance(1, 2) => drop(sheet.leaves.pop()),
        _ => sheet.leaves.resize(*random.pick(&[128, 129]), copy),
    }
}

/// The trees exchanged, one in the place of the other, or a node of one moved to the other.
fn damage_trees(sheet: &mut Sheet, random: &mut Random) {
    let Sheet { first, second, .. } = sheet;
    match random.below(7) {
        0 => std::mem::swap(first, second),
        1 => *first = second.clone(),
        2 => *second = first.clone(),
        3 => second.splice(0..0, first.pop()).for_each(drop),
        4 if !second.is_empty() => first.push(second.remove(0)),
        5 => second.extend(first.pop()),
        _ => first.extend(second.pop()),
    }
}

/// Random bytes, in half of the cases with a header that begins like that of a sheet for the docket.
fn noise(docket: &Docket, random: &mut Random) -> Vec<u8> {
    let length = random.below(200);
    let mut bytes: Vec<u8> = (0..length).map(|_| random.word() as u8).collect();
    if length >= 16 && random.chance(1, 2) {
        let [states, total] = [docket.states.len(), length].map(|number| (number as u16).to_le_bytes());
        bytes[..8].copy_from_slice(&[states[0], states[1], 1, 0, 1, 0, 0, 0]);
        bytes[14..16].copy_from_slice(&total);
    }
    bytes
}

#[cfg(test)]
mod tests {
    use super::*;
    use crate::calls::{check_sheet_code, refusal_by_code};
    use crate::prover::{random_docket, random_fixed};
    use crate::sheets::{is_small, outputs_shown, AGENTS};
    use second::Claim;
    use std::collections::BTreeSet;

    /// The families, and sheets that are found in so many tries.
    fn pool(tries: usize, random: &mut Random) -> Pool {
        let dockets: Vec<Docket> = (0..tries)
            .flat_map(|_| [random_docket(random), random_fixed(random)])
            .flatten()
            .collect();
        Pool::new(dockets.iter(), random)
    }

    /// What accepted sheets claim is true of all small starts.
    #[test]
    fn claims_are_true() {
        let mut random = Random::new(31);
        let (mut tried, mut both) = (0, 0);
        for (docket, sheet) in pool(2000, &mut random).all().filter(|(docket, _)| is_small(docket)) {
            let (numbers, limit) = (sheet.numbers.clone(), sheet.limit);
            match outputs_shown(docket, &Claim { numbers, limit }, AGENTS) {
                Ok(shown) => both += usize::from(shown.len() == 2),
                Err(problem) => panic!("{sheet:?}: {problem}"),
            }
            tried += 1;
        }
        assert!(tried > 400 && both > 80, "{tried}, {both}");
    }

    #[test]
    fn rewritten_sheets_stay_accepted() {
        let mut random = Random::new(32);
        let pool = pool(300, &mut random);
        for claimed in pool.all() {
            for _ in 0..if is_large(&claimed.0) { 2 } else { 20 } {
                let (docket, sheet) = as_bytes(&rewritten(claimed, &mut random));
                assert_eq!(check_sheet_code(&docket, &sheet), 0, "{claimed:?}");
            }
        }
    }

    /// Damage leads to refusals of the bytes and of either tree, and seldom to none.
    #[test]
    fn most_damage_shows() {
        let mut random = Random::new(33);
        let claimed = claimed_quorum(2, [0, 0]);
        let docket = claimed.0.bytes();
        let mut met = BTreeSet::new();
        let mut accepted = 0;
        for _ in 0..4000 {
            let said = refusal_by_code(check_sheet_code(&docket, &damaged(&claimed, &mut random)));
            accepted += usize::from(said.is_none());
            met.extend(said.map(|refusal| (refusal.number, refusal.place)));
        }
        assert!(accepted < 1200, "{accepted}");
        assert!(met.contains(&(15, 0)));
        for place in 0..=26 {
            let numbers: Vec<u32> = met.iter().filter(|(_, at)| *at == place).map(|(n, _)| *n).collect();
            assert!(numbers.contains(&12), "{place}: {numbers:?}");
        }
        for place in [2, 11, 14, 15, 25] {
            assert!(met.contains(&(13, place)), "{place}");
        }
    }
}
