//! Tests 1 to 8, of which 14 is one: the header and the plain fields of the sections.

use super::{refuse, Refusal};
use std::ops::RangeInclusive;

/// p, q, p', q', layer.
pub type Rule = [u8; 5];

const COUNTS: [RangeInclusive<usize>; 5] = [2..=64, 0..=256, 0..=16, 1..=2048, 0..=128];
const WEIGHT_LIMIT: u32 = 1_000_000;
const FIXED_LIMIT: u16 = 1000;

/// The sections of a file that passed tests 1 to 8 and 14, read in place.
pub struct Docket<'a> {
    pub states: States<'a>,
    pub rules: &'a [Rule],
    pub layers: usize,
    pub weights: &'a [[u8; 4]],
    pub nodes: &'a [[u8; 12]],
    pub leaf_weights: &'a [[u8; 2]],
}

/// The records of the states in either version.
#[derive(Clone, Copy)]
pub enum States<'a> {
    One(&'a [u8]),
    Two(&'a [[u8; 3]]),
}

impl<'a> States<'a> {
    fn of(version: u32, section: &'a [u8]) -> Self {
        match version {
            2 => States::Two(section.as_chunks().0),
            _ => States::One(section),
        }
    }

    pub fn len(&self) -> usize {
        match self {
            States::One(states) => states.len(),
            States::Two(states) => states.len(),
        }
    }

    /// The first bytes of the records.
    fn bytes(&self) -> impl DoubleEndedIterator<Item = u8> + 'a {
        let (one, two): (&[u8], &[[u8; 3]]) = match *self {
            States::One(states) => (states, &[]),
            States::Two(states) => (&[], states),
        };
        one.iter().copied().chain(two.iter().map(|record| record[0]))
    }

    /// The fixed agents of a state.
    pub fn fixed(&self, state: usize) -> u16 {
        match self {
            States::One(_) => 0,
            States::Two(states) => u16::from_le_bytes([states[state][1], states[state][2]]),
        }
    }

    /// The states with that bit in their record.
    pub fn with(&self, bit: u8) -> u64 {
        set_of(self.bytes().rev().map(|byte| byte & bit != 0))
    }

    /// The states with fixed agents.
    pub fn with_fixed(&self) -> u64 {
        match self {
            States::One(_) => 0,
            States::Two(states) => set_of(states.iter().rev().map(|[_, low, high]| low | high != 0)),
        }
    }
}

/// A set of states, from the last one to the first.
fn set_of(named: impl Iterator<Item = bool>) -> u64 {
    named.fold(0, |set, named| set << 1 | u64::from(named))
}

/// The bytes of a state's record.
pub fn state_length(version: u32) -> usize {
    if version == 2 {
        3
    } else {
        1
    }
}

impl<'a> Docket<'a> {
    pub fn read(file: &'a [u8]) -> Result<Self, Refusal> {
        let docket = Self::sections(file)?;
        docket.table_tests()?;
        Ok(docket)
    }

    /// The bytes of the five sections, whose lengths fit the counts.
    pub fn of(version: u32, sections: [&'a [u8]; 5], layers: usize) -> Self {
        let [states, rules, weights, nodes, leaves] = sections;
        Docket {
            states: States::of(version, states),
            rules: rules.as_chunks().0,
            layers,
            weights: weights.as_chunks().0,
            nodes: nodes.as_chunks().0,
            leaf_weights: leaves.as_chunks().0,
        }
    }

    /// Tests 5, 6, 7, 14 and 8.
    pub fn table_tests(&self) -> Result<(), Refusal> {
        self.state_test()?;
        let used = self.rule_tests()?;
        self.order_test()?;
        self.layer_test(used)
    }

    /// Tests 1 to 4.
    fn sections(file: &'a [u8]) -> Result<Self, Refusal> {
        let Some((header, body)) = file.split_first_chunk::<24>() else {
            return refuse(1, 0);
        };
        let field = |i: usize| usize::from(u16::from_le_bytes([header[2 * i], header[2 * i + 1]]));
        if field(11) != file.len() {
            return refuse(1, 0);
        }
        let version = field(0) as u32;
        version_test(version)?;
        let [s, r, l, n, k] = [field(1), field(2), field(3), field(4), field(5)];
        count_test([s, r, l, n, k])?;
        let lengths = [state_length(version) * s, 5 * r, 4 * s * l, 12 * n, 4 * s * k];
        let mut end = 24;
        for place in 0..=5 {
            if field(place + 6) != end {
                return refuse(4, place);
            }
            end += lengths.get(place).unwrap_or(&0);
        }
        let (states, body) = body.split_at(lengths[0]);
        let (rules, body) = body.split_at(lengths[1]);
        let (weights, body) = body.split_at(lengths[2]);
        let (nodes, leaves) = body.split_at(lengths[3]);
        Ok(Self::of(version, [states, rules, weights, nodes, leaves], l))
    }

    /// Test 5.
    fn state_test(&self) -> Result<(), Refusal> {
        let bits = self.states.bytes().fold(0, |bits, state| bits | state);
        let over = |state: usize| self.states.fixed(state) > FIXED_LIMIT;
        let any_over = matches!(self.states, States::Two(_)) && (0..self.states.len()).any(over);
        if bits > 3 || any_over {
            let bad = |(state, byte)| byte > 3 || over(state);
            return refuse(5, self.states.bytes().enumerate().position(bad).unwrap_or(0));
        }
        if bits & 2 == 0 {
            return refuse(5, self.states.len());
        }
        Ok(())
    }

    /// Tests 6 and 7. The result has bit i set if a rule has layer i.
    fn rule_tests(&self) -> Result<u32, Refusal> {
        let (states, layers) = (self.states.len() as u8, self.layers as u8);
        let mut seen = [0u64; 64];
        let mut repeated = false;
        let mut used = 0;
        for (place, &[p, q, a, b, layer]) in self.rules.iter().enumerate() {
            let pairs = (p <= q) & (q < states) & (a <= b) & (b < states);
            if !(pairs & ((p, q) != (a, b)) & (layer < layers)) {
                return refuse(6, place);
            }
            let row = &mut seen[usize::from(p & 63)];
            let bit = 1 << (q & 63);
            repeated |= *row & bit != 0;
            *row |= bit;
            used |= 1 << (layer & 31);
        }
        if repeated {
            self.equal_rule_test()?;
        }
        Ok(used)
    }

    /// Test 7, where some pair has several rules. Rules that differ may share a mark, so a rule whose mark is set
    /// already is compared with the earlier ones.
    fn equal_rule_test(&self) -> Result<(), Refusal> {
        let mut seen = [0u64; 64];
        for (place, rule) in self.rules.iter().enumerate() {
            let [p, q, a, b, _] = rule.map(usize::from);
            let mark = (64 * a + b + 709 * p + 1493 * q) % 4096;
            let row = &mut seen[mark / 64];
            let bit = 1 << (mark % 64);
            if *row & bit != 0 && self.rules[..place].iter().any(|earlier| earlier[..4] == rule[..4]) {
                return refuse(7, place);
            }
            *row |= bit;
        }
        Ok(())
    }

    /// Test 14, which version 1 does not have. The bytes of a rule are one number, with the layer foremost.
    fn order_test(&self) -> Result<(), Refusal> {
        if let States::One(_) = self.states {
            return Ok(());
        }
        let mut least = 0;
        for (place, &[p, q, a, b, layer]) in self.rules.iter().enumerate() {
            let key = u64::from_be_bytes([0, 0, 0, layer, p, q, a, b]);
            if key < least {
                return refuse(14, place);
            }
            least = key + 1;
        }
        Ok(())
    }

    /// Test 8.
    fn layer_test(&self, used: u32) -> Result<(), Refusal> {
        let above = |weight: &[u8; 4]| u32::from_le_bytes(*weight) > WEIGHT_LIMIT;
        let too_large = self.weights.iter().fold(false, |found, weight| found | above(weight));
        let unused = used.trailing_ones() as usize;
        let heavy = match too_large {
            true => self.weights.iter().take_while(|weight| !above(weight)).count() / self.states.len(),
            false => self.layers,
        };
        match unused.min(heavy) {
            place if place < self.layers => refuse(8, place),
            _ => Ok(()),
        }
    }
}

/// Test 2.
pub fn version_test(version: u32) -> Result<(), Refusal> {
    match version {
        1 | 2 => Ok(()),
        _ => refuse(2, 0),
    }
}

/// Test 3.
pub fn count_test(counts: [usize; 5]) -> Result<(), Refusal> {
    let [_, rules, layers, _, _] = counts;
    for (place, limits) in COUNTS.iter().enumerate() {
        if !limits.contains(&counts[place]) || (place == 2 && (layers == 0) != (rules == 0)) {
            return refuse(3, place);
        }
    }
    Ok(())
}
