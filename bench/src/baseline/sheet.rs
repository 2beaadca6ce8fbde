//! Claim sheets: test 15, and two trees over one run, read in place.

use super::docket::Docket;
use super::tree::{is_outside, states_of, walk, Assumed, Weights};
use super::{refuse, Refusal};
use std::ops::RangeInclusive;

const NODES: RangeInclusive<usize> = 1..=1024;
const MOST_LEAVES: usize = 128;
const MOST_TIMES: u16 = 10_000;

/// The sections of a sheet that passed test 15; a leaf has a weight for each state, and its multiplier.
struct Sheet<'a> {
    numbers: &'a [[u8; 2]],
    limit: i64,
    first: &'a [[u8; 12]],
    second: &'a [[u8; 12]],
    leaves: &'a [[u8; 2]],
}

/// One run: a tree assumes an output at its end. The numbers join the weights at the start with a sign, and the upper sum
/// begins with the bound, each times the multiplier.
struct OneRun<'a> {
    sheet: &'a Sheet<'a>,
    output: u64,
    sign: i64,
    bound: i64,
}

struct OneEnd<'a> {
    run: &'a OneRun<'a>,
    weights: &'a [[u8; 2]],
    multiplier: i64,
}

impl Assumed for OneRun<'_> {
    const RUNS: usize = 1;
    type Leaf<'a>
        = OneEnd<'a>
    where
        Self: 'a;

    fn output(&self, _: usize) -> u64 {
        self.output
    }

    fn leaves(&self) -> usize {
        self.sheet.leaves.len() / (self.sheet.numbers.len() + 1)
    }

    fn leaf(&self, leaf: usize) -> OneEnd<'_> {
        let states = self.sheet.numbers.len();
        let record = &self.sheet.leaves[leaf * (states + 1)..][..=states];
        OneEnd {
            run: self,
            weights: &record[..states],
            multiplier: i64::from(u16::from_le_bytes(record[states])),
        }
    }
}

impl Weights for OneEnd<'_> {
    fn y(&self, _: usize, state: usize) -> i32 {
        i32::from(i16::from_le_bytes(self.weights[state]))
    }

    fn start(&self, state: usize) -> i64 {
        let number = i64::from(i16::from_le_bytes(self.run.sheet.numbers[state]));
        i64::from(self.y(1, state)) + self.run.sign * self.multiplier * number
    }

    fn upper(&self) -> i64 {
        self.multiplier * self.run.bound
    }
}

/// Test 15, then the two trees, for a docket that is accepted.
pub fn check(docket: &Docket, sheet: &[u8]) -> Result<(), Refusal> {
    let Some(sheet) = Sheet::read(docket, sheet) else {
        return refuse(15, 0);
    };
    let tree = |verdict: u8, sign: i64, bound: i64| OneRun {
        sheet: &sheet,
        output: states_of(docket, verdict),
        sign,
        bound,
    };
    walk(docket, sheet.first, &tree(0, 1, -sheet.limit))?;
    walk(docket, sheet.second, &tree(1, -1, sheet.limit - 1)).map_err(|refusal| Refusal {
        place: sheet.first.len() as u32 + refusal.place,
        ..refusal
    })
}

impl<'a> Sheet<'a> {
    /// Test 15.
    fn read(docket: &Docket, file: &'a [u8]) -> Option<Self> {
        let (header, body) = file.split_first_chunk::<16>()?;
        let field = |i: usize| usize::from(u16::from_le_bytes([header[2 * i], header[2 * i + 1]]));
        let states = docket.states.len();
        let [first, second, leaves] = [field(1), field(2), field(3)];
        let counts = NODES.contains(&first) && NODES.contains(&second) && leaves <= MOST_LEAVES;
        let nodes = 20 + 2 * states;
        let begin = nodes + 12 * (first + second);
        let total = begin + (2 * states + 2) * leaves;
        let fields = [field(0), field(4), field(5), field(6), field(7), file.len()];
        if !counts || fields != [states, 16, nodes, begin, total, total] {
            return None;
        }
        let (numbers, body) = body.split_at(2 * states);
        let (limit, body) = body.split_first_chunk::<4>()?;
        let (nodes, leaves) = body.split_at(12 * (first + second));
        let (first, second) = nodes.as_chunks().0.split_at(first);
        let sheet = Sheet {
            numbers: numbers.as_chunks().0,
            limit: i64::from(i32::from_le_bytes(*limit)),
            first,
            second,
            leaves: leaves.as_chunks().0,
        };
        sheet.holds(docket).then_some(sheet)
    }

    /// Whether numbers, weights and multipliers keep their rules.
    fn holds(&self, docket: &Docket) -> bool {
        let (states, inputs) = (self.numbers.len(), docket.states.with(2));
        let mut numbers = self.numbers.iter().enumerate();
        let mut leaves = self.leaves.chunks_exact(states + 1);
        numbers.all(|(state, number)| inputs >> state & 1 == 1 || *number == [0, 0])
            && leaves
                .all(|leaf| !leaf[..states].iter().any(is_outside) && u16::from_le_bytes(leaf[states]) <= MOST_TIMES)
    }
}

#[cfg(test)]
mod test {
    use super::super::check_sheet_code;
    use std::collections::BTreeSet;
    use tests::calls;
    use tests::random::Random;
    use tests::sheets::Pool;

    #[test]
    fn sheets_are_answered_as_by_the_second_implementation() {
        let mut random = Random::new(10);
        let pool = Pool::new(std::iter::empty(), &mut random);
        let mut numbers = BTreeSet::new();
        for _ in 0..10_000 {
            let (docket, sheet) = pool.input(&mut random);
            let code = calls::check_sheet_code(&docket, &sheet);
            assert_eq!(check_sheet_code(&docket, &sheet), code);
            numbers.insert(code / 65_536);
        }
        assert!(numbers.is_superset(&[0, 9, 12, 13, 15].into()), "{numbers:?}");
    }
}
