//! Claim sheets for dockets of few states: numbers and a limit that fit what small starts come to, and trees that are
//! searched for.

use super::{Facts, Search};
use crate::calls;
use crate::random::Random;
use crate::sheets::sum;
use crate::totals::{said_by, with_agents, Run};
use second::{Docket, Node, Sheet, SheetLeaf};

/// The numbers and the multipliers that are tried, and how many weights around 0.
const NUMBERS: [i64; 5] = [0, 1, -1, 2, -2];
pub(super) const MULTIPLIERS: [i64; 4] = [0, 1, 2, 3];
const WEIGHTS: i64 = 5;

/// The most agents, besides fixed ones, of the starts that numbers are made to fit.
const AGENTS: u8 = 5;

/// How many numbers that fit are tried for a docket.
const TRIES: usize = 3;

/// One of the two trees of a sheet: the output that it assumes at the end, and the sum that it assumes at the start. By
/// the latter, what a leaf adds to its weights at the start is, for k = 1, these numbers and, to all of them, the bound.
pub(super) struct Half {
    pub output: u8,
    numbers: Vec<i64>,
    bound: i64,
    pub leaves: Vec<SheetLeaf>,
}

/// A sheet that is accepted with this docket, for random numbers; none where this try fails.
pub fn random_sheet(docket: &Docket, random: &mut Random) -> Option<Sheet> {
    let runs = small_runs(docket)?;
    let mut claims: Vec<(Vec<i64>, i64)> = candidates(docket)
        .into_iter()
        .filter_map(|numbers| fitting_limit(&runs, &numbers, random).map(|limit| (numbers, limit)))
        .collect();
    random.shuffle(&mut claims);
    let mut tries = claims.into_iter().take(TRIES);
    tries.find_map(|(numbers, limit)| prove_sheet(docket, numbers, limit, random))
}

/// A sheet for these numbers and this limit; none where the search fails.
pub fn prove_sheet(docket: &Docket, numbers: Vec<i64>, limit: i64, random: &mut Random) -> Option<Sheet> {
    let against: Vec<i64> = numbers.iter().map(|number| -number).collect();
    let (first, leaves) = prove_half(docket, 0, numbers.clone(), -limit, vec![], random)?;
    let (second, leaves) = prove_half(docket, 1, against, limit - 1, leaves, random)?;
    let sheet = Sheet {
        numbers,
        limit,
        first,
        second,
        leaves,
    };
    second::check_sheet(&docket.bytes(), &sheet.to_bytes())
        .is_ok()
        .then_some(sheet)
}

/// A tree with its leaves, those given among them.
fn prove_half(
    docket: &Docket,
    output: u8,
    numbers: Vec<i64>,
    bound: i64,
    leaves: Vec<SheetLeaf>,
    random: &mut Random,
) -> Option<(Vec<Node>, Vec<SheetLeaf>)> {
    let half = Half {
        output,
        numbers,
        bound,
        leaves,
    };
    let mut docket = docket.clone();
    docket.nodes.clear();
    let facts = Facts::fresh(&docket);
    let mut search = Search {
        docket,
        random,
        half: Some(half),
    };
    search.close(facts, 1)?;
    Some((search.docket.nodes, search.half?.leaves))
}

impl Search<'_> {
    /// A leaf with small weights that closes, by one of these multipliers.
    pub(super) fn sheet_leaf(&self, facts: &Facts, multipliers: &[i64]) -> Option<SheetLeaf> {
        let half = self.half.as_ref()?;
        let sides = self.leaf_sides(facts, 1, WEIGHTS);
        let upper = |y: &[i64], k: i64| {
            let sum = self.upper_sum(facts, |i| y[i] + k * half.numbers[i])?;
            Some(sum + k * half.bound)
        };
        let mut leaves = multipliers
            .iter()
            .flat_map(|&k| sides.iter().map(move |side| (side, k)));
        let ((weights, _), multiplier) =
            leaves.find(|((y, lower), k)| upper(y, *k).is_some_and(|upper| *lower > upper))?;
        let weights = weights.clone();
        Some(SheetLeaf { weights, multiplier })
    }
}

/// All starts of few agents, each run until it rests.
fn small_runs(docket: &Docket) -> Option<Vec<Run>> {
    let docket = docket.bytes();
    let of_size = |agents: u8| said_by(calls::check_code, &calls::say, &with_agents(agents, &docket)).ok();
    let runs: Option<Vec<Vec<Run>>> = (2..=AGENTS).map(of_size).collect();
    Some(runs?.into_iter().flatten().collect())
}

/// All small numbers for the inputs.
fn candidates(docket: &Docket) -> Vec<Vec<i64>> {
    docket.states.iter().fold(vec![vec![]], |all, state| {
        let numbers = if state.input { &NUMBERS[..] } else { &NUMBERS[..1] };
        let longer = |list: &Vec<i64>| numbers.iter().map(|&number| [&list[..], &[number]].concat()).collect();
        all.iter().flat_map::<Vec<Vec<i64>>, _>(longer).collect()
    })
}

/// A limit that tells the starts with output 1 from those with output 0, if there is one.
fn fitting_limit(runs: &[Run], numbers: &[i64], random: &mut Random) -> Option<i64> {
    let sums = |verdict: u64| {
        let of_verdict = runs.iter().filter(move |run| run.verdict == verdict);
        of_verdict.map(|run| sum(numbers, &run.start))
    };
    let more = random.below(3) as i64;
    match (sums(0).max(), sums(1).min()) {
        (Some(zeros), Some(ones)) => (zeros < ones).then(|| (zeros + 1 + more).min(ones)),
        (Some(zeros), None) => Some(zeros + 1 + more),
        (None, ones) => ones.map(|ones| ones - more),
    }
}

#[cfg(test)]
mod tests {
    use super::*;
    use crate::prover::{random_docket, random_fixed};
    use second::State;

    /// Sheets are found for protocols of both versions: with both outputs, and with multiplier 1 and greater ones; in
    /// version 2 also with fixed agents that the sum counts, and with multiplier 0.
    #[test]
    fn sheets_are_found() {
        let mut random = Random::new(21);
        let dockets: Vec<Docket> = (0..3000)
            .flat_map(|_| [random_docket(&mut random), random_fixed(&mut random)])
            .flatten()
            .collect();
        for version in [1, 2] {
            let of_version = || dockets.iter().filter(|docket| docket.version == version);
            let found: Vec<(&Docket, Sheet)> = of_version()
                .filter_map(|docket| random_sheet(docket, &mut random).map(|sheet| (docket, sheet)))
                .collect();
            let number = |test: &dyn Fn(&Docket, &Sheet) -> bool| found.iter().filter(|(d, s)| test(d, s)).count();
            assert!(
                3 * found.len() > of_version().count(),
                "{} in version {version}",
                found.len()
            );
            let decides = |sheet: &Sheet| sheet.numbers.iter().any(|&number| number != 0);
            let with = |sheet: &Sheet, k: fn(i64) -> bool| sheet.leaves.iter().any(|leaf| k(leaf.multiplier));
            let fixed = |docket: &Docket, sheet: &Sheet| {
                let mut states = docket.states.iter().zip(&sheet.numbers);
                states.any(|(state, &number): (&State, &i64)| state.fixed > 0 && number != 0)
            };
            let numbers = [
                number(&|docket, sheet| decides(sheet) && has_both_outputs(docket)),
                number(&|_, sheet| with(sheet, |k| k == 1)),
                number(&|_, sheet| with(sheet, |k| k > 1)),
            ];
            assert!(
                numbers.iter().all(|&number| number > 20),
                "{numbers:?} in version {version}"
            );
            let numbers = [number(&fixed), number(&|_, sheet| with(sheet, |k| k == 0))];
            assert!(version == 1 || numbers.iter().all(|&number| number > 20), "{numbers:?}");
        }
    }

    fn has_both_outputs(docket: &Docket) -> bool {
        let runs = small_runs(docket).expect("runs");
        [0, 1]
            .iter()
            .all(|&verdict| runs.iter().any(|run| run.verdict == verdict))
    }
}
