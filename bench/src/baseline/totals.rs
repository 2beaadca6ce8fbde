//! The sheet of exact totals: the starts are gone through in one array, and each is run in a copy of it.

use super::docket::Docket;
use super::{machine, refuse, Refusal};
use second::Totals;
use std::ops::RangeInclusive;

const AGENTS: RangeInclusive<u8> = 2..=12;
const MOST_INPUTS: u32 = 8;

/// Counts of agents; those behind the last state are 0.
type Counts = [u32; 64];

/// Test 34, then every start with so many agents besides the fixed ones, run until it rests.
pub fn totals(docket: &Docket, agents: u8) -> Result<Totals, Refusal> {
    let inputs = docket.states.with(2);
    if inputs.count_ones() > MOST_INPUTS || !AGENTS.contains(&agents) {
        return refuse(34, 0);
    }
    let (states, ones) = (docket.states.len(), docket.states.with(1));
    let fixed = fixed_counts(docket);
    let mut start = fixed;
    start[inputs.trailing_zeros() as usize] += u32::from(agents);
    let mut totals = Totals::default();
    let mut most = start;
    loop {
        let mut counts = start;
        let steps = run_to_rest(docket, &mut counts[..states]);
        let occupied = occupied(&counts[..states]);
        totals.starts += 1;
        totals.zeros += u64::from(occupied & ones == 0);
        totals.ones += u64::from(occupied & !ones == 0);
        if steps > totals.steps {
            totals.steps = steps;
            most = start;
        }
        if !next_start(inputs, &fixed, &mut start) {
            break;
        }
    }
    totals.start = most[..states].to_vec();
    Ok(totals)
}

fn fixed_counts(docket: &Docket) -> Counts {
    let mut fixed = [0; 64];
    for (state, count) in fixed[..docket.states.len()].iter_mut().enumerate() {
        *count = u32::from(docket.states.fixed(state));
    }
    fixed
}

/// Turns a start into the next one, and says whether there is one. Of the inputs before the last one, the last that has
/// more than its fixed agents gives one to the input behind it, which also takes those that the last one has more.
fn next_start(inputs: u64, fixed: &Counts, start: &mut Counts) -> bool {
    let last = inputs.ilog2() as usize;
    let mut givers = inputs ^ 1 << last;
    while givers != 0 {
        let giver = givers.ilog2() as usize;
        givers ^= 1 << giver;
        if start[giver] > fixed[giver] {
            let taker = giver + 1 + (inputs >> giver >> 1).trailing_zeros() as usize;
            let spare = start[last] - fixed[last];
            start[last] = fixed[last];
            start[giver] -= 1;
            start[taker] += spare + 1;
            return true;
        }
    }
    false
}

/// A run has a limit of 32 bits, so runs are repeated.
fn run_to_rest(docket: &Docket, counts: &mut [u32]) -> u64 {
    let mut total = 0;
    loop {
        let (steps, rests) = machine::run(docket, counts, u32::MAX);
        total += steps;
        if rests {
            return total;
        }
    }
}

/// The states that hold agents.
fn occupied(counts: &[u32]) -> u64 {
    let held = |set, &count: &u32| set << 1 | u64::from(count > 0);
    counts.iter().rev().fold(0, held)
}

#[cfg(test)]
mod test {
    use crate::baseline;
    use tests::make;
    use tests::make::fixed::with_fixed;

    #[test]
    fn totals_and_refusals_are_those_of_the_second_implementation() {
        let refused = include_bytes!("../../../tests/corpus/P05_node2_set_1.docket").to_vec();
        let made = [
            make::broadcast(),
            make::maximum(&[0, 1, 0]),
            make::remainder::parity(),
            make::relay(64, 5),
            make::still(8),
            make::still(9),
            with_fixed(make::broadcast(), &[3, 1]),
            with_fixed(make::maximum(&[0, 1, 1, 0]), &[0, 5, 0, 7]),
        ];
        for docket in made.map(|docket| docket.bytes()).into_iter().chain([refused, vec![]]) {
            for agents in [0, 1, 2, 3, 5, 12, 13, 255] {
                let input = [&[agents], &docket[..]].concat();
                let said = baseline::tally(&input).map_err(|refusal| (refusal.number, refusal.place));
                let second = second::tally(&input).map_err(|refusal| (refusal.number, refusal.place));
                assert_eq!(said, second, "{agents} agents, {docket:?}");
            }
        }
        assert!(baseline::tally(&[]).is_err());
    }
}
