//! Brute force: what a claim says of all small starts, beside every terminal configuration that they reach.

use crate::totals::starts;
use second::{Claim, Docket, Rule};
use std::collections::BTreeSet;
use std::ops::RangeInclusive;

/// The numbers of agents, besides fixed ones, of the starts that are tried.
pub const AGENTS: RangeInclusive<u8> = 2..=6;

/// The most states, inputs and fixed agents of a docket whose starts are tried.
const MOST_STATES: usize = 9;
const MOST_INPUTS: usize = 5;
const MOST_FIXED: i64 = 6;

/// A count of agents for each state.
type Configuration = Vec<u32>;

/// Whether a docket is so small that its starts can be tried.
pub fn is_small(docket: &Docket) -> bool {
    let fixed: i64 = docket.states.iter().map(|state| state.fixed).sum();
    let inputs = docket.states.iter().filter(|state| state.input).count();
    docket.states.len() <= MOST_STATES && inputs <= MOST_INPUTS && fixed <= MOST_FIXED
}

/// The weighed sum of a start.
pub fn sum(numbers: &[i64], start: &[u32]) -> i64 {
    let terms = numbers.iter().zip(start);
    terms.map(|(number, &count)| number * i64::from(count)).sum()
}

/// The outputs that starts of these sizes come to, by a claim that is true of all of them; else the first start that
/// reaches a terminal configuration of another output than the claim says.
pub fn outputs_shown(docket: &Docket, claim: &Claim, agents: RangeInclusive<u8>) -> Result<BTreeSet<u8>, String> {
    let mut shown = BTreeSet::new();
    for start in agents.flat_map(|agents| starts(docket, agents)) {
        let claimed = u8::from(sum(&claim.numbers, &start) >= claim.limit);
        let wrong = |end: &Configuration| !has_output(docket, end, claimed);
        if let Some(end) = terminals(docket, &start).into_iter().find(wrong) {
            return Err(format!("{start:?} reaches {end:?}, and not output {claimed}"));
        }
        shown.insert(claimed);
    }
    Ok(shown)
}

/// Whether every state with an agent has this output.
fn has_output(docket: &Docket, configuration: &[u32], output: u8) -> bool {
    let mut states = docket.states.iter().zip(configuration);
    states.all(|(state, &count)| count == 0 || state.verdict == output)
}

/// All terminal configurations that a start reaches, by any rules in any order.
fn terminals(docket: &Docket, start: &[u32]) -> Vec<Configuration> {
    let mut reached: BTreeSet<Configuration> = [start.to_vec()].into();
    let (mut open, mut terminal) = (vec![start.to_vec()], vec![]);
    while let Some(configuration) = open.pop() {
        let mut next = docket
            .rules
            .iter()
            .filter_map(|rule| fired(&configuration, rule))
            .peekable();
        if next.peek().is_none() {
            terminal.push(configuration);
            continue;
        }
        open.extend(next.filter(|after| reached.insert(after.clone())));
    }
    terminal
}

/// The configuration after a rule has fired; none where it is not enabled.
fn fired(configuration: &[u32], rule: &Rule) -> Option<Configuration> {
    let mut after = configuration.to_vec();
    for state in rule.before {
        after[state] = after[state].checked_sub(1)?;
    }
    for state in rule.after {
        after[state] += 1;
    }
    Some(after)
}

#[cfg(test)]
mod tests {
    use super::*;
    use crate::make::fixed::with_fixed;
    use crate::make::sheet::{claimed_majority, claimed_quorum, claimed_threshold, quorum_table, Claimed};
    use crate::make::{self, rule};

    fn says(docket: &Docket, numbers: &[i64], limit: i64) -> Result<BTreeSet<u8>, String> {
        let numbers = numbers.to_vec();
        outputs_shown(docket, &Claim { numbers, limit }, AGENTS)
    }

    fn claim_of((docket, sheet): &Claimed) -> (Docket, Vec<i64>, i64) {
        (docket.clone(), sheet.numbers.clone(), sheet.limit)
    }

    /// True claims have both outputs; with another limit, with another number, or without the fixed agents they are
    /// wrong.
    #[test]
    fn wrong_claims_are_seen() {
        let both: BTreeSet<u8> = [0, 1].into();
        for claimed in [
            claimed_majority([0, 0]),
            claimed_majority([2, 1]),
            claimed_quorum(2, [0, 0]),
            claimed_quorum(5, [3, 0]),
            claimed_threshold(2, &[0, 1]),
        ] {
            let (docket, numbers, limit) = claim_of(&claimed);
            assert_eq!(says(&docket, &numbers, limit), Ok(both.clone()));
            for other in [limit - 1, limit + 1] {
                assert!(says(&docket, &numbers, other).is_err(), "{other}");
            }
            for input in (0..numbers.len()).filter(|&i| docket.states[i].input) {
                let mut others = numbers.clone();
                others[input] += if others[input] == 0 { 2 } else { -others[input] };
                assert!(says(&docket, &others, limit).is_err(), "{others:?}");
            }
        }
        let docket = with_fixed(make::broadcast(), &[0, 3]);
        assert_eq!(says(&docket, &[0, 1], 3), Ok([1].into()));
        assert!(says(&docket, &[0, 1], 4).is_err());
    }

    /// One of several terminal configurations is enough, also one of mixed output, and also where `run` does not find it.
    #[test]
    fn every_terminal_configuration_counts() {
        let two_keepers = with_fixed(quorum_table(2, [0, 0]), &[0, 0, 2]);
        let problem = says(&two_keepers, &[1, 0, 0, 0, 0, 0], 2);
        assert!(problem.is_err_and(|text| text.starts_with("[2, 0, 2, ")));
        let mut docket = make::still(3);
        docket.states[1].verdict = 1;
        docket.states[1].input = false;
        docket.states[2].input = false;
        docket.rules = vec![rule([0, 0], [2, 2], 0)];
        assert_eq!(says(&docket, &[0, 0, 0], 1), Ok([0].into()));
        docket.rules.push(rule([0, 0], [1, 1], 0));
        assert!(says(&docket, &[0, 0, 0], 1).is_err());
        assert!(says(&docket, &[0, 0, 0], 0).is_err());
    }
}
