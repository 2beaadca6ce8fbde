//! The ladder: lowering (test 9), handover (test 10) and the sum of spreads.

use crate::docket::{parse, refuse, together, Docket, Refusal, Rule};

/// Tests 1 to 8, then test 10 alone.
pub fn handover(docket: &[u8]) -> Result<(), Refusal> {
    handover_test(&parse(docket)?)
}

/// Test 9: for every rule, its layer's weights of p and q together exceed those of p' and q'.
pub(crate) fn lowering_test(docket: &Docket) -> Result<(), Refusal> {
    for (place, rule) in docket.rules.iter().enumerate() {
        let weights = &docket.weights[rule.layer];
        if together(weights, rule.before) <= together(weights, rule.after) {
            return refuse(9, place);
        }
    }
    Ok(())
}

/// Test 10: for every rule s and every rule u of a lower layer, some rule of a layer lower than that of s has its
/// before pair inside the handover sum of s and u.
pub(crate) fn handover_test(docket: &Docket) -> Result<(), Refusal> {
    for (place, s) in docket.rules.iter().enumerate() {
        for u in docket.rules.iter().filter(|u| u.layer < s.layer) {
            let sum = handover_sum(s, u);
            if !docket
                .rules
                .iter()
                .any(|rule| rule.layer < s.layer && inside(rule.before, &sum))
            {
                return refuse(10, place);
            }
        }
    }
    Ok(())
}

/// The before pair of s, and what the before pair of u has beyond the after pair of s.
fn handover_sum(s: &Rule, u: &Rule) -> [i64; 64] {
    std::array::from_fn(|state| {
        let beyond = number_in(u.before, state) - number_in(s.after, state);
        number_in(s.before, state) + beyond.max(0)
    })
}

/// How often a pair names a state.
fn number_in(pair: [usize; 2], state: usize) -> i64 {
    i64::from(pair[0] == state) + i64::from(pair[1] == state)
}

/// Whether a pair is inside a sum, state by state in number.
fn inside(pair: [usize; 2], sum: &[i64; 64]) -> bool {
    pair.iter().all(|&state| number_in(pair, state) <= sum[state])
}

/// The sum over the layers of the greatest weight less the least.
pub(crate) fn spread_sum(docket: &Docket) -> u64 {
    let mut sum = 0;
    for weights in &docket.weights {
        let greatest = weights.iter().copied().max().unwrap_or(0);
        let least = weights.iter().copied().min().unwrap_or(0);
        sum += (greatest - least).unsigned_abs();
    }
    sum
}

#[cfg(test)]
mod tests {
    use super::*;
    use crate::docket::{line, samples::*};

    #[test]
    fn p3_equal_weights() {
        let bytes = docket("2 3", "0 1 1 1 0", "0 0", TREE).bytes();
        assert_eq!(line(&bytes), "refused 9 0\n");
        assert_eq!(handover(&bytes), Ok(()));
    }

    /// Another lower rule may fit where u does not: for s = Ba and u = Ab the sum is B, a, A, and AB is inside.
    #[test]
    fn majority_passes_both_tests() {
        let docket = majority();
        assert_eq!(line(&docket.bytes()), "refused 13 0\n");
        assert_eq!(spread_sum(&docket), 2);
        let sum = handover_sum(&docket.rules[2], &docket.rules[1]);
        assert!(!inside(docket.rules[1].before, &sum));
        assert!(inside(docket.rules[0].before, &sum));
    }

    #[test]
    fn p10_layers_exchanged() {
        assert_eq!(line(&exchanged().bytes()), "refused 10 0\n");
        assert_eq!(handover(&exchanged().bytes()), refuse(10, 0));
    }

    /// Rule 1 asks that b weigh more than a, rule 2 the opposite. All weights up to 3 are tried.
    #[test]
    fn p11_one_layer() {
        let rules = "0 1 2 3 0; 0 3 0 2 0; 1 2 1 3 0; 2 3 3 3 0";
        let mut docket = docket("2 3 0 1", rules, "0 0 0 0", "1 1 0 0");
        for number in 0..256 {
            docket.weights = vec![(0..4).map(|state| number >> (2 * state) & 3).collect()];
            assert!(line(&docket.bytes()).starts_with("refused 9 "));
        }
    }

    /// The pair 0, 0 needs two workers in state 0, and the sum of these two rules has one.
    #[test]
    fn pairs_count_in_number() {
        let docket = docket("2 3", "0 1 0 0 1; 0 0 1 1 0", "1 0; 0 1", TREE);
        assert_eq!(line(&docket.bytes()), "refused 10 0\n");
    }
}
