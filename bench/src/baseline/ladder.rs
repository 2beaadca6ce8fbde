//! Tests 9 and 10, and the spreads.

use super::docket::{Docket, Rule};
use super::{refuse, Refusal};

/// Test 9.
pub fn lowering(docket: &Docket) -> Result<(), Refusal> {
    let states = docket.states.len();
    for (place, &[p, q, a, b, layer]) in docket.rules.iter().enumerate() {
        let weights = &docket.weights[usize::from(layer) * states..][..states];
        let weight = |state: u8| u32::from_le_bytes(weights[usize::from(state)]);
        if weight(p) + weight(q) <= weight(a) + weight(b) {
            return refuse(9, place);
        }
    }
    Ok(())
}

/// The sum over the layers of greatest less least weight.
pub fn spread_sum(docket: &Docket) -> u64 {
    let spread = |layer: &[[u8; 4]]| {
        let weights = layer.iter().map(|weight| u32::from_le_bytes(*weight));
        let (least, greatest) = weights.fold((u32::MAX, 0), |(least, greatest), w| (least.min(w), greatest.max(w)));
        u64::from(greatest - least)
    };
    docket.weights.chunks_exact(docket.states.len()).map(spread).sum()
}

/// Test 10: for each s and each u of a lower layer, which a rule of layer 0 has none of, the first rule of a layer lower
/// than that of s that fits.
pub fn handover(docket: &Docket) -> Result<(), Refusal> {
    for (place, s) in docket.rules.iter().enumerate().filter(|(_, s)| s[4] > 0) {
        for u in docket.rules.iter().filter(|u| u[4] < s[4]) {
            let sum = sum(s, u);
            if !docket.rules.iter().any(|rule| rule[4] < s[4] && inside(rule, sum)) {
                return refuse(10, place);
            }
        }
    }
    Ok(())
}

/// The value that stands for no state.
const NONE: u8 = 255;

/// The before pair of s, and what the before pair of u has beyond the after pair of s: at most four workers.
fn sum(&[p, q, a, b, _]: &Rule, &[x, y, ..]: &Rule) -> [u8; 4] {
    let (third, left) = match (x == a, x == b) {
        (true, _) => (NONE, b),
        (_, true) => (NONE, a),
        _ => (x, NONE),
    };
    let taken = if third == NONE { y == left } else { y == a || y == b };
    [p, q, third, if taken { NONE } else { y }]
}

/// Whether the before pair is inside the sum, state by state in number.
fn inside(&[p, q, ..]: &Rule, sum: [u8; 4]) -> bool {
    let number = |state: u8| sum.iter().map(|&s| u8::from(s == state)).sum::<u8>();
    if p == q {
        number(p) >= 2
    } else {
        number(p) >= 1 && number(q) >= 1
    }
}
