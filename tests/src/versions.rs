//! A docket of version 1 in version 2. Every answer is the same where its rules are in order; where they are not, test 14
//! refuses it, unless one of tests 1 to 7 does. With its rules put in order the check has the same answer, but for the
//! rules that tests 9 and 10 name.

use crate::calls::{self, refusal_code, UNTOUCHED};
use crate::make::fixed::with_fixed;
use crate::native;
use crate::order::out_of_order;
use second::Refusal;

/// The bytes of a docket of version 1 in version 2, with no fixed agents; none where it fails tests 1 to 4 or has
/// version 2.
pub fn in_version_2(docket: &[u8]) -> Option<Vec<u8>> {
    let (1, [states, ..]) = second::sections(docket).ok()? else {
        return None;
    };
    let more = 2 * states.len();
    let records: Vec<u8> = states.iter().flat_map(|&state| [state, 0, 0]).collect();
    let mut other = [&docket[..24], &records, &docket[24 + states.len()..]].concat();
    other[0] = 2;
    // The offsets of the rules, layers, nodes and leaves, and the total.
    for field in 7..12 {
        let [low, high] = [2 * field, 2 * field + 1].map(|at| docket[at]);
        let number = u16::from_le_bytes([low, high]) + more as u16;
        other[2 * field..2 * field + 2].copy_from_slice(&number.to_le_bytes());
    }
    Some(other)
}

/// The refusal 14 that a docket of version 1 gets in version 2, where it gets a refusal of this number in version 1 (0:
/// none); none where it says the same in both versions.
pub fn refusal_14(docket: &[u8], number: u32) -> Option<Refusal> {
    let (_, [_, rules, ..]) = second::sections(docket).ok()?;
    let place = out_of_order(rules).filter(|_| !(1..=7).contains(&number))? as u32;
    Some(Refusal { number: 14, place })
}

/// What is wrong with what the two implementations say of a docket in version 2, where they say this of it in version 1.
pub fn problem(docket: &[u8], code: u64) -> Option<String> {
    let other = in_version_2(docket)?;
    let same = (code, calls::figures(docket).1);
    let refused = |refusal| (refusal_code(refusal), [UNTOUCHED; 6]);
    let expected = refusal_14(docket, (code / 65_536) as u32).map_or(same, refused);
    let (native, second) = (native::figures(&other), calls::figures(&other));
    let good = native == expected && second == expected && native::check(&other) == expected.0;
    let text = || format!("in version 2: {native:?} and {second:?}, and not {expected:?}");
    (!good).then(text).or_else(|| sorted_problem(docket, same))
}

/// What is wrong with what the two implementations say of a docket in version 2 with its rules put in order, where the
/// check says this of it in version 1. A docket that fails tests 1 to 8 is not looked at.
fn sorted_problem(docket: &[u8], (code, figures): (u64, [u64; 6])) -> Option<String> {
    let sorted = with_fixed(second::parse(docket).ok()?, &[]).bytes();
    let (native, second) = (native::figures(&sorted), calls::figures(&sorted));
    let number = |code: u64| code / 65_536;
    let same_code = match number(code) {
        9 | 10 => number(native.0) == number(code),
        _ => native.0 == code,
    };
    let good = same_code && native.1 == figures && native == second;
    (!good).then(|| format!("rules put in order: {native:?} and {second:?}, in version 1: {code} and {figures:?}"))
}

#[cfg(test)]
mod tests {
    use super::*;
    use crate::make::{self, sort_rules};

    /// The second implementation alone, on tables whose rules are in order and on tables whose rules are not.
    #[test]
    fn both_kinds_of_tables() {
        let code = |docket: &[u8]| calls::check_code(&in_version_2(docket).expect("version 1"));
        for (docket, place) in [
            (make::two_outcomes(), None),
            (make::relay(10, 40), None),
            (make::maximum(&[0, 1, 1, 0, 1]), Some(3)),
            (make::largest(), Some(3)),
        ] {
            let bytes = docket.bytes();
            let refusal = place.map(|place| Refusal { number: 14, place });
            assert_eq!(refusal_14(&bytes, 0), refusal);
            assert_eq!(refusal_14(&bytes, 8), refusal);
            assert_eq!(refusal_14(&bytes, 7), None);
            assert_eq!(code(&bytes), refusal.map_or(0, refusal_code));
            let mut sorted = docket;
            sort_rules(&mut sorted);
            assert_eq!((refusal_14(&sorted.bytes(), 0), code(&sorted.bytes())), (None, 0));
        }
    }
}
