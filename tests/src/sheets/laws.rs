//! Laws that an implementation of claim sheets keeps with its own answers.

use super::force::{is_small, outputs_shown};
use crate::calls::refusal_by_code;
use crate::make::sheet::Claimed;
use crate::versions::{in_version_2, refusal_14};
use second::{Claim, Docket, Node, Refusal, Sheet};
use std::ops::RangeInclusive;

/// An implementation: the check of a docket and that of a sheet, as docket_check and docket_check_sheet say it.
#[derive(Clone, Copy)]
pub struct Checks<'a> {
    pub docket: &'a dyn Fn(&[u8]) -> u64,
    pub sheet: &'a dyn Fn(&[u8], &[u8]) -> u64,
}

/// The first law that an implementation breaks. A claim is tried on starts with these numbers of agents.
pub fn broken_law(checks: Checks, docket: &[u8], sheet: &[u8], agents: RangeInclusive<u8>) -> Option<String> {
    let (code, of_docket) = ((checks.sheet)(docket, sheet), (checks.docket)(docket));
    if of_docket != 0 {
        return (code != of_docket).then(|| DOCKET.into());
    }
    let parsed = second::parse(docket).expect("a docket that passes tests 1 to 8");
    let in_version_2 = in_version_2(docket).filter(|_| refusal_14(docket, 0).is_none());
    if in_version_2.is_some_and(|other| (checks.sheet)(&other, sheet) != code) {
        return Some(VERSION.into());
    }
    let said = refusal_by_code(code);
    let Ok(read) = second::parse_sheet(&parsed, sheet) else {
        let expected = Refusal { number: 15, place: 0 };
        return (said != Some(expected)).then(|| BYTES.into());
    };
    if let Some(other) = mirrored(&parsed, &read) {
        let of_mirror = refusal_by_code((checks.sheet)(&other.0.bytes(), &other.1.to_bytes()));
        if !is_mirrored(&read, said, of_mirror) {
            return Some(MIRROR.into());
        }
    }
    let Sheet { numbers, limit, .. } = read;
    let claim = Claim { numbers, limit };
    let tried = said.is_none() && is_small(&parsed);
    let problem = tried.then(|| outputs_shown(&parsed, &claim, agents).err())??;
    Some(format!("{CLAIM}: {problem}"))
}

/// The docket with outputs exchanged, which are then those of the other run, and the sheet of the opposite claim, whose
/// trees are exchanged; none where its numbers would be too great.
pub fn mirrored(docket: &Docket, sheet: &Sheet) -> Option<Claimed> {
    let least = sheet.numbers.iter().any(|&number| number == i16::MIN.into());
    let limit = 1 - sheet.limit;
    if least || limit > i32::MAX.into() {
        return None;
    }
    let mut docket = docket.clone();
    docket.states.iter_mut().for_each(|state| state.verdict ^= 1);
    let other_run = |node: &mut Node| node.party = [0, 2, 1].get(node.party).copied().unwrap_or(node.party);
    docket.nodes.iter_mut().for_each(other_run);
    for leaf in &mut docket.leaves {
        std::mem::swap(&mut leaf.y1, &mut leaf.y2);
    }
    let sheet = Sheet {
        numbers: sheet.numbers.iter().map(|number| -number).collect(),
        limit,
        first: sheet.second.clone(),
        second: sheet.first.clone(),
        leaves: sheet.leaves.clone(),
    };
    Some((docket, sheet))
}

/// Whether two answers can be those of a sheet and of the mirrored one. A refusal of the second tree is then one of the
/// first; one of the first is one of the second, unless the tree that comes first now is refused too.
fn is_mirrored(sheet: &Sheet, said: Option<Refusal>, of_mirror: Option<Refusal>) -> bool {
    let (Some(one), Some(other)) = (said, of_mirror) else {
        return said == of_mirror;
    };
    let [first, second] = [sheet.first.len() as u32, sheet.second.len() as u32];
    let moved = |place: u32| other == Refusal { place, ..one };
    let of_second = one.place >= first && moved(one.place - first);
    let of_first = one.place <= first && (other.place <= second || moved(one.place + second));
    of_second || of_first
}

const DOCKET: &str = "a docket that is refused is refused alike with a sheet";
const VERSION: &str = "a sheet is answered alike with a docket of version 1 and with the same one of version 2";
const BYTES: &str = "a sheet whose bytes break a rule is refused with 15, 0";
const MIRROR: &str = "a sheet is answered as the sheet of the opposite claim for outputs exchanged";
const CLAIM: &str = "a claim is true of small starts";

#[cfg(test)]
mod tests {
    use super::*;
    use crate::calls::{check_code, check_sheet_code, refusal_code};
    use crate::make::sheet::claimed_majority;
    use crate::sheets::AGENTS;

    fn law(docket: &[u8], sheet: &[u8], said: &dyn Fn(&[u8], &[u8]) -> u64) -> Option<String> {
        let checks = Checks {
            docket: &check_code,
            sheet: said,
        };
        broken_law(checks, docket, sheet, AGENTS)
    }

    fn code(number: u32, place: u32) -> u64 {
        refusal_code(Refusal { number, place })
    }

    /// A law for each wrong implementation, on the sheet of majority.
    #[test]
    fn each_law_is_broken() {
        let (docket, sheet) = claimed_majority([0, 0]);
        let (good, whole) = (docket.bytes(), sheet.to_bytes());
        let bad = &good[..good.len() - 1];
        let breaks = |docket: &[u8], sheet: &[u8], said: &dyn Fn(&[u8], &[u8]) -> u64, broken: &str| {
            assert_eq!(law(docket, sheet, &check_sheet_code), None, "{broken}");
            let law = law(docket, sheet, said);
            assert!(
                law.as_ref().is_some_and(|law| law.starts_with(broken)),
                "{broken}: {law:?}"
            );
        };
        breaks(bad, &whole, &|_, _| 0, DOCKET);
        breaks(bad, &whole, &|_, _| code(15, 0), DOCKET);
        breaks(&good, &whole, &|docket, _| u64::from(docket[0]), VERSION);
        breaks(&good, &whole[1..], &|_, _| 0, BYTES);
        breaks(&good, &whole[1..], &|_, _| code(15, 1), BYTES);
        breaks(&good, &whole, &|_, sheet| u64::from(sheet[16] == 255), MIRROR);
        let mut other = sheet.clone();
        other.limit = 1;
        breaks(&good, &other.to_bytes(), &|_, _| 0, CLAIM);
        other.limit = -1;
        breaks(&good, &other.to_bytes(), &|_, _| 0, CLAIM);
    }

    /// Refusals of either tree, with the nodes of the other before them or not.
    #[test]
    fn refusals_of_the_mirror() {
        let (_, sheet) = claimed_majority([0, 0]);
        assert_eq!((sheet.first.len(), sheet.second.len()), (11, 7));
        let refused = |number: u32, place: u32| Some(Refusal { number, place });
        for (said, other, fits) in [
            (None, None, true),
            (None, refused(13, 0), false),
            (refused(13, 3), None, false),
            (refused(13, 12), refused(13, 1), true),
            (refused(13, 12), refused(13, 2), false),
            (refused(13, 12), refused(12, 1), false),
            (refused(13, 10), refused(13, 17), true),
            (refused(13, 10), refused(13, 16), false),
            (refused(13, 10), refused(12, 7), true),
            (refused(12, 11), refused(12, 18), true),
            (refused(12, 11), refused(12, 0), true),
        ] {
            assert_eq!(is_mirrored(&sheet, said, other), fits, "{said:?}, {other:?}");
        }
    }
}
