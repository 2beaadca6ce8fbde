//! The writer: makes a docket of the bytes of its five sections, and does not judge the ladder or the tree.

use crate::docket::{assemble, count_test, read, record_lengths, refuse, state_length, version_test, Refusal};
use crate::tree::leaf_weight_test;

/// Tests 2, 31, 3, 5, 6, 7, 14, 8, 11 and 30, in this order, on the version and the parts, which are the states, rules,
/// layers, nodes and leaves; then writes their docket to the beginning of the output and hands back its length. A refusal
/// writes nothing.
pub fn write(version: u32, parts: [&[u8]; 5], output: &mut [u8]) -> Result<usize, Refusal> {
    version_test(version)?;
    let counts = record_counts(version, parts)?;
    count_test(counts)?;
    leaf_weight_test(&read(version, parts)?)?;
    let docket = assemble(version, counts, parts);
    if output.len() < docket.len() {
        return refuse(30, 0);
    }
    output[..docket.len()].copy_from_slice(&docket);
    Ok(docket.len())
}

/// Test 31; hands back the number of records of each part. Without states a layer or a leaf has no length: these two
/// parts are not tried, and have no records.
fn record_counts(version: u32, parts: [&[u8]; 5]) -> Result<[usize; 5], Refusal> {
    let records = record_lengths(version, parts[0].len() / state_length(version));
    let mut counts = [0; 5];
    for (place, part) in parts.iter().enumerate() {
        if records[place] == 0 {
            continue;
        }
        if part.len() % records[place] != 0 {
            return refuse(31, place);
        }
        counts[place] = part.len() / records[place];
    }
    Ok(counts)
}

#[cfg(test)]
mod tests {
    use super::*;
    use crate::docket::{line, samples::*, sections};

    /// What every byte of the output is before a call.
    const OLD: u8 = 0xaa;

    /// What the writer says to a version, parts and an output of this length. It leaves the docket of the parts and then
    /// old bytes, or old bytes alone.
    fn told(version: u32, parts: [&[u8]; 5], room: usize) -> Result<usize, Refusal> {
        let mut output = vec![OLD; room];
        let said = write(version, parts, &mut output);
        let written = said.unwrap_or(0);
        assert!(output[written..].iter().all(|&byte| byte == OLD));
        if said.is_ok() {
            assert_eq!(sections(&output[..written]), Ok((version, parts)));
        }
        said
    }

    /// The same in version 1.
    fn said(parts: [&[u8]; 5], room: usize) -> Result<usize, Refusal> {
        told(1, parts, room)
    }

    /// The same with one part of the broadcast docket exchanged for another, and an output that is long enough.
    fn with(place: usize, part: &[u8]) -> Result<usize, Refusal> {
        let bytes = broadcast(TREE).bytes();
        let (_, mut parts) = sections(&bytes).unwrap();
        parts[place] = part;
        said(parts, 1000)
    }

    /// The docket's own bytes are written again, whatever its ladder and tree are worth, and what follows them stays.
    #[test]
    fn dockets_are_written_again() {
        let refused = docket("2 3", "0 1 1 1 0", "0 0", "9 9 9 9");
        assert_eq!(line(&refused.bytes()), "refused 9 0\n");
        let version_2 = [
            with_fixed(broadcast(TREE), [0, 0]),
            with_fixed(refused.clone(), [1, 1000]),
        ];
        let version_1 = [broadcast(TREE), majority(), exchanged(), parity(), refused];
        for docket in version_1.iter().chain(&version_2) {
            let bytes = docket.bytes();
            let (version, parts) = sections(&bytes).unwrap();
            let mut output = vec![OLD; bytes.len() + 9];
            assert_eq!(write(version, parts, &mut output), Ok(bytes.len()));
            assert_eq!(output, [&bytes[..], &[OLD; 9]].concat());
        }
    }

    /// Test 2 comes before all others, whatever the parts and the output are.
    #[test]
    fn versions() {
        let bytes = broadcast(TREE).bytes();
        let (_, parts) = sections(&bytes).unwrap();
        for version in [0, 3, 257, 258, 65_535, 65_537, 65_538, u32::MAX] {
            assert_eq!(told(version, parts, 1000), refuse(2, 0), "{version}");
            assert_eq!(told(version, [&[], &[0], &[], &[], &[]], 0), refuse(2, 0), "{version}");
        }
    }

    /// In version 2 the states are whole records of three bytes, and layers and leaves have weights for so many states.
    #[test]
    fn states_of_three_bytes() {
        let bytes = with_fixed(broadcast(TREE), [0, 7]).bytes();
        let (_, [states, rules, layers, nodes, leaves]) = sections(&bytes).unwrap();
        assert_eq!(states, [2, 0, 0, 3, 7, 0]);
        let with_states = |states: &[u8]| told(2, [states, rules, layers, nodes, leaves], 200);
        assert_eq!(with_states(states), Ok(103));
        assert_eq!(told(2, [states, rules, layers, nodes, leaves], 102), refuse(30, 0));
        assert_eq!(told(1, [states, rules, layers, nodes, leaves], 200), refuse(31, 2));
        for length in [1, 2, 4, 5, 7, 8] {
            assert_eq!(with_states(&[2; 8][..length]), refuse(31, 0), "{length} bytes");
        }
        assert_eq!(with_states(&[2, 0, 0]), refuse(3, 0));
        assert_eq!(with_states(&[2; 9]), refuse(31, 2));
        assert_eq!(told(2, [&[0; 7], &[0], &[0], &[0], &[0]], 0), refuse(31, 0));
        assert_eq!(told(2, [&[0; 6], &[0], &[0], &[0], &[0]], 0), refuse(31, 1));
        assert_eq!(told(2, [&[0; 6], &[], &[0; 4], &[0], &[0]], 0), refuse(31, 2));
        assert_eq!(told(2, [&[0; 6], &[], &[0; 8], &[0; 12], &[0; 4]], 0), refuse(31, 4));
        assert_eq!(told(2, [&[0; 2], &[], &[0], &[], &[0]], 0), refuse(31, 0));
        assert_eq!(told(2, [&[], &[], &[0], &[], &[0]], 0), refuse(3, 0));
    }

    #[test]
    fn fixed_numbers_have_a_limit() {
        let bytes = with_fixed(broadcast(TREE), [1000, 1000]).bytes();
        let (_, parts) = sections(&bytes).unwrap();
        let with_states = |states: &[u8]| told(2, [states, parts[1], parts[2], parts[3], parts[4]], 200);
        assert_eq!(with_states(parts[0]), Ok(103));
        assert_eq!(with_states(&[2, 0, 0, 3, 0xe9, 3]), refuse(5, 1));
        assert_eq!(with_states(&[2, 0, 4, 7, 0, 0]), refuse(5, 0));
        assert_eq!(with_states(&[0, 1, 0, 1, 1, 0]), refuse(5, 2));
    }

    #[test]
    fn the_output_is_too_short() {
        let bytes = broadcast(TREE).bytes();
        let (_, parts) = sections(&bytes).unwrap();
        for room in [0, 23, 24, 98] {
            assert_eq!(said(parts, room), refuse(30, 0), "{room}");
        }
        for room in [99, 100] {
            assert_eq!(said(parts, room), Ok(99), "{room}");
        }
    }

    #[test]
    fn lengths_that_are_no_whole_number_of_records() {
        for (place, wrong, record) in [(1, 4, 5), (1, 6, 5), (2, 4, 8), (3, 11, 12), (4, 4, 8), (4, 9, 8)] {
            assert_eq!(
                with(place, &vec![0; wrong]),
                refuse(31, place),
                "{wrong} bytes of {record}"
            );
        }
        assert_eq!(said([&[4], &[0; 6], &[0; 3], &[0; 1], &[0; 1]], 0), refuse(31, 1));
        assert_eq!(said([&[4], &[0; 5], &[0; 3], &[0; 1], &[0; 1]], 0), refuse(31, 2));
        assert_eq!(said([&[4], &[0; 5], &[0; 4], &[0; 1], &[0; 1]], 0), refuse(31, 3));
        assert_eq!(said([&[4], &[0; 5], &[0; 4], &[], &[0; 1]], 0), refuse(31, 4));
        assert_eq!(said([&[4], &[0; 5], &[0; 4], &[], &[0; 4]], 0), refuse(3, 0));
    }

    /// The number of states is used as it is, also outside its limits; without states two parts are not tried.
    #[test]
    fn records_of_other_numbers_of_states() {
        assert_eq!(said([&[], &[0; 1], &[0; 1], &[0; 1], &[0; 1]], 0), refuse(31, 1));
        assert_eq!(said([&[], &[], &[0; 1], &[0; 1], &[0; 1]], 0), refuse(31, 3));
        assert_eq!(said([&[], &[], &[0; 1], &[], &[0; 1]], 0), refuse(3, 0));
        for states in [1, 65, 65_536, 65_538] {
            let (bytes, weights) = (vec![2; states], vec![0; 4 * states]);
            assert_eq!(said([&bytes, &[], &weights[1..], &[], &[]], 0), refuse(31, 2));
            assert_eq!(said([&bytes, &[], &[], &[], &weights[1..]], 0), refuse(31, 4));
            assert_eq!(said([&bytes, &[], &weights, &[], &weights], 0), refuse(3, 0));
        }
        assert_eq!(record_lengths(1, usize::MAX / 4 + 2)[2], usize::MAX);
    }

    #[test]
    fn counts_outside_their_limits() {
        for (place, record, counts) in [
            (1, 5, vec![257, 65_537]),
            (2, 8, vec![0, 17, 65_537]),
            (3, 12, vec![0, 2_049, 65_541]),
            (4, 8, vec![129, 65_536]),
        ] {
            for count in counts {
                assert_eq!(with(place, &vec![0; record * count]), refuse(3, place), "{count}");
            }
        }
        assert_eq!(with(1, &[]), refuse(3, 2));
        assert_eq!(said([&[4, 4], &[0; 5], &[], &[], &[]], 0), refuse(3, 2));
        assert_eq!(said([&[4, 4], &[], &[], &[], &[]], 0), refuse(3, 3));
    }

    /// Each of these tests comes before all of the next ones.
    #[test]
    fn order_of_the_tests() {
        let (rule, layer, node, leaf) = ([0, 1, 1, 1, 0], [255; 8], [255; 12], [0, 0, 0, 0, 0, 0, 0x11, 0x27]);
        let (equal, bad_rule) = ([rule, rule].concat(), [rule, rule, [0, 1, 0, 1, 0]].concat());
        let good = [1, 0, 0, 0, 0, 0, 0, 0];
        assert_eq!(said([&[2, 7], &bad_rule, &layer, &node, &leaf], 0), refuse(5, 1));
        assert_eq!(said([&[0, 1], &bad_rule, &layer, &node, &leaf], 0), refuse(5, 2));
        assert_eq!(said([&[2, 3], &bad_rule, &layer, &node, &leaf], 0), refuse(6, 2));
        assert_eq!(said([&[2, 3], &equal, &layer, &node, &leaf], 0), refuse(7, 1));
        assert_eq!(said([&[2, 3], &rule, &layer, &node, &leaf], 0), refuse(8, 0));
        let leaves = [[0; 8], leaf].concat();
        assert_eq!(said([&[2, 3], &rule, &good, &node, &leaves], 0), refuse(11, 1));
        assert_eq!(said([&[2, 3], &rule, &good, &node, &[0; 8]], 0), refuse(30, 0));
        assert_eq!(said([&[2, 3], &rule, &good, &node, &[0; 8]], 59), Ok(59));
    }

    /// In version 2 the rules are written in their order or not at all: test 14 stands between 7 and 8.
    #[test]
    fn rules_out_of_order() {
        let (states, weights, node) = ([2, 0, 0, 3, 0, 0], [1, 0, 0, 0, 0, 0, 0, 0], [255; 12]);
        let (heavy, leaf) = ([255; 8], [0x11, 0x27, 0, 0, 0, 0, 0, 0]);
        let (first, second, bad) = ([0, 0, 1, 1, 0], [0, 1, 1, 1, 0], [0, 1, 0, 1, 0]);
        let in_order = [first, second].concat();
        let wrong = [second, first].concat();
        let two = |states: &[u8], rules: &[u8], layers: &[u8], leaves: &[u8], room| {
            told(2, [states, rules, layers, &node, leaves], room)
        };
        assert_eq!(two(&states, &in_order, &weights, &[], 60), Ok(60));
        assert_eq!(two(&states, &wrong, &weights, &[], 60), refuse(14, 1));
        assert_eq!(two(&states, &wrong, &heavy, &leaf, 0), refuse(14, 1));
        assert_eq!(
            two(&states, &[second, first, bad].concat(), &heavy, &leaf, 0),
            refuse(6, 2)
        );
        assert_eq!(
            two(&states, &[second, first, second].concat(), &heavy, &leaf, 0),
            refuse(7, 2)
        );
        assert_eq!(two(&[2, 0, 0, 7, 0, 0], &wrong, &heavy, &leaf, 0), refuse(5, 1));
        assert_eq!(two(&states, &in_order, &heavy, &leaf, 0), refuse(8, 0));
        assert_eq!(said([&[2, 3], &wrong, &weights, &node, &[]], 56), Ok(56));
    }
}
