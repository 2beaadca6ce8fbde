//! The writer.

use super::docket::{count_test, state_length, version_test, Docket};
use super::{refuse, tree, Refusal};

/// Tests 2, 31, 3, 5, 6, 7, 14, 8, 11 and 30; then the docket of the parts stands in the output, and its length is handed
/// back.
pub fn write(version: u32, parts: [&[u8]; 5], output: &mut [u8]) -> Result<usize, Refusal> {
    version_test(version)?;
    let counts = record_counts(version, parts)?;
    count_test(counts)?;
    let docket = Docket::of(version, parts, counts[2]);
    docket.table_tests()?;
    tree::leaf_limits(&docket)?;
    let total = 24 + parts.iter().map(|part| part.len()).sum::<usize>();
    if output.len() < total {
        return refuse(30, 0);
    }
    let (header, mut body) = output.split_at_mut(24);
    let mut field = |i: usize, number: usize| header[2 * i..2 * i + 2].copy_from_slice(&(number as u16).to_le_bytes());
    field(0, version as usize);
    let mut end = 24;
    for (i, part) in parts.into_iter().enumerate() {
        field(1 + i, counts[i]);
        field(6 + i, end);
        end += part.len();
        let (section, rest) = body.split_at_mut(part.len());
        section.copy_from_slice(part);
        body = rest;
    }
    field(11, end);
    Ok(total)
}

/// Test 31, and the number of records of each part.
fn record_counts(version: u32, parts: [&[u8]; 5]) -> Result<[usize; 5], Refusal> {
    let state = state_length(version);
    let weights = (parts[0].len() / state).saturating_mul(4);
    let mut counts = [0; 5];
    for (place, record) in [state, 5, weights, 12, weights].into_iter().enumerate() {
        let length = parts[place].len();
        counts[place] = length.checked_div(record).unwrap_or(0);
        if record > 0 && counts[place] * record != length {
            return refuse(31, place);
        }
    }
    Ok(counts)
}
