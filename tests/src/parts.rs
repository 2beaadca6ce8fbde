//! Random parts for the writer: versions, the sections of dockets, as they are or changed, and lengths of the output.

use crate::random::Random;
use second::{record_lengths, state_length};

/// The bytes of the states, rules, layers, nodes and leaves.
pub type Parts = [Vec<u8>; 5];

/// The least and the greatest number of records of each part.
const LIMITS: [(usize, usize); 5] = [(2, 64), (0, 256), (0, 16), (1, 2048), (0, 128)];

/// The greatest number of 16 bits.
const MOST_16: usize = 65_535;

/// No part grows beyond this length.
const MOST_BYTES: usize = 1 << 20;

/// How long the docket of these parts is.
pub fn total(parts: &[&[u8]; 5]) -> usize {
    24 + parts.iter().map(|part| part.len()).sum::<usize>()
}

pub fn slices(parts: &Parts) -> [&[u8]; 5] {
    std::array::from_fn(|place| &parts[place][..])
}

/// Versions that the writer is told: both, others, and some whose lowest 8 or 16 bits are those of one of both.
const VERSIONS: [u32; 10] = [0, 1, 2, 3, 257, 258, 65_535, 65_537, 65_538, u32::MAX];

/// The version, or now and then another one; and the parts with up to two changes.
pub fn changed(version: u32, parts: [&[u8]; 5], random: &mut Random) -> (u32, Parts) {
    let other = *random.pick(&VERSIONS);
    let version = if random.chance(1, 16) { other } else { version };
    let mut parts = parts.map(<[u8]>::to_vec);
    for _ in 0..random.below(3) {
        change(version, &mut parts, random);
    }
    (version, parts)
}

/// How many bytes a record of each part has, by the states that there are.
fn records_of(version: u32, parts: &Parts) -> [usize; 5] {
    record_lengths(version, parts[0].len() / state_length(version))
}

fn change(version: u32, parts: &mut Parts, random: &mut Random) {
    let place = random.below(5);
    let record = records_of(version, parts)[place];
    let part = &mut parts[place];
    match random.below(11) {
        0..=3 => change_bytes(part, record, random),
        4 if random.chance(1, 2) => copy_record(part, record, random),
        4 => exchange_records(part, record, random),
        5 => part.truncate(random.below(part.len() + 1)),
        6 => resize(part, |len| len + 1 + random.below(40)),
        7 => part.clear(),
        8 => parts.swap(place, random.below(5)),
        9 => change_states(version, parts, random),
        _ => change_count(part, LIMITS[place], record, random),
    }
}

/// Where one of the whole records begins, the last one in a quarter of the cases; none where there are none.
fn some_record(part: &[u8], record: usize, random: &mut Random) -> Option<usize> {
    let count = part.len().checked_div(record).filter(|&count| count > 0)?;
    let last = random.chance(1, 4);
    Some(record * if last { count - 1 } else { random.below(count) })
}

/// Changes up to three bytes of one record.
fn change_bytes(part: &mut [u8], record: usize, random: &mut Random) {
    let Some(begin) = some_record(part, record, random) else {
        return;
    };
    for _ in 0..1 + random.below(3) {
        let at = begin + random.below(record);
        part[at] = match random.below(3) {
            0 => part[at] ^ 1 << random.below(8),
            1 => part[random.below(part.len())],
            _ => random.word() as u8,
        };
    }
}

/// Writes one record in the place of another.
fn copy_record(part: &mut [u8], record: usize, random: &mut Random) {
    if let Some(to) = some_record(part, record, random) {
        let from = random.below(part.len() / record) * record;
        part.copy_within(from..from + record, to);
    }
}

/// Exchanges a record with the one before it, or with any.
fn exchange_records(part: &mut [u8], record: usize, random: &mut Random) {
    if let Some(one) = some_record(part, record, random) {
        let any = random.below(part.len() / record) * record;
        let other = if random.chance(1, 2) {
            one.saturating_sub(record)
        } else {
            any
        };
        (0..record).for_each(|at| part.swap(one + at, other + at));
    }
}

/// Another number of states, most often outside its limits, now and then with a part of one more; in half of the cases
/// layers and leaves keep their numbers of records, or nearly so.
fn change_states(version: u32, parts: &mut Parts, random: &mut Random) {
    let states = match random.below(16) {
        0 | 1 => MOST_16 + 1 + random.below(66),
        2..=4 => 0,
        5..=8 => *random.pick(&[1, 2, 63, 64, 65]),
        _ => 65 + random.below(400),
    };
    let old = records_of(version, parts);
    let new = record_lengths(version, states);
    if random.chance(1, 2) {
        let fewer = random.below(4) * random.below(2);
        for place in [2, 4] {
            let count = parts[place].len() / old[place].max(1);
            resize(&mut parts[place], |_| (count * new[place]).saturating_sub(fewer));
        }
    }
    let beyond = random.below(new[0]) * usize::from(random.chance(1, 4));
    resize(&mut parts[0], |_| new[0] * states + beyond);
}

/// Another number of records: at a limit, one past it, or such that its lowest 16 bits are within the limits.
fn change_count(part: &mut Vec<u8>, (least, most): (usize, usize), record: usize, random: &mut Random) {
    let count = match random.below(20) {
        0 => MOST_16 + 1 + least + random.below(3),
        _ => *random.pick(&[least, least.saturating_sub(1), most, most + 1]),
    };
    resize(part, |_| count * record);
}

/// Cuts a part to a length, or repeats its bytes up to there.
fn resize(part: &mut Vec<u8>, length: impl FnOnce(usize) -> usize) {
    let old = part.len();
    let byte = |at: usize| if old == 0 { 0 } else { part[at % old] };
    *part = (0..length(old).min(MOST_BYTES)).map(byte).collect();
}

/// A length of the output: about the total, less, about the header's length, or much more.
pub fn room(parts: &[&[u8]; 5], random: &mut Random) -> usize {
    let total = total(parts);
    match random.below(8) {
        0 => total - 1,
        1 | 2 => total,
        3 => total + 1,
        4 => total + random.below(100),
        5 => random.below(total),
        6 => *random.pick(&[0, 23, 24, 25]),
        _ => 70_000,
    }
}

#[cfg(test)]
mod tests {
    use super::*;
    use crate::make::{self, fixed::with_fixed};
    use std::collections::{BTreeMap, BTreeSet};

    /// The changes lead to every refusal of the writer, to 14 in version 2 alone, and many leave parts that it writes.
    #[test]
    fn changes_show() {
        let mut random = Random::new(1);
        let old = make::layered(8, 10, 3, 30, 3);
        for docket in [old.clone(), with_fixed(old, &[0, 7, 300])] {
            let bytes = docket.bytes();
            let (version, sections) = second::sections(&bytes).expect("its sections");
            let mut met = BTreeMap::new();
            for _ in 0..4000 {
                let (version, parts) = changed(version, sections, &mut random);
                let mut output = vec![0; room(&slices(&parts), &mut random)];
                let said = second::write(version, slices(&parts), &mut output);
                *met.entry(said.map_or_else(|refusal| refusal.number, |_| 0))
                    .or_insert(0) += 1;
            }
            let mut expected = vec![0, 2, 3, 5, 6, 7, 8, 11, 30, 31];
            if version == 2 {
                expected.insert(8, 14);
            }
            assert!(met.keys().eq(&expected), "{met:?}");
            assert!(met.values().all(|&times| times > 20) && met[&0] > 800, "{met:?}");
        }
    }

    /// In version 2 the states are cut to 3S bytes, one more and two more, for numbers of states of every kind.
    #[test]
    fn states_are_cut() {
        let mut random = Random::new(2);
        let mut met = BTreeSet::new();
        for _ in 0..4000 {
            let mut parts: Parts = [vec![2; 6], vec![], vec![], vec![], vec![]];
            change_states(2, &mut parts, &mut random);
            let (states, beyond) = (parts[0].len() / 3, parts[0].len() % 3);
            met.insert((states.min(3), beyond));
        }
        assert_eq!(met.len(), 12, "{met:?}");
    }

    #[test]
    fn parts_are_repeated() {
        let resized = |part: &[u8], len: usize| {
            let mut part = part.to_vec();
            resize(&mut part, |_| len);
            part
        };
        assert_eq!(resized(&[1, 2, 3], 7), [1, 2, 3, 1, 2, 3, 1]);
        assert_eq!(resized(&[1, 2, 3], 2), [1, 2]);
        assert_eq!(resized(&[], 2), [0, 0]);
    }
}
