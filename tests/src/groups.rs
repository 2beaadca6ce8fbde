//! Random groups.

use crate::random::Random;
use second::Docket;

/// The counts of a start or nearly so, or any; now and then of a wrong length or of a size at a limit or past it.
pub fn random_counts(docket: Option<&Docket>, states: usize, random: &mut Random) -> Vec<u32> {
    let is_start = random.chance(2, 3);
    let most = *random.pick(&[2, 3, 6, 30, 300]);
    let mut counts: Vec<u32> = match docket {
        Some(docket) if is_start => start_counts(docket, most, random),
        _ => any_counts(states, most, random),
    };
    match random.below(16) {
        0 => counts.truncate(random.below(states + 1)),
        1 => counts.push(random.below(3) as u32),
        2 if states > 0 => counts[random.below(states)] = *random.pick(&[999_999, 1_000_000, 1_000_001, u32::MAX]),
        3 => counts.fill(0),
        4 if states > 0 => {
            counts.fill(0);
            counts[random.below(states)] = 1_000_000;
        }
        _ => {}
    }
    counts
}

/// Fewer than `most` workers in each state.
pub fn any_counts(states: usize, most: usize, random: &mut Random) -> Vec<u32> {
    (0..states).map(|_| random.below(most) as u32).collect()
}

/// The fixed agents, and any number more in input states; in a third of the cases one state has one agent more or less,
/// or none.
pub fn start_counts(docket: &Docket, most: usize, random: &mut Random) -> Vec<u32> {
    let mut more = |input: bool| if input { random.below(most) as u32 } else { 0 };
    let states = docket.states.iter();
    let mut counts: Vec<u32> = states.map(|state| state.fixed as u32 + more(state.input)).collect();
    let count = &mut counts[random.below(docket.states.len())];
    match random.below(9) {
        0 => *count += 1,
        1 => *count = count.saturating_sub(1),
        2 => *count = 0,
        _ => {}
    }
    counts
}

/// A group that test 21 refuses: no worker or one, or more than 1,000,000, also where a sum of 32 bits would be less.
pub fn refused_counts(states: usize, random: &mut Random) -> Vec<u32> {
    let mut counts = vec![0; states];
    let (first, second) = (random.below(states), random.below(states - 1));
    let second = (first + 1 + second) % states;
    [counts[first], counts[second]] = match random.below(5) {
        0 => [0, 0],
        1 => [0, 1],
        2 => [1_000_000 - random.below(2) as u32, 2],
        3 => [u32::MAX, random.below(5) as u32],
        _ => [u32::MAX - random.below(1_000_000) as u32; 2],
    };
    counts
}
