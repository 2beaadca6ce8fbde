//! Random inputs of the program `tally`.

use super::{binomial, inputs, with_agents};
use crate::make::fixed::with_fixed;
use crate::make::{maximum, still};
use crate::random::Random;
use second::Docket;

/// An accepted docket with any number of inputs up to ten, or more, and perhaps with fixed agents: a maximum, or no
/// rule and inputs anywhere.
pub fn random_docket(random: &mut Random) -> Docket {
    let states = 2 + random.below(9);
    let docket = if random.chance(2, 3) {
        let verdicts: Vec<u8> = (0..states).map(|_| random.below(2) as u8).collect();
        maximum(&verdicts)
    } else {
        let mut docket = still(states + random.below(10));
        let input = random.below(docket.states.len());
        for (i, state) in docket.states.iter_mut().enumerate() {
            state.input = i == input || random.chance(1, 2);
        }
        docket
    };
    if random.chance(1, 2) {
        return docket;
    }
    let most = *random.pick(&[2, 4, 30, 1001]);
    let agents: Vec<i64> = docket.states.iter().map(|_| random.below(most) as i64).collect();
    with_fixed(docket, &agents)
}

/// Standard input: a number of agents, in a third of the cases any or one at a limit, and the docket; now and then one
/// byte alone, or none. There are fewer agents where the runs would take long.
pub fn random_input(docket: &[u8], random: &mut Random) -> Vec<u8> {
    let agents = match random.below(9) {
        0 | 1 => *random.pick(&[0, 1, 2, 12, 13, 14, 48, 50, 255]),
        2 => random.word() as u8,
        _ => 2 + random.below(11) as u8,
    };
    let most = if random.chance(1, 100) {
        20 * MOST_WORK
    } else {
        MOST_WORK
    };
    let fits = |docket: &Docket, agents: u8| work(docket, agents) <= most;
    let agents = match second::parse(docket) {
        Ok(docket) if (3..=12).contains(&agents) => (3..=agents).rev().find(|&n| fits(&docket, n)).unwrap_or(2),
        _ => agents,
    };
    let mut input = with_agents(agents, docket);
    if random.chance(1, 200) {
        input.truncate(random.below(2));
    }
    input
}

/// About how many rules are looked at by all runs together; none where test 34 refuses the inputs.
fn work(docket: &Docket, agents: u8) -> u64 {
    if inputs(docket) > 8 {
        return 0;
    }
    let fixed: i64 = docket.states.iter().map(|state| state.fixed).sum();
    binomial(inputs(docket), agents) * (u64::from(agents) + fixed as u64) * (1 + docket.rules.len() as u64)
}

/// The most work of most inputs.
const MOST_WORK: u64 = 1_000_000;
