//! The machine calls.

use super::docket::{Docket, Rule};
use super::{refuse, Refusal};

/// Tests 20 and 21.
pub fn size_test(docket: &Docket, counts: &[u32]) -> Result<(), Refusal> {
    if counts.len() != docket.states.len() {
        return refuse(20, 0);
    }
    sum_test(counts)
}

/// Test 21.
fn sum_test(counts: &[u32]) -> Result<(), Refusal> {
    let size: u64 = counts.iter().map(|&count| u64::from(count)).sum();
    if (2..=1_000_000).contains(&size) {
        Ok(())
    } else {
        refuse(21, 0)
    }
}

/// Test 22.
pub fn start_test(docket: &Docket, counts: &[u32]) -> Result<(), Refusal> {
    let inputs = docket.states.with(2);
    for (place, &count) in counts.iter().enumerate() {
        let fixed = u32::from(docket.states.fixed(place));
        let fits = if inputs >> place & 1 == 1 {
            count >= fixed
        } else {
            count == fixed
        };
        if !fits {
            return refuse(22, place);
        }
    }
    Ok(())
}

fn enabled(&[p, q, ..]: &Rule, counts: &[u32]) -> bool {
    counts[usize::from(p)] > u32::from(p == q) && counts[usize::from(q)] > 0
}

fn fire(&[p, q, a, b, _]: &Rule, counts: &mut [u32]) {
    counts[usize::from(p)] -= 1;
    counts[usize::from(q)] -= 1;
    counts[usize::from(a)] += 1;
    counts[usize::from(b)] += 1;
}

/// Test 23.
fn numbered<'a>(docket: &Docket<'a>, rule: u32) -> Result<&'a Rule, Refusal> {
    match docket.rules.get(rule as usize) {
        Some(found) => Ok(found),
        None => refuse(23, rule as usize),
    }
}

/// Test 23, then how many pairs of workers could make the meeting.
pub fn can_act(docket: &Docket, counts: &[u32], rule: u32) -> Result<u64, Refusal> {
    let &[p, q, ..] = numbered(docket, rule)?;
    let [in_p, in_q] = [p, q].map(|state| u64::from(counts[usize::from(state)]));
    Ok(if p == q {
        in_p * in_p.saturating_sub(1) / 2
    } else {
        in_p * in_q
    })
}

/// Tests 23 and 24, then the meeting.
pub fn step(docket: &Docket, counts: &mut [u32], rule: u32) -> Result<(), Refusal> {
    let found = numbered(docket, rule)?;
    if !enabled(found, counts) {
        return refuse(24, rule as usize);
    }
    fire(found, counts);
    Ok(())
}

/// The lowest enabled rule of the lowest layer that has one, by one pass that stops at layer 0.
fn choose<'a>(docket: &Docket<'a>, counts: &[u32]) -> Option<&'a Rule> {
    let mut best: Option<&Rule> = None;
    let mut low = u8::MAX;
    for rule in docket.rules {
        if rule[4] < low && enabled(rule, counts) {
            best = Some(rule);
            low = rule[4];
            if low == 0 {
                break;
            }
        }
    }
    best
}

/// The steps made, and whether the counts rest.
pub fn run(docket: &Docket, counts: &mut [u32], limit: u32) -> (u64, bool) {
    let mut steps = 0;
    let mut chosen = choose(docket, counts);
    while steps < limit {
        let Some(rule) = chosen else { break };
        fire(rule, counts);
        steps += 1;
        chosen = choose(docket, counts);
    }
    (u64::from(steps), chosen.is_none())
}

/// Tests 32 and 33, then the run of each group, in its own stretch of the counts, with its two results.
pub fn run_page(docket: &Docket, counts: &mut [u32], limit: u32, results: &mut [u64]) -> Result<(), Refusal> {
    let states = docket.states.len();
    if counts.is_empty() || counts.len() % states != 0 {
        return refuse(32, 0);
    }
    if results.len() != counts.len() / states * 2 {
        return refuse(33, 0);
    }
    let (results, _) = results.as_chunks_mut();
    for (group, result) in counts.chunks_exact_mut(states).zip(results) {
        *result = match sum_test(group) {
            Ok(()) => {
                let (steps, rests) = run(docket, group, limit);
                [0, 2 * steps + u64::from(rests)]
            }
            Err(refusal) => [u64::from(refusal.number), 0],
        };
    }
    Ok(())
}
