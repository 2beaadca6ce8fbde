//! Random pages.

use super::Page;
use crate::groups::{any_counts, refused_counts, start_counts};
use crate::make::is_large;
use crate::pairs;
use crate::random::Random;
use second::Docket;

/// A page for a docket, or for one that tests 1 to 8 refuse. Its results are old numbers; in a quarter of the cases one
/// of the lengths is wrong, or both are.
pub fn random_page(docket: Option<&Docket>, random: &mut Random) -> Page {
    let states = docket.map_or(2 + random.below(63), |docket| docket.states.len());
    let groups = random_number(docket, random);
    let (limit, most) = random_limit(docket, groups, random);
    let mut counts = vec![];
    for _ in 0..groups {
        counts.extend(random_group(docket, states, most, random));
    }
    let mut results = (0..2 * groups).map(|_| random.word()).collect();
    if random.chance(1, 4) {
        let wrong = random.below(3);
        if wrong != 0 {
            change_length(&mut counts, states, 1, random);
        }
        if wrong != 1 {
            change_length(&mut results, 2, 0, random);
        }
    }
    Page { counts, limit, results }
}

/// How many groups there are; few pages have many, and none of a large docket has 5,000.
fn random_number(docket: Option<&Docket>, random: &mut Random) -> usize {
    match random.below(600) {
        0 if !docket.is_some_and(is_large) => 5000,
        1..=12 => 300,
        13..=150 => 1,
        151..=300 => 2,
        _ => 3 + random.below(10),
    }
}

/// The limit, and a number that the counts of a state are below, but for fixed agents. The greatest limit is only for
/// tables that come to rest soon, and has small groups; a page of many groups has a small limit.
fn random_limit(docket: Option<&Docket>, groups: usize, random: &mut Random) -> (u32, usize) {
    let most = *random.pick(&[2, 3, 6, 30, 300]);
    let rests = |docket: &Docket| docket.rules.len() < 50 && second::check(&docket.bytes()).is_ok();
    match random.below(8) {
        0 => (0, most),
        1 | 2 => (1, most),
        3 if groups < 30 && docket.is_some_and(rests) => (u32::MAX, most.min(6)),
        4 if groups < 30 => (1000 + random.below(1000) as u32, most),
        _ => (2 + random.below(50) as u32, most),
    }
}

/// A start or nearly so, any group, one with counts at limits, or one that is refused.
fn random_group(docket: Option<&Docket>, states: usize, most: usize, random: &mut Random) -> Vec<u32> {
    match (docket, random.below(10)) {
        (_, 0) => refused_counts(states, random),
        (Some(docket), 1) if most > 6 => pairs::random_counts(docket, random),
        (Some(docket), 2..=6) => start_counts(docket, most, random),
        _ => any_counts(states, most, random),
    }
}

/// Makes a list one shorter or longer, a record shorter or longer, half or twice as long, or empty.
fn change_length<T: Clone>(list: &mut Vec<T>, record: usize, filler: T, random: &mut Random) {
    let length = list.len();
    let lengths = [
        length - 1,
        length + 1,
        length - record,
        length + record,
        length / 2,
        2 * length,
        0,
    ];
    list.resize(*random.pick(&lengths), filler);
}
