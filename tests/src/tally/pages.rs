//! What the pages were.

use super::pairs::{count_workers, workers_wanted};
use super::{add, few};
use crate::pages::{Outcome, Page};
use second::Docket;
use std::collections::BTreeMap;

/// Where a group stands in its page.
#[derive(Clone, Copy, Debug, PartialEq, Eq, PartialOrd, Ord)]
pub enum Place {
    First,
    Middle,
    Last,
}

/// What became of a group.
#[derive(Clone, Copy, Debug, PartialEq, Eq, PartialOrd, Ord)]
pub enum End {
    Refused,
    Rests,
    Stops,
}

/// A length beside that of whole groups.
#[derive(Clone, Copy, Debug, PartialEq, Eq, PartialOrd, Ord)]
pub enum Length {
    Right,
    None,
    OneLess,
    OneMore,
    Other,
}

#[derive(Default)]
pub struct Pages {
    /// Pages by the number of their refusal, 0 for those that are run.
    pub calls: BTreeMap<u32, u64>,
    /// Pages that are run, by the version and the number of groups; 3 stands for those that are not in `NUMBERS`.
    pub numbers: BTreeMap<(u32, usize), u64>,
    /// Their groups by the version, by where they stand and by what became of them.
    pub groups: BTreeMap<(u32, Place, End), u64>,
    /// Their groups by the limit, given as the least of its kind, and by what became of them.
    pub limits: BTreeMap<(u32, End), u64>,
    /// Their groups by the number of their refusal, 0 for none, and by how many workers they have.
    pub workers: BTreeMap<(u32, u64), u64>,
    /// Refusals 32 and 33 by the lengths of the counts and of the results.
    pub lengths: BTreeMap<(u32, Length, Length), u64>,
    /// Pages that the library does not run as their groups one by one, with the dockets.
    pub broken: Vec<String>,
}

impl Pages {
    /// Counts a page by what it holds afterwards. A docket that tests 1 to 8 refuse is not given.
    pub fn count(&mut self, docket: Option<&Docket>, page: &Page, done: &Outcome) {
        let number = done.said.refusal().map_or(0, |refusal| refusal.number);
        *self.calls.entry(number).or_default() += 1;
        let Some(docket) = docket else {
            return;
        };
        if number == 0 {
            return self.count_groups(docket, page, done);
        }
        let [counts, results] = lengths(docket.states.len(), page);
        *self.lengths.entry((number, counts, results)).or_default() += 1;
    }

    fn count_groups(&mut self, docket: &Docket, page: &Page, done: &Outcome) {
        let number = done.results.len() / 2;
        let shown = if NUMBERS.contains(&number) { number } else { 3 };
        *self.numbers.entry((docket.version, shown)).or_default() += 1;
        let limit = *LIMITS.iter().rfind(|&&least| least <= page.limit).unwrap_or(&0);
        let counts = page.counts.chunks(docket.states.len());
        for (at, (counts, result)) in counts.zip(done.results.chunks(2)).enumerate() {
            let place = match at {
                0 => Place::First,
                _ if at + 1 == number => Place::Last,
                _ => Place::Middle,
            };
            let end = end(result);
            *self.groups.entry((docket.version, place, end)).or_default() += 1;
            *self.limits.entry((limit, end)).or_default() += 1;
            count_workers(&mut self.workers, result[0] as u32, counts);
        }
    }

    pub fn merge(&mut self, other: Pages) {
        add(&mut self.calls, other.calls);
        add(&mut self.numbers, other.numbers);
        add(&mut self.groups, other.groups);
        add(&mut self.limits, other.limits);
        add(&mut self.workers, other.workers);
        add(&mut self.lengths, other.lengths);
        self.broken.extend(other.broken);
    }

    /// What the inputs failed to reach: every refusal; pages of some numbers of groups, in both versions; groups at
    /// every place with every end, in both versions, and with every kind of limit; groups of sizes at their limits and
    /// past them; and wrong lengths of every kind.
    pub fn not_reached(&self) -> Vec<String> {
        let refusals = (0..=8).chain([14, 32, 33]);
        let numbers = [1, 2]
            .into_iter()
            .flat_map(|version| [1, 2, 3, 300].map(|number| (version, number)));
        [
            few("refusal (0: run)", &self.calls, refusals, LEAST),
            few("version, groups", &self.numbers, numbers, LEAST),
            few("version, groups", &self.numbers, [(1, 5000), (2, 5000)], 1),
            few("version, place, end", &self.groups, groups_wanted(), LEAST),
            few("limit, end", &self.limits, limits_wanted(), LEAST),
            few("refusal, workers", &self.workers, workers_wanted(), LEAST),
            few("refusal, counts, results", &self.lengths, lengths_wanted(), LEAST),
        ]
        .concat()
        .into_iter()
        .map(|text| format!("pages: {text}"))
        .collect()
    }
}

fn end(result: &[u64]) -> End {
    match result {
        [0, second] if second % 2 == 1 => End::Rests,
        [0, _] => End::Stops,
        _ => End::Refused,
    }
}

/// The kinds of the two lengths. One count less than whole groups goes with the results of these groups.
fn lengths(states: usize, page: &Page) -> [Length; 2] {
    let (counts, results) = (page.counts.len(), page.results.len());
    let groups = (counts + 1) / states;
    [length(counts, groups.max(1) * states), length(results, 2 * groups)]
}

fn length(given: usize, right: usize) -> Length {
    match given {
        _ if given == right => Length::Right,
        0 => Length::None,
        _ if given + 1 == right => Length::OneLess,
        _ if given == right + 1 => Length::OneMore,
        _ => Length::Other,
    }
}

fn groups_wanted() -> impl Iterator<Item = (u32, Place, End)> {
    let places = [Place::First, Place::Middle, Place::Last];
    let of_version = move |version| {
        let of_place = move |place| ENDS.map(|end| (version, place, end));
        places.into_iter().flat_map(of_place)
    };
    [1, 2].into_iter().flat_map(of_version)
}

/// No group stops at the greatest limit: it would take too long.
fn limits_wanted() -> impl Iterator<Item = (u32, End)> {
    let all = LIMITS.into_iter().flat_map(|limit| ENDS.map(|end| (limit, end)));
    all.filter(|&key| key != (u32::MAX, End::Stops))
}

/// Wrong counts with results that are right or wrong, and wrong results with whole groups.
fn lengths_wanted() -> Vec<(u32, Length, Length)> {
    use Length::{None, OneLess, OneMore, Other, Right};
    let mut wanted = vec![];
    for counts in [OneLess, OneMore] {
        wanted.extend([Right, None, OneLess, OneMore, Other].map(|results| (32, counts, results)));
    }
    wanted.extend([Right, OneMore, Other].map(|results| (32, None, results)));
    wanted.push((32, Other, Other));
    wanted.extend([None, OneLess, OneMore, Other].map(|results| (33, Right, results)));
    wanted
}

const ENDS: [End; 3] = [End::Refused, End::Rests, End::Stops];

/// Numbers of groups that are counted by themselves.
const NUMBERS: [usize; 4] = [1, 2, 300, 5000];

/// The least limit of each kind.
const LIMITS: [u32; 5] = [0, 1, 2, 1000, u32::MAX];

/// How many pages, groups and refusals of each kind must be met.
const LEAST: u64 = 10;
