//! Pages of groups that one call runs: samples, cases of the corpus, the comparison with the second implementation, and
//! the law that each group has what a run of it alone says and leaves.

mod random;

pub use random::random_page;

use crate::calls::{self, Call, Said, UNTOUCHED};
use crate::make;
use crate::native;
use crate::outcomes::with_rules;
use crate::pairs::{self, Say};
use crate::remainders::{numbers, row};
use crate::writing::{first_difference, from_hex};
use second::Refusal;
use std::fmt::{Debug, Display};
use std::str::FromStr;

/// What is lent to a call beside the docket.
#[derive(Clone, Debug, PartialEq, Eq)]
pub struct Page {
    pub counts: Vec<u32>,
    pub limit: u32,
    pub results: Vec<u64>,
}

/// What is said to a page, and what it holds afterwards.
#[derive(Clone, Debug, PartialEq, Eq)]
pub struct Outcome {
    pub said: Said,
    pub counts: Vec<u32>,
    pub results: Vec<u64>,
}

/// An implementation: what it says to a docket, counts, a limit and results, which it may change.
pub type RunPage<'a> = &'a dyn Fn(&[u8], &mut [u32], u32, &mut [u64]) -> Said;

/// A name, a docket, the counts, the limit, the number of results, and what is said: a refusal, or the counts and the
/// results of each group afterwards. A semicolon parts groups, `*` repeats one, `-` is no count. The dockets are those
/// of `pairs::tables` and of `named`; `with` has the place of a byte and what it is set to.
const SAMPLES: &str = "\
one meeting | broadcast | 1 1 | 9 | 2 | 0 2, 0 3
at rest from the beginning | broadcast | 0 2 | 9 | 2 | 0 2, 0 1
no worker to meet | broadcast | 2 0 | 9 | 2 | 2 0, 0 1
two groups | broadcast | 2 1; 1 1 | 9 | 4 | 0 3, 0 5; 0 2, 0 3
two groups, the other way round | broadcast | 1 1; 2 1 | 9 | 4 | 0 2, 0 3; 0 3, 0 5
limit 0 | broadcast | 2 1; 0 2; 1 1 | 0 | 6 | 2 1, 0 0; 0 2, 0 1; 1 1, 0 0
limit 1 | broadcast | 2 1; 0 2; 1 1 | 1 | 6 | 1 2, 0 2; 0 2, 0 1; 0 2, 0 3
limit 2 | broadcast | 2 1; 3 1; 1 1 | 2 | 6 | 0 3, 0 5; 1 3, 0 4; 0 2, 0 3
the greatest limit | broadcast | 2 1; 3 1 | 4294967295 | 4 | 0 3, 0 5; 0 4, 0 7
the limit is that of each group | broadcast | 2 1 * 5 | 2 | 10 | 0 3, 0 5 * 5
P8 and P9 | majority | 2 1 0 0; 1 1 0 0 | 9 | 4 | 1 0 2 0, 0 5; 0 0 0 2, 0 5
P8 and P9, limit 2 | majority | 2 1 0 0; 1 1 0 0 | 2 | 4 | 1 0 2 0, 0 5; 0 0 0 2, 0 5
P8, P9 and the end of P8, limit 1 | majority | 2 1 0 0; 1 1 0 0; 1 0 2 0 | 1 | 6 | 1 0 1 1, 0 2; 0 0 1 1, 0 2; 1 0 2 0, 0 1
P8, P9 and the end of P8, limit 0 | majority | 2 1 0 0; 1 1 0 0; 1 0 2 0 | 0 | 6 | 2 1 0 0, 0 0; 1 1 0 0, 0 0; 1 0 2 0, 0 1
own kind | own kind | 2 0; 1 1; 3 0 | 9 | 6 | 1 1, 0 3; 1 1, 0 1; 1 2, 0 5
the lowest rule of a pair | two outcomes | 1 1 0; 2 1 0 | 9 | 4 | 0 2 0, 0 3; 0 3 0, 0 5
parity of 2, 3 and 4 workers | parity | 2 0 0 0; 3 0 0 0; 4 0 0 0 | 9 | 6 | 0 1 0 1, 0 3; 1 0 2 0, 0 7; 0 1 0 3, 0 7
no rule | no rule | 1 1 0; 0 0 2; 0 1 0 | 9 | 6 | 1 1 0, 0 1; 0 0 2, 0 1; 0 1 0, 21 0
no rest | cycle | 2 0; 1 1; 0 2 | 3 | 6 | 0 2, 0 6; 1 1, 0 1; 2 0, 0 6
no rest, limit 1,000 | cycle | 2 0; 1 1; 0 2 | 1000 | 6 | 2 0, 0 2000; 1 1, 0 1; 0 2, 0 2000
a docket that test 9 refuses | broadcast with 31=0 | 2 1; 1 1 | 9 | 4 | 0 3, 0 5; 0 2, 0 3
a docket that test 12 refuses | broadcast with 39=9 | 2 1; 1 1 | 9 | 4 | 0 3, 0 5; 0 2, 0 3
version 2, groups that are no start | version 2, broadcast | 2 1; 0 257; 1 257 | 9 | 6 | 0 3, 0 5; 0 257, 0 1; 0 258, 0 3
version 2, P8 | version 2, majority | 2 1 0 0; 0 0 0 1 | 9 | 4 | 1 0 2 0, 0 5; 0 0 0 1, 21 0
no worker | broadcast | 0 0 | 9 | 2 | 0 0, 21 0
one worker | broadcast | 0 1; 1 0 | 9 | 4 | 0 1, 21 0; 1 0, 21 0
refused, the first group | broadcast | 1 0; 2 1; 1 1 | 9 | 6 | 1 0, 21 0; 0 3, 0 5; 0 2, 0 3
refused, the middle group | broadcast | 2 1; 1 0; 1 1 | 9 | 6 | 0 3, 0 5; 1 0, 21 0; 0 2, 0 3
refused, the last group | broadcast | 2 1; 1 1; 1 0 | 9 | 6 | 0 3, 0 5; 0 2, 0 3; 1 0, 21 0
refused, all but the middle group | broadcast | 0 0; 2 1; 0 0 | 9 | 6 | 0 0, 21 0; 0 3, 0 5; 0 0, 21 0
refused, all groups | broadcast | 0 0; 0 1; 1 0 | 9 | 6 | 0 0, 21 0; 0 1, 21 0; 1 0, 21 0
refused, limit 0 | broadcast | 0 0; 2 1 | 0 | 4 | 0 0, 21 0; 2 1, 0 0
1,000,000 workers | broadcast | 1000000 0; 0 1000000; 999999 1 | 9 | 6 | 1000000 0, 0 1; 0 1000000, 0 1; 999990 10, 0 18
1,000,001 workers | broadcast | 2 1; 1000000 1; 1 1 | 9 | 6 | 0 3, 0 5; 1000000 1, 21 0; 0 2, 0 3
a sum of 32 bits would be 0 | broadcast | 2 1; 4294967295 1; 1 1 | 9 | 6 | 0 3, 0 5; 4294967295 1, 21 0; 0 2, 0 3
a sum of 32 bits would be 2 | broadcast | 2 1; 4294967295 3; 1 1 | 9 | 6 | 0 3, 0 5; 4294967295 3, 21 0; 0 2, 0 3
all counts at their limit | broadcast | 4294967295 4294967295; 1 1 | 9 | 4 | 4294967295 4294967295, 21 0; 0 2, 0 3
999,999 steps | broadcast | 999999 1; 2 1 | 999999 | 4 | 0 1000000, 0 1999999; 0 3, 0 5
999,998 steps | broadcast | 999999 1; 2 1 | 999998 | 4 | 1 999999, 0 1999996; 0 3, 0 5
300 groups | broadcast | 2 1 * 300 | 9 | 600 | 0 3, 0 5 * 300
301 groups | broadcast | 2 1 * 300; 1 1 | 9 | 602 | 0 3, 0 5 * 300; 0 2, 0 3
5,000 groups | majority | 2 1 0 0 * 2500; 0 0 0 0; 1 1 0 0 * 2499 | 9 | 10000 | 1 0 2 0, 0 5 * 2500; 0 0 0 0, 21 0; 0 0 0 2, 0 5 * 2499
no counts, no results | broadcast | - | 9 | 0 | refused 32 0
no counts, results of one group | broadcast | - | 9 | 2 | refused 32 0
one count of two | broadcast | 1 | 9 | 2 | refused 32 0
one count of two, no results | broadcast | 1 | 9 | 0 | refused 32 0
three counts of two | broadcast | 1 1; 1 | 9 | 2 | refused 32 0
three counts of two, results of two groups | broadcast | 1 1; 1 | 9 | 4 | refused 32 0
three counts of four | majority | 2 1 0 | 9 | 2 | refused 32 0
six counts of four | majority | 2 1 0 0; 1 1 | 9 | 4 | refused 32 0
299 groups and a half | broadcast | 1 1 * 299; 1 | 9 | 600 | refused 32 0
300 groups and a half | broadcast | 1 1 * 300; 1 | 9 | 600 | refused 32 0
63 counts of 64 | 64 states | 1 * 63 | 9 | 2 | refused 32 0
65 counts of 64 | 64 states | 1 * 65 | 9 | 2 | refused 32 0
127 counts of 64 | 64 states | 1 * 127 | 9 | 4 | refused 32 0
no results | broadcast | 1 1 | 9 | 0 | refused 33 0
one result | broadcast | 1 1 | 9 | 1 | refused 33 0
three results | broadcast | 1 1 | 9 | 3 | refused 33 0
results of two groups for one | broadcast | 1 1 | 9 | 4 | refused 33 0
results of one group for two | broadcast | 1 1; 2 1 | 9 | 2 | refused 33 0
one result too few for two groups | broadcast | 1 1; 2 1 | 9 | 3 | refused 33 0
one result too many for two groups | broadcast | 1 1; 2 1 | 9 | 5 | refused 33 0
results of three groups for two | broadcast | 1 1; 2 1 | 9 | 6 | refused 33 0
a result for each group | majority | 2 1 0 0 * 4 | 9 | 4 | refused 33 0
a result for each count | majority | 2 1 0 0 | 9 | 4 | refused 33 0
599 results for 300 groups | broadcast | 1 1 * 300 | 9 | 599 | refused 33 0
601 results for 300 groups | broadcast | 1 1 * 300 | 9 | 601 | refused 33 0
test 32 before test 33 | broadcast | 1 1; 1 | 9 | 3 | refused 32 0
test 32 before test 33, no counts | broadcast | - | 9 | 1 | refused 32 0
test 32 before test 21 | broadcast | 0 0; 0 | 9 | 2 | refused 32 0
test 33 before test 21 | broadcast | 0 0 | 9 | 1 | refused 33 0
test 32, limit 0 | broadcast | 0 2; 0 | 0 | 2 | refused 32 0
test 33, limit 0 | broadcast | 0 2 | 0 | 1 | refused 33 0
test 1 | broadcast with 22=98 | 1 1 | 9 | 2 | refused 1 0
test 1 before tests 32 and 33 | broadcast with 22=98 | - | 9 | 1 | refused 1 0
test 2 | broadcast with 0=3 | 1 1 | 9 | 2 | refused 2 0
test 2 before tests 32 and 33 | broadcast with 0=3 | 1 | 9 | 1 | refused 2 0
test 3 | broadcast with 2=1 | 1 1 | 9 | 4 | refused 3 0
test 3 before tests 32 and 33 | broadcast with 2=65 | 1 | 9 | 1 | refused 3 0
test 3, no states | broadcast with 2=0 | - | 9 | 0 | refused 3 0
test 4 | broadcast with 12=0 | 1 1 | 9 | 2 | refused 4 0
test 4 before tests 32 and 33 | broadcast with 12=0 | 1 | 9 | 1 | refused 4 0
test 5 | broadcast with 25=7 | 1 1 | 9 | 2 | refused 5 1
test 5 before tests 32 and 33 | broadcast with 25=7 | 1 | 9 | 1 | refused 5 1
test 6 | broadcast with 30=1 | 1 1 | 9 | 2 | refused 6 0
test 6 before tests 32 and 33 | broadcast with 30=1 | 1 | 9 | 1 | refused 6 0
test 7 | two outcomes with 35=1 | 1 1 0 | 9 | 2 | refused 7 1
test 7 before tests 32 and 33 | two outcomes with 35=1 | 1 1 | 9 | 1 | refused 7 1
test 14 | version 2, two outcomes with 34=2 | 1 1 0 | 9 | 2 | refused 14 1
test 14 before test 32 | version 2, two outcomes with 34=2 | 1 1 | 9 | 2 | refused 14 1
test 14 before test 33 | version 2, two outcomes with 34=2 | 1 1 0 | 9 | 1 | refused 14 1
test 14 before test 21 | version 2, two outcomes with 34=2 | 0 0 0 | 9 | 2 | refused 14 1
test 8 | broadcast with 34=1 | 1 1 | 9 | 2 | refused 8 0
test 8 before test 32 | broadcast with 34=1 | 1 | 9 | 2 | refused 8 0
test 8 before test 33 | broadcast with 34=1 | 1 1 | 9 | 1 | refused 8 0
test 8 before test 21 | broadcast with 34=1 | 0 0; 1 1 | 9 | 4 | refused 8 0
";

/// The bytes of a docket with this name, one of them changed where the text says so.
fn named(text: &str) -> Vec<u8> {
    let (name, change) = text.split_once(" with ").unwrap_or((text, ""));
    let docket = match name {
        "cycle" => with_rules(make::still(2), "0 0 1 1 0; 1 1 0 0 0", vec![0, 0]),
        "64 states" => make::still(64),
        _ => pairs::table(name),
    };
    with_bytes(docket.bytes(), change)
}

/// The bytes after the changes of a text: each is a place and the byte that stands there then.
pub fn with_bytes(mut bytes: Vec<u8>, changes: &str) -> Vec<u8> {
    for change in changes.split_terminator(", ") {
        let (at, byte) = change.split_once('=').expect("a place and a byte");
        bytes[at.parse::<usize>().expect("a place")] = byte.parse().expect("a byte");
    }
    bytes
}

/// The groups of a text, repeated where it says so.
fn repeated(text: &str) -> Vec<&str> {
    let group = |group| -> Vec<&str> {
        let (group, times) = str::split_once(group, " * ").unwrap_or((group, "1"));
        vec![group; times.parse().expect("how often")]
    };
    text.split("; ").flat_map(group).collect()
}

fn counts_of(text: &str) -> Vec<u32> {
    let counts = numbers(text.trim_matches('-')).into_iter();
    counts.map(|count| u32::try_from(count).expect("a count")).collect()
}

/// The names of the samples, and what is wrong with each.
pub fn samples() -> Vec<(&'static str, Option<String>)> {
    SAMPLES.lines().map(sample).collect()
}

fn sample(text: &'static str) -> (&'static str, Option<String>) {
    let [name, docket, counts, limit, results, said] = row(text);
    let results = results.parse().expect("the number of results");
    let page = Page {
        counts: repeated(counts).into_iter().flat_map(counts_of).collect(),
        limit: limit.parse().expect("a limit"),
        results: (0..results).map(|at| UNTOUCHED + at).collect(),
    };
    (name, problem(&named(docket), &page, &sample_outcome(&page, said)))
}

fn sample_outcome(page: &Page, said: &str) -> Outcome {
    if let Some(refusal) = said.strip_prefix("refused ").map(counts_of) {
        return with_said(page, refused(refusal[0], refusal[1]));
    }
    let groups = repeated(said);
    let groups = groups.iter().map(|group| group.split_once(", ").expect("two lists"));
    let result = |text: &str| counts_of(text).into_iter().map(u64::from).collect::<Vec<_>>();
    Outcome {
        said: Said::done(&[]),
        counts: groups.clone().flat_map(|(counts, _)| counts_of(counts)).collect(),
        results: groups.flat_map(|(_, results)| result(results)).collect(),
    }
}

fn refused(number: u32, place: u32) -> Said {
    Said::refused(Refusal { number, place })
}

/// What is said, and what the page holds.
fn with_said(page: &Page, said: Said) -> Outcome {
    Outcome {
        said,
        counts: page.counts.clone(),
        results: page.results.clone(),
    }
}

/// What is wrong with a case of the corpus: a docket, the counts, the results before the call and the limit, `->`, `ok`
/// or the refusal, and the counts and the results afterwards.
pub fn case_problem(case: &str) -> Option<String> {
    let (input, expected) = case.split_once(" -> ").expect("what is said");
    let words: Vec<&str> = input.split(' ').collect();
    let [docket, counts, results, limit] = words[..] else {
        panic!("not a docket, counts, results and a limit: {case}");
    };
    let page = Page {
        counts: list(counts),
        limit: limit.parse().expect("a limit"),
        results: list(results),
    };
    problem(&from_hex(docket), &page, &case_outcome(expected))
}

fn case_outcome(text: &str) -> Outcome {
    let words: Vec<&str> = text.split(' ').collect();
    let (said, counts, results) = match words[..] {
        ["ok", counts, results] => (Said::done(&[]), counts, results),
        ["refused", number, place, counts, results] => {
            let [number, place] = [number, place].map(|text| text.parse().expect("a number"));
            (refused(number, place), counts, results)
        }
        _ => panic!("not what is said, counts and results: {text}"),
    };
    Outcome {
        said,
        counts: list(counts),
        results: list(results),
    }
}

/// The numbers of a text with commas between them; `-` is none.
fn list<T: FromStr<Err: Debug>>(text: &str) -> Vec<T> {
    let numbers = text.split(',').filter(|&number| number != "-");
    numbers.map(|number| number.parse().expect("a number")).collect()
}

fn list_text<T: Display>(numbers: &[T]) -> String {
    let texts: Vec<String> = numbers.iter().map(T::to_string).collect();
    if texts.is_empty() {
        "-".into()
    } else {
        texts.join(",")
    }
}

/// A page as the cases of the corpus have it.
fn text(page: &Page) -> String {
    let (counts, results) = (list_text(&page.counts), list_text(&page.results));
    format!("{counts} {results} {}", page.limit)
}

/// What is wrong with what the two implementations say to a page and leave in it.
fn problem(docket: &[u8], page: &Page, expected: &Outcome) -> Option<String> {
    let native = outcome(&native::run_page, docket, page);
    let second = outcome(&calls::run_page, docket, page);
    unlike(&native, expected)
        .or_else(|| unlike(&second, expected).map(|text| format!("second implementation: {text}")))
        .or_else(|| broken_law(&native::say, docket, page, &native))
}

/// What an implementation says to a page and leaves in it.
pub fn outcome(run_page: RunPage, docket: &[u8], page: &Page) -> Outcome {
    let mut after = page.clone();
    let said = run_page(docket, &mut after.counts, page.limit, &mut after.results);
    with_said(&after, said)
}

/// Where one outcome is another than that which is expected.
fn unlike(one: &Outcome, expected: &Outcome) -> Option<String> {
    if one.said != expected.said {
        return Some(format!("{:?} and not {:?}", one.said, expected.said));
    }
    if one.counts != expected.counts {
        return Some(format!("counts {}", first_difference(&one.counts, &expected.counts)));
    }
    let results = || format!("results {}", first_difference(&one.results, &expected.results));
    (one.results != expected.results).then(results)
}

/// Where an outcome is another than that of the second implementation.
pub fn difference(docket: &[u8], page: &Page, done: &Outcome) -> Option<String> {
    let problem = unlike(done, &outcome(&calls::run_page, docket, page))?;
    Some(format!("page {}: {problem}, by the second implementation", text(page)))
}

/// Where an outcome is another than the groups have one by one, each in a run call of the same implementation; or what
/// a refused page has written to it.
pub fn broken_law(say: Say, docket: &[u8], page: &Page, done: &Outcome) -> Option<String> {
    let expected = match done.said.code {
        0 => one_by_one(say, docket, page),
        _ => with_said(page, done.said),
    };
    let problem = unlike(done, &expected)?;
    Some(format!("page {}: {problem}, by its groups one by one", text(page)))
}

/// What the groups have one by one: each is lent alone, and the rest of the page stays.
fn one_by_one(say: Say, docket: &[u8], page: &Page) -> Outcome {
    let states = second::parse(docket).map_or(1, |docket| docket.states.len());
    let mut after = with_said(page, Said::done(&[]));
    let groups = after.counts.chunks_mut(states);
    for (counts, result) in groups.zip(after.results.chunks_mut(2)) {
        let said = say(docket, counts, Call::Run(page.limit));
        let [steps, rests] = said.answers;
        let numbers = match said.refusal() {
            Some(refusal) => [u64::from(refusal.number), 0],
            None => [0, 2 * steps + rests],
        };
        result.copy_from_slice(&numbers[..result.len()]);
    }
    after
}

#[cfg(test)]
mod tests {
    use super::*;
    use crate::random::Random;

    /// Random pages of every table.
    fn some_pages() -> Vec<(Vec<u8>, Page)> {
        let mut random = Random::new(8);
        let mut all = vec![];
        for (_, docket) in pairs::tables() {
            let bytes = docket.bytes();
            all.extend((0..60).map(|_| (bytes.clone(), random_page(Some(&docket), &mut random))));
        }
        all.retain(|(_, page)| page.results.len() < 1000);
        all
    }

    /// Whether an implementation of pages differs from the second one somewhere, and whether it breaks the law.
    fn seen(run_page: RunPage) -> (bool, bool) {
        let mut seen = (false, false);
        for (docket, page) in some_pages() {
            let done = outcome(run_page, &docket, &page);
            seen.0 |= difference(&docket, &page, &done).is_some();
            seen.1 |= broken_law(&calls::say, &docket, &page, &done).is_some();
        }
        seen
    }

    #[test]
    fn second_implementation_keeps_the_law() {
        assert_eq!(seen(&calls::run_page), (false, false));
    }

    #[test]
    fn a_wrong_outcome_is_seen() {
        let page = Page {
            counts: vec![2, 1],
            limit: 9,
            results: vec![7, 7],
        };
        let right = case_outcome("ok 0,3 0,5");
        assert_eq!(outcome(&calls::run_page, &named("broadcast"), &page), right);
        for wrong in ["ok 0,2 0,5", "ok 0,3 0,4", "ok 0,3 21,5", "refused 32 0 0,3 0,5"] {
            assert!(unlike(&right, &case_outcome(wrong)).is_some(), "{wrong}");
        }
    }

    /// Changes what became of a group, from where it stands, its counts before, and its counts and results afterwards.
    type Change = fn(usize, &[u32], &mut [u32], &mut [u64]);

    const WRONG_GROUPS: [(&str, Change); 10] = [
        ("a second number of refused groups", |_, _, _, result| {
            result[1] |= u64::from(result[0] != 0)
        }),
        ("refused groups lose their counts", |_, _, counts, result| {
            if result[0] != 0 {
                counts.fill(0);
            }
        }),
        ("no refusal", |_, _, _, result| result[0] = 0),
        ("a refusal with its place", |_, _, _, result| result[0] <<= 32),
        ("no rest", |_, _, _, result| result[1] &= !1),
        ("rest at every limit", |_, _, _, result| {
            result[1] |= u64::from(result[0] == 0)
        }),
        ("steps not doubled", |_, _, _, result| {
            result[1] = result[1] / 2 + result[1] % 2
        }),
        ("numbers exchanged", |_, _, _, result| result.swap(0, 1)),
        ("the counts of group 2 stay", |at, before, counts, _| {
            if at == 2 {
                counts.copy_from_slice(before);
            }
        }),
        ("group 2 is taken for refused", |at, _, _, result| {
            if at == 2 {
                result.copy_from_slice(&[21, 0]);
            }
        }),
    ];

    #[test]
    fn wrong_groups_are_seen() {
        for (name, change) in WRONG_GROUPS {
            let run_page: RunPage = &|docket, counts, limit, results| {
                let before = counts.to_vec();
                let said = calls::run_page(docket, counts, limit, results);
                if said.code == 0 {
                    let states = 2 * counts.len() / results.len();
                    let groups = counts.chunks_mut(states).zip(results.chunks_mut(2));
                    for (at, (counts, result)) in groups.enumerate() {
                        change(at, &before[at * states..][..states], counts, result);
                    }
                }
                said
            };
            assert_eq!(seen(run_page), (true, true), "{name}");
        }
    }

    /// Runs the groups one by one. The limit of the next group follows from that of one and from its results; with no
    /// limit it is not run.
    fn linked(
        docket: &[u8],
        counts: &mut [u32],
        limit: u32,
        results: &mut [u64],
        next: fn(u32, &[u64]) -> Option<u32>,
    ) -> Said {
        let said = calls::run_page(docket, &mut counts.to_vec(), 0, &mut results.to_vec());
        if said.code != 0 {
            return said;
        }
        let mut limit = Some(limit);
        let states = 2 * counts.len() / results.len();
        for (counts, result) in counts.chunks_mut(states).zip(results.chunks_mut(2)) {
            limit = limit.and_then(|limit| {
                calls::run_page(docket, counts, limit, result);
                next(limit, result)
            });
        }
        said
    }

    /// A page is refused where one of its groups is.
    fn all_or_none(docket: &[u8], counts: &mut [u32], limit: u32, results: &mut [u64]) -> Said {
        let mut numbers = results.to_vec();
        let said = calls::run_page(docket, &mut counts.to_vec(), limit, &mut numbers);
        if said.code == 0 && numbers.chunks(2).any(|result| result[0] != 0) {
            return refused(21, 0);
        }
        calls::run_page(docket, counts, limit, results)
    }

    /// The number of a refusal is written to the first result.
    fn refusal_written(docket: &[u8], counts: &mut [u32], limit: u32, results: &mut [u64]) -> Said {
        let said = calls::run_page(docket, counts, limit, results);
        if let (Some(first), Some(refusal)) = (results.first_mut(), said.refusal()) {
            *first = u64::from(refusal.number);
        }
        said
    }

    /// The groups are run before test 33.
    fn late_test_33(docket: &[u8], counts: &mut [u32], limit: u32, results: &mut [u64]) -> Said {
        let said = calls::run_page(docket, counts, limit, results);
        if said == refused(33, 0) {
            let groups = counts.len() / usize::from(docket[2]);
            calls::run_page(docket, counts, limit, &mut vec![0; 2 * groups]);
        }
        said
    }

    /// Test 33 comes before 32.
    fn early_test_33(docket: &[u8], counts: &mut [u32], limit: u32, results: &mut [u64]) -> Said {
        match calls::run_page(docket, counts, limit, results) {
            said if said == refused(32, 0) && results.len() % 2 == 1 => refused(33, 0),
            said => said,
        }
    }

    /// A page of no groups is run.
    fn no_groups(docket: &[u8], counts: &mut [u32], limit: u32, results: &mut [u64]) -> Said {
        match calls::run_page(docket, counts, limit, results) {
            said if said == refused(32, 0) && counts.is_empty() => Said::done(&[]),
            said => said,
        }
    }

    /// A wrong call, and whether the law tells that it is wrong.
    type WrongCall = (&'static str, fn(&[u8], &mut [u32], u32, &mut [u64]) -> Said, bool);

    const WRONG_CALLS: [WrongCall; 7] = [
        (
            "a refused group stops the others",
            |d, c, l, r| linked(d, c, l, r, |limit, result| (result[0] == 0).then_some(limit)),
            true,
        ),
        (
            "one limit for all groups together",
            |d, c, l, r| linked(d, c, l, r, |limit, result| Some(limit - (result[1] / 2) as u32)),
            true,
        ),
        ("a refused group refuses the page", all_or_none, false),
        ("a refusal is written to the results", refusal_written, true),
        ("groups are run before test 33", late_test_33, true),
        ("test 33 before test 32", early_test_33, false),
        ("no counts are no fault", no_groups, false),
    ];

    #[test]
    fn wrong_calls_are_seen() {
        for (name, run_page, law) in WRONG_CALLS {
            assert_eq!(seen(&run_page), (true, law), "{name}");
        }
    }
}
