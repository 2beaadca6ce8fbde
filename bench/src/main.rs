//! Times the proved implementation against the same methods in Rust, on the same input; and against the second
//! implementation, which is plain rather than fast. The proved implementation is called through C, in one process with
//! the others; its sheets of totals are printed by the program `tally`, in processes of their own.
//!
//!     bench            times all cases
//!     bench WORD       times the cases whose name has the word
//!     bench answers    times nothing: all three must say the same in every case
//!     bench before ARCHIVE [WORD]
//!                      times the checks of another libdocket.a, such as that of an earlier commit, and of this one,
//!                      both loaded as shared objects
//!     bench apart [WORD]
//!                      times pages, run by one call of the library and by a call for each group
//!
//! Each round times all three, one after the other, over as many repetitions as take some milliseconds. A ratio is the
//! median of the rounds' ratios: below 1, the proved implementation is the faster one, or this library, or the one call.

mod baseline;
mod loaded;

use second::Docket;
use std::hash::{DefaultHasher, Hash, Hasher};
use std::hint::black_box;
use std::time::Instant;
use tests::calls::{self, Call};
use tests::make::{fixed, remainder, sheet};
use tests::{make, native, program};

const ROUNDS: usize = 15;
const LEAST_SECONDS: f64 = 0.004;

/// One case: what is timed, how many things one call does, and the three implementations: proved, baseline, second.
struct Case<'a> {
    name: String,
    unit: &'static str,
    units: u64,
    calls: [Box<dyn FnMut() -> u64 + 'a>; 3],
}

fn main() {
    let argument = |place| std::env::args().nth(place).unwrap_or_default();
    let word = argument(1);
    if word == "answers" {
        return compare_answers();
    }
    if word == "before" {
        return compare_libraries(&argument(2), &argument(3));
    }
    if word == "apart" {
        return compare_pages(&argument(2));
    }
    println!(
        "{:<52} {:>12} {:>12} {:>6} {:>7}",
        "case", "proved", "baseline", "ratio", "second"
    );
    let inputs = Inputs::new();
    let mut ratios = vec![];
    for case in inputs.cases() {
        if case.name.contains(&word) {
            ratios.push(time(case));
        }
    }
    let greatest = ratios.iter().copied().fold(0.0, f64::max);
    println!("{} cases, greatest ratio {greatest:.2}", ratios.len());
}

/// Prints how many cases have one answer; a case that has two ends the program.
fn compare_answers() {
    let inputs = Inputs::new();
    let mut cases = inputs.cases();
    cases.iter_mut().for_each(same_answer);
    println!("{} passed, 0 failed", cases.len());
}

fn same_answer(case: &mut Case) {
    let [proved, baseline, second] = &mut case.calls;
    let answer = proved();
    assert_eq!(answer, baseline(), "{}: the baseline answers otherwise", case.name);
    assert_eq!(
        answer,
        second(),
        "{}: the second implementation answers otherwise",
        case.name
    );
}

/// Prints, for each check whose name has the word, nanoseconds with the other library and with this one, and the ratio.
fn compare_libraries(archive: &str, word: &str) {
    let (old, new) = (loaded::check_of(archive.as_ref()), loaded::check_of(&loaded::current()));
    println!("{:<52} {:>12} {:>12} {:>6}", "case", "before", "now", "ratio");
    for (name, docket) in checks().iter().filter(|(name, _)| name.contains(word)) {
        assert_eq!(old(docket), new(docket), "{name}: the other library answers otherwise");
        compare(
            name,
            1,
            [Box::new(|| new(black_box(docket))), Box::new(|| old(black_box(docket)))],
        );
    }
}

/// Prints, for each page whose name has the word, nanoseconds a group with a call for each group and with one call for
/// all, and the ratio.
fn compare_pages(word: &str) {
    println!("{:<52} {:>12} {:>12} {:>6}", "case", "apart", "page", "ratio");
    for (name, docket, counts) in pages().iter().filter(|(name, ..)| name.contains(word)) {
        let calls = [RUN_PAGE[0], run_apart].map(|run_page| page_call(name, docket, counts, run_page));
        compare(name, GROUPS.into(), calls);
    }
}

/// Prints nanoseconds a unit with the second call and with the first, and the ratio of the first to the second.
fn compare(name: &str, units: u64, mut calls: [Box<dyn FnMut() -> u64 + '_>; 2]) {
    let (rounds, repetitions) = rounds(&mut calls);
    let of = |value: &dyn Fn(&[f64; 2]) -> f64| median(rounds.iter().map(value).collect());
    let each = 1e9 / (repetitions * units) as f64;
    let (first, second) = (of(&|round| round[0] * each), of(&|round| round[1] * each));
    let ratio = of(&|round| round[0] / round[1]);
    println!("{name:<52} {second:>9.1} ns {first:>9.1} ns {ratio:>6.2}");
}

/// The seconds of each call in each round, and how often a call is made in a round.
fn rounds<const N: usize>(calls: &mut [Box<dyn FnMut() -> u64 + '_>; N]) -> (Vec<[f64; N]>, u64) {
    let repetitions = repetitions(&mut calls[0]);
    let round = |_| std::array::from_fn(|i| seconds(&mut calls[i], repetitions));
    ((0..ROUNDS).map(round).collect(), repetitions)
}

/// Prints nanoseconds a unit and the two ratios; hands back that to the baseline.
fn time(mut case: Case) -> f64 {
    same_answer(&mut case);
    let (rounds, repetitions) = rounds(&mut case.calls);
    let each = 1e9 / (repetitions * case.units) as f64;
    let of = |value: &dyn Fn(&[f64; 3]) -> f64| median(rounds.iter().map(value).collect());
    let (proved, baseline) = (of(&|round| round[0] * each), of(&|round| round[1] * each));
    let (ratio, second) = (of(&|round| round[0] / round[1]), of(&|round| round[0] / round[2]));
    println!(
        "{:<52} {proved:>9.1} ns {baseline:>9.1} ns {ratio:>6.2} {second:>7.2}  a {}",
        case.name, case.unit
    );
    ratio
}

fn repetitions(call: &mut dyn FnMut() -> u64) -> u64 {
    let mut repetitions = 1;
    while seconds(call, repetitions) < LEAST_SECONDS {
        repetitions *= 2;
    }
    repetitions
}

fn seconds(call: &mut dyn FnMut() -> u64, repetitions: u64) -> f64 {
    let start = Instant::now();
    for _ in 0..repetitions {
        black_box(call());
    }
    start.elapsed().as_secs_f64()
}

fn median(mut values: Vec<f64>) -> f64 {
    values.sort_by(f64::total_cmp);
    values[values.len() / 2]
}

/// The dockets of all cases, which outlive them.
struct Inputs {
    checks: Vec<(String, Vec<u8>)>,
    runs: Vec<(String, Vec<u8>, Vec<u32>)>,
    outcomes: Vec<(String, Vec<u8>, Vec<u32>)>,
    starts: Vec<(String, Vec<u8>, Vec<u32>)>,
    pairs: Vec<(String, Vec<u8>, Vec<u32>)>,
    pages: Vec<(String, Vec<u8>, Vec<u32>)>,
    totals: Vec<(String, Vec<u8>, u64)>,
    sheets: Vec<(String, Vec<u8>, Vec<u8>)>,
    writes: Vec<(String, Vec<u8>)>,
}

impl Inputs {
    fn new() -> Inputs {
        Inputs {
            checks: checks(),
            runs: runs(),
            outcomes: outcomes(),
            starts: starts(),
            pairs: pairs(),
            pages: pages(),
            totals: totals(),
            sheets: sheets(),
            writes: writes(),
        }
    }

    fn cases(&self) -> Vec<Case<'_>> {
        let mut cases: Vec<Case> = self
            .checks
            .iter()
            .map(|(name, docket)| check_case(name, docket))
            .collect();
        cases.extend(
            self.runs
                .iter()
                .map(|(name, docket, counts)| run_case(name, docket, counts)),
        );
        let small_groups = self.runs.iter().take(self.runs.len() / 2).chain(&self.outcomes);
        cases.extend(small_groups.map(|(name, docket, counts)| refused_case(name, docket, counts)));
        let checks = self.outcomes.iter();
        cases.extend(checks.map(|(name, docket, _)| check_case(&format!("check, {name}"), docket)));
        let starts = self.starts.iter();
        cases.extend(starts.map(|(name, docket, counts)| start_case(name, docket, counts)));
        let pairs = self.pairs.iter();
        cases.extend(pairs.map(|(name, docket, counts)| can_act_case(name, docket, counts)));
        let pages = self.pages.iter();
        cases.extend(pages.map(|(name, docket, counts)| page_case(name, docket, counts)));
        let totals = self.totals.iter();
        cases.extend(totals.map(|(name, input, starts)| totals_case(name, input, *starts)));
        let sheets = self.sheets.iter();
        cases.extend(sheets.map(|(name, docket, sheet)| sheet_case(name, docket, sheet)));
        cases.extend(self.writes.iter().map(|(name, docket)| write_case(name, docket)));
        cases
    }
}

fn checks() -> Vec<(String, Vec<u8>)> {
    let mut dockets: Vec<(String, Docket)> = vec![("check, every count at its limit".into(), make::largest())];
    for nodes in [64, 256, 1024, 2048] {
        let docket = make::relay(60, nodes);
        let sets = set_nodes(&docket);
        assert!(2 * sets >= nodes, "of {nodes} nodes only {sets} test sets");
        dockets.push((
            format!("check, 60 states, {nodes} nodes, {sets} of kinds 1, 5, 6"),
            docket,
        ));
    }
    dockets.push((
        "check, 2,048 nodes, 128 leaves, 1 rule".into(),
        make::layered(64, 1, 1, 2048, 128),
    ));
    dockets.push((
        "check, 2,048 nodes, 128 leaves, 256 rules".into(),
        make::layered(64, 256, 1, 2048, 128),
    ));
    dockets.push((
        "check, sums modulo 17, 128 leaves closed by kind 7".into(),
        remainder::many_leaves(),
    ));
    for rules in [32, 64, 128, 256] {
        dockets.push((
            format!("check, mostly handover, {rules} rules, 16 layers"),
            make::layered(64, rules, 16, 6, 1),
        ));
    }
    for states in [4, 10, 22] {
        let verdicts: Vec<u8> = (0..states).map(|state| u8::from(state + 1 == states)).collect();
        dockets.push((format!("check, maximum of {states} states"), make::maximum(&verdicts)));
    }
    dockets.push(("check, broadcast".into(), make::broadcast()));
    dockets.extend(fixed_checks());
    dockets
        .into_iter()
        .map(|(name, docket)| (name, docket.bytes()))
        .collect()
}

/// How many nodes are of kinds 1, 5 and 6, whose grounds are tests of sets.
fn set_nodes(docket: &Docket) -> usize {
    let tests_set = |node: &&second::Node| matches!(node.kind, 1 | 5 | 6);
    docket.nodes.iter().filter(tests_set).count()
}

/// Dockets of version 2, with their rules in order; those whose names are without fixed agents are dockets of version 1 in
/// version 2.
fn fixed_checks() -> Vec<(String, Docket)> {
    let none = |docket: Docket| fixed::with_fixed(docket, &[]);
    let numbers: Vec<i64> = (0..17).map(|value| 1 + 50 * value).collect();
    let leaves = fixed::layered(1, 1, 2048, 128);
    [
        ("every count at its limit, no fixed agents", none(make::largest())),
        ("60 states, 2,048 nodes, no fixed agents", none(make::relay(60, 2048))),
        ("broadcast, no fixed agents", none(make::broadcast())),
        ("every count at its limit, 64,000 fixed agents", fixed::largest()),
        ("2,048 nodes, 128 leaves, 1 rule, 64,000 fixed agents", leaves),
        ("sums modulo 17 of fixed agents, kind 7", fixed::sum(17, 3, &numbers)),
        ("majority of fixed agents", fixed::majority(257, 256)),
    ]
    .map(|(name, docket)| (format!("check, v2, {name}"), docket))
    .into()
}

fn check_case<'a>(name: &str, docket: &'a [u8]) -> Case<'a> {
    assert!(second::check(docket).is_ok(), "{name} is not accepted");
    Case {
        name: name.into(),
        unit: "check",
        units: 1,
        calls: [
            Box::new(move || native::check(black_box(docket))),
            Box::new(move || baseline::check_code(black_box(docket))),
            Box::new(move || calls::check_code(black_box(docket))),
        ],
    }
}

/// Tables with the counts that a run starts from; a run makes at most 100,000 meetings.
fn runs() -> Vec<(String, Vec<u8>, Vec<u32>)> {
    let mut runs = vec![];
    for workers in [2_000, 1_000_000] {
        for states in [2, 10, 60] {
            let mut counts = vec![0; states];
            (counts[0], counts[states - 1]) = (workers - 1, 1);
            runs.push((
                format!("relay, {states} states, {workers} workers"),
                make::relay(states, 5).bytes(),
                counts,
            ));
        }
        for states in [4, 10, 22] {
            let docket = make::maximum(&vec![0; states]).bytes();
            runs.push((
                format!("maximum, {states} states, {workers} workers"),
                docket,
                spread(states, workers),
            ));
        }
        for layers in [2, 16] {
            let docket = make::layered(64, 256, layers, 6, 1).bytes();
            runs.push((
                format!("256 rules in {layers} layers, {workers} workers"),
                docket,
                spread(64, workers),
            ));
        }
    }
    runs
}

/// Tables in which a pair has several rules, so that test 7 makes its second search, with counts for a step.
fn outcomes() -> Vec<(String, Vec<u8>, Vec<u32>)> {
    let one_pair = ("256 rules for one pair", make::outcomes(64, 256, 1));
    let one_mark = ("256 rules that share their marks", make::shared_marks());
    let case = |(name, docket): (&str, Docket)| (name.into(), docket.bytes(), spread(64, 2_000));
    vec![case(one_pair), case(one_mark)]
}

fn spread(states: usize, workers: u32) -> Vec<u32> {
    let mut counts = vec![workers / states as u32; states];
    counts[0] += workers % states as u32;
    counts
}

const LIMIT: u32 = 100_000;

fn run_case<'a>(name: &str, docket: &'a [u8], counts: &'a [u32]) -> Case<'a> {
    let mut after = counts.to_vec();
    let meetings = native::say(docket, &mut after, Call::Run(LIMIT)).answers[0];
    let run = move |run: &dyn Fn(&mut [u32]) -> u64| {
        let mut group = black_box(counts).to_vec();
        run(&mut group) + u64::from(group[0])
    };
    Case {
        name: format!("run, {name}"),
        unit: "meeting",
        units: meetings,
        calls: [
            Box::new(move || run(&|group| native::say(docket, group, Call::Run(LIMIT)).answers[0])),
            Box::new(move || run(&|group| baseline::run(docket, group, LIMIT).map_or(0, |(steps, _)| steps))),
            Box::new(move || run(&|group| calls::say(docket, group, Call::Run(LIMIT)).answers[0])),
        ],
    }
}

/// A step that is refused for its rule number: tests 1 to 8, 14, 20 and 21, and no more.
fn refused_case<'a>(name: &str, docket: &'a [u8], counts: &'a [u32]) -> Case<'a> {
    let [mut first, mut second, mut third] = [counts.to_vec(), counts.to_vec(), counts.to_vec()];
    Case {
        name: format!("step refused, {name}"),
        unit: "call",
        units: 1,
        calls: [
            Box::new(move || native::say(black_box(docket), &mut first, Call::Step(1000)).code),
            Box::new(move || baseline::step_code(black_box(docket), &mut second, 1000)),
            Box::new(move || calls::say(black_box(docket), &mut third, Call::Step(1000)).code),
        ],
    }
}

/// Starts, and groups in which one of the fixed agents is missing or, in version 1, one worker is in no input.
fn starts() -> Vec<(String, Vec<u8>, Vec<u32>)> {
    let all = fixed::with_fixed(make::still(64), &[1000; 64]);
    let first = make::last_no_input();
    let last = fixed::with_fixed(make::last_no_input(), &[9; 64]);
    let [old, new] = ordered_rules();
    let group = |last: u32| [vec![1000; 63], vec![last]].concat();
    let only_first = [vec![2_000], vec![0; 63]].concat();
    [
        ("start test, 64 states", &first, group(0)),
        ("start test refused, 64 states", &first, group(1)),
        ("start test, v2, 64 states, 64,000 fixed agents", &all, group(1000)),
        ("start test, v2, 64 states, the last no input", &last, group(9)),
        ("start test refused, v2, 64 states", &last, group(8)),
        ("start test, 64 states, 256 rules in order", &old, only_first.clone()),
        ("start test, v2, 64 states, 256 rules in order", &new, only_first),
    ]
    .map(|(name, docket, counts)| (name.into(), docket.bytes(), counts))
    .into()
}

/// 256 rules in order, so that test 14 looks at every rule, in version 1 and in version 2.
fn ordered_rules() -> [Docket; 2] {
    let new = fixed::with_fixed(make::layered(64, 256, 16, 6, 1), &[]);
    let old = Docket {
        version: 1,
        ..new.clone()
    };
    [old, new]
}

fn start_case<'a>(name: &str, docket: &'a [u8], counts: &'a [u32]) -> Case<'a> {
    let [mut first, mut third] = [counts.to_vec(), counts.to_vec()];
    Case {
        name: name.into(),
        unit: "call",
        units: 1,
        calls: [
            Box::new(move || native::say(black_box(docket), &mut first, Call::StartTest).code),
            Box::new(move || baseline::start_code(black_box(docket), black_box(counts))),
            Box::new(move || calls::say(black_box(docket), &mut third, Call::StartTest).code),
        ],
    }
}

/// Groups in which the last rule can act.
fn pairs() -> Vec<(String, Vec<u8>, Vec<u32>)> {
    let [old, new] = ordered_rules();
    let most = 1_000_000;
    [
        ("2 states", &make::broadcast(), spread(2, most)),
        ("2 states, own kind", &make::deep(2), vec![most, 0]),
        ("64 states, 256 rules", &old, spread(64, most)),
        ("v2, 64 states, 256 rules", &new, spread(64, most)),
    ]
    .map(|(name, docket, counts)| (format!("can act, {name}"), docket.bytes(), counts))
    .into()
}

/// The answer is the number of pairs of the last rule.
fn can_act_case<'a>(name: &str, docket: &'a [u8], counts: &'a [u32]) -> Case<'a> {
    let rules = second::parse(docket).expect("a docket that passes tests 1 to 8").rules;
    let last = rules.len() as u32 - 1;
    let [mut first, mut third] = [counts.to_vec(), counts.to_vec()];
    Case {
        name: name.into(),
        unit: "call",
        units: 1,
        calls: [
            Box::new(move || native::say(black_box(docket), &mut first, Call::CanAct(last)).answers[0]),
            Box::new(move || baseline::can_act(black_box(docket), black_box(counts), last).expect("a number")),
            Box::new(move || calls::say(black_box(docket), &mut third, Call::CanAct(last)).answers[0]),
        ],
    }
}

const GROUPS: u32 = 300;

/// Pages of large groups and of small ones, with the counts of all groups.
fn pages() -> Vec<(String, Vec<u8>, Vec<u32>)> {
    let majority = include_bytes!("../../examples/majority.docket");
    let maximum = make::maximum(&[0; 10]).bytes();
    let [_, rules] = ordered_rules().map(|docket| docket.bytes());
    let page = |name: &str, docket: &[u8], group: &dyn Fn(u32) -> Vec<u32>| {
        let counts = (0..GROUPS).flat_map(group).collect();
        (format!("page, {name}"), docket.to_vec(), counts)
    };
    vec![
        page("majority, 2,000 workers", majority, &|g| vec![850 + g, 1_150 - g, 0, 0]),
        page("majority, 5 workers", majority, &|g| vec![g % 6, 5 - g % 6, 0, 0]),
        page("maximum, 10 states, 2,000 workers", &maximum, &|_| spread(10, 2_000)),
        page("maximum, 10 states, 5 workers", &maximum, &|g| five_workers(10, g)),
        page("v2, 64 states, 256 rules, 5 workers", &rules, &|g| five_workers(64, g)),
    ]
}

/// A worker in a state and in four further ones, three apart.
fn five_workers(states: u32, first: u32) -> Vec<u32> {
    let occupied = |state| (0..5).any(|worker| (first + 3 * worker) % states == state);
    (0..states).map(|state| u32::from(occupied(state))).collect()
}

/// Runs a page by docket, counts, limit and results, and hands back the code.
type RunPage = fn(&[u8], &mut [u32], u32, &mut [u64]) -> u64;

/// Proved, baseline, second.
const RUN_PAGE: [RunPage; 3] = [
    |docket, counts, limit, results| native::run_page(docket, counts, limit, results).code,
    baseline::run_page_code,
    |docket, counts, limit, results| calls::run_page(docket, counts, limit, results).code,
];

/// Runs a page of the proved implementation by a call for each group.
fn run_apart(docket: &[u8], counts: &mut [u32], limit: u32, results: &mut [u64]) -> u64 {
    let states = counts.len() * 2 / results.len();
    for (group, result) in counts.chunks_exact_mut(states).zip(results.chunks_exact_mut(2)) {
        let said = native::say(docket, group, Call::Run(limit));
        let [steps, rests] = if said.code == 0 { said.answers } else { [0; 2] };
        result.copy_from_slice(&[said.code >> 32, 2 * steps + rests]);
    }
    0
}

/// Restores the counts and runs the page; the answer is of its last group. The first call must leave all counts and
/// results that the calls for each group leave.
fn page_call<'a>(name: &str, docket: &'a [u8], before: &'a [u32], run_page: RunPage) -> Box<dyn FnMut() -> u64 + 'a> {
    let page = |run_page: RunPage| {
        let (mut counts, mut results) = (before.to_vec(), vec![u64::MAX; 2 * GROUPS as usize]);
        let code = run_page(docket, &mut counts, LIMIT, &mut results);
        (code, counts, results)
    };
    let (code, mut counts, mut results) = page(run_page);
    assert!(
        page(run_apart) == (code, counts.clone(), results.clone()),
        "{name}: the groups apart leave another page"
    );
    Box::new(move || {
        counts.copy_from_slice(black_box(before));
        let code = run_page(black_box(docket), &mut counts, LIMIT, &mut results);
        code + u64::from(counts[counts.len() - 1]) + results[results.len() - 1]
    })
}

fn page_case<'a>(name: &str, docket: &'a [u8], counts: &'a [u32]) -> Case<'a> {
    assert!(second::check(docket).is_ok(), "{name}: the docket is not accepted");
    Case {
        name: name.into(),
        unit: "group",
        units: GROUPS.into(),
        calls: RUN_PAGE.map(|run_page| page_call(name, docket, counts, run_page)),
    }
}

/// Standard input of the program `tally` with 12 workers, and how many starts there are.
fn totals() -> Vec<(String, Vec<u8>, u64)> {
    let sum = remainder::table(18, 3, &[0, 1, 2, 3, 4, 5, 6, 7]);
    let maximum = make::maximum(&[0, 1, 1, 0, 1, 0, 0, 1]);
    let halving = fixed::with_fixed(make::halving(7, 1), &[1000, 0, 0, 0, 0, 0, 0, 1000]);
    [
        ("20 states, 8 inputs", sum.clone(), 50_388),
        ("v2, 20 states, 8 inputs", fixed::with_fixed(sum, &[]), 50_388),
        ("maximum, 8 states, 8 inputs", maximum, 50_388),
        ("v2, 8 states, 2 inputs, long runs", halving, 13),
    ]
    .map(|(name, docket, starts)| (format!("totals, {name}"), [&[12], &docket.bytes()[..]].concat(), starts))
    .into()
}

/// The answer is a hash of the line. That of the proved implementation is printed by the program, and the start of its
/// process is part of the time: the inputs are so large that it hardly counts.
fn totals_case<'a>(name: &str, input: &'a [u8], starts: u64) -> Case<'a> {
    assert!(second::check(&input[1..]).is_ok(), "{name}: the docket is not accepted");
    let lines: [fn(&[u8]) -> String; 3] = [
        |input| program::printed("tally", input),
        |input| second::tally_line(&Ok(baseline::tally(input).expect("totals"))),
        |input| second::tally_line(&second::tally(input)),
    ];
    let first = format!("{starts} ");
    let calls = lines.map(|line| -> Box<dyn FnMut() -> u64 + 'a> {
        let first = first.clone();
        Box::new(move || {
            let line = line(black_box(input));
            assert!(line.starts_with(&first), "{line:?} and not {first}starts");
            let mut hasher = DefaultHasher::new();
            line.hash(&mut hasher);
            hasher.finish()
        })
    });
    Case {
        name: name.into(),
        unit: "start",
        units: starts,
        calls,
    }
}

/// Dockets with accepted claim sheets.
fn sheets() -> Vec<(String, Vec<u8>, Vec<u8>)> {
    let relay = make::relay(60, 5);
    let large = make::layered(64, 256, 1, 6, 1);
    let fixed = fixed::with_fixed(large.clone(), &[1000]);
    let of_relay = sheet::relay_sheet(&relay, 1024, 128);
    let [of_large, of_fixed] = [&large, &fixed].map(|docket| sheet::unreached_sheet(docket, 1024, 128));
    let (majority, of_majority) = sheet::claimed_majority([0, 0]);
    [
        ("majority", majority, of_majority),
        ("60 states, two trees of 1,024 nodes", relay, of_relay),
        ("every count of the sheet at its limit", large, of_large),
        ("v2, every count of the sheet at its limit", fixed, of_fixed),
    ]
    .map(|(name, docket, sheet)| (format!("sheet, {name}"), docket.bytes(), sheet.to_bytes()))
    .into()
}

/// The check of the docket is part of the time, which for the large sheets is that of the trees.
fn sheet_case<'a>(name: &str, docket: &'a [u8], sheet: &'a [u8]) -> Case<'a> {
    assert!(second::check_sheet(docket, sheet).is_ok(), "{name} is not accepted");
    Case {
        name: name.into(),
        unit: "check",
        units: 1,
        calls: [
            Box::new(move || native::check_sheet(black_box(docket), black_box(sheet))),
            Box::new(move || baseline::check_sheet_code(black_box(docket), black_box(sheet))),
            Box::new(move || calls::check_sheet_code(black_box(docket), black_box(sheet))),
        ],
    }
}

fn writes() -> Vec<(String, Vec<u8>)> {
    let dockets = [
        ("every count at its limit", make::largest()),
        ("broadcast", make::broadcast()),
        ("v2, every count at its limit", fixed::largest()),
    ];
    dockets
        .map(|(name, docket)| (format!("write, {name}"), docket.bytes()))
        .into()
}

/// Writes parts in a version to an output, and hands back the total.
type Write = fn(u32, [&[u8]; 5], &mut [u8]) -> u64;

/// The parts of a docket are written to an output of its length; the answer is the total.
fn write_case<'a>(name: &str, docket: &'a [u8]) -> Case<'a> {
    let (version, parts) = second::sections(docket).expect("a docket that passes tests 1 to 4");
    let writers: [Write; 3] = [
        |version, parts, output| native::write(version, parts, output).answers[0],
        |version, parts, output| baseline::write(version, parts, output).map_or(0, |total| total as u64),
        |version, parts, output| calls::write(version, parts, output).answers[0],
    ];
    let calls = writers.map(|write| -> Box<dyn FnMut() -> u64 + 'a> {
        let mut output = vec![0; docket.len()];
        write(version, parts, &mut output);
        assert!(output == docket, "{name}: other bytes are written");
        Box::new(move || write(version, black_box(parts), black_box(&mut output)))
    });
    Case {
        name: name.into(),
        unit: "call",
        units: 1,
        calls,
    }
}
