//! Runs the samples and the corpus, and compares the proved implementation, through C and through its program, with the
//! second one on random inputs.
//!
//!     compare                  the gate's numbers of inputs, from a fixed seed
//!     compare long SEED        twenty times as many, from another seed, and a start of more steps than 32 bits hold
//!     compare examples         no comparison: writes the claim sheets of examples/ anew
//!
//! The last line is `N passed, 0 failed`; a difference is printed with the docket in hexadecimal and both answers.

use second::{Docket, Refusal};
use std::fmt::Display;
use std::path::{Path, PathBuf};
use tests::calls::{self, check_code, refusal_by_code, Call, Said};
use tests::groups::random_counts;
use tests::make::{fixed, remainder};
use tests::random::Random;
use tests::tally::Tally;
use tests::{damage, fixed as fixed_agents, make, native, order, outcomes, pages, pairs, parts, program, prover};
use tests::{remainders, samples, sheets, totals, versions, writing};

const THREADS: u64 = 2;
const DOCKETS: u64 = 400_000;
const LISTS: u64 = 100_000;
const WRITES: u64 = 150_000;
const GROUPS: u64 = 30_000;
const PAGES: u64 = 20_000;
const TOTALS: u64 = 3_000;
const SHEETS: u64 = 20_000;
const LINES: u64 = 4_000;

/// One of so many dockets of version 1, and of lists of calls on them, is tried in version 2 too.
const CONVERTED: u64 = 4;

/// One of so many claim sheets is given to the program `decides` too.
const DECIDED: u64 = 15;

struct Results {
    passed: u64,
    failed: u64,
}

impl Results {
    fn expect(&mut self, name: &str, problem: Option<String>) {
        match problem {
            None => self.passed += 1,
            Some(text) => {
                self.failed += 1;
                println!("FAILED {name}: {text}");
            }
        }
    }

    /// Samples of one subject, with what is wrong with each.
    fn expect_all<T: Display>(&mut self, subject: &str, samples: Vec<(T, Option<String>)>) {
        for (name, problem) in samples {
            self.expect(&format!("{subject}: {name}"), problem);
        }
    }
}

fn main() {
    let arguments: Vec<String> = std::env::args().skip(1).collect();
    let (times, seed) = match arguments.iter().map(String::as_str).collect::<Vec<_>>()[..] {
        [] => (1, 20_170_425),
        ["long", seed] => (20, seed.parse().expect("SEED is a number")),
        ["examples"] => return sheets::write_examples(),
        _ => panic!("usage: compare [long SEED | examples]"),
    };
    let mut results = Results { passed: 0, failed: 0 };
    run_samples(&mut results);
    if times > 1 {
        let problem = totals::many_steps_problem(19, 9);
        results.expect("totals: more steps than 32 bits hold", problem);
    }
    let corpus = run_corpus(&mut results);
    run_cases(&mut results, "writer", 36, writing::case_problem);
    run_cases(&mut results, "page", 18, pages::case_problem);
    run_cases(&mut results, "tally", 31, totals::case_problem);
    run_cases(&mut results, "claim", 20, sheets::case_problem);
    let pool = Pool::new(seed, corpus);
    println!(
        "{} accepted dockets to begin with, of them {} of version 2 and {} large",
        pool.all().count(),
        pool.all().filter(|docket| docket.version == 2).count(),
        pool.large.len()
    );
    results.expect("accepted dockets of version 1 in version 2", pool.version_problem());
    println!("{} accepted claim sheets to begin with", pool.claims.all().count());
    let mut tally = compare_all(&pool, seed, times);
    try_claims(&mut tally, &pool.claims);
    report(&tally);
    for (name, problems) in [
        ("both implementations say the same", &tally.differences),
        ("the library keeps the laws of pairs", &tally.pairs.broken),
        ("the library runs a page as its groups one by one", &tally.pages.broken),
        ("the program tally keeps the laws of totals", &tally.totals.broken),
        ("the library keeps the laws of claim sheets", &tally.sheets.broken),
    ] {
        results.expect(name, first_of(problems));
    }
    let missing = tally.not_reached();
    results.expect(
        "the inputs reach every test",
        (!missing.is_empty()).then(|| missing.join("; ")),
    );
    println!("{} passed, {} failed", results.passed, results.failed);
    std::process::exit(i32::from(results.failed > 0));
}

fn report(tally: &Tally) {
    let Tally {
        dockets,
        pass_shape,
        accepted,
        calls,
        meetings,
        lines,
        ..
    } = tally;
    println!("{dockets} dockets compared, {pass_shape} pass tests 1 to 8, {accepted} accepted; {lines} printed lines");
    println!("{calls} machine calls compared, {meetings} meetings in them");
    for (number, places) in &tally.places {
        let shown: Vec<String> = places.iter().take(8).map(u32::to_string).collect();
        println!("refusal {number} at {} places: {} ..", places.len(), shown.join(" "));
    }
    println!("nodes by refusal (0: accepted) and kind: {:?}", tally.kinds);
    for (number, moduli) in &tally.moduli {
        println!("{} moduli with refusal {number} (0: accepted)", moduli.len());
    }
    println!(
        "several rules for a pair, dockets by refusal (0: accepted): {:?}; {} steps, {} runs",
        tally.outcomes, tally.outcome_steps, tally.outcome_runs
    );
    report_fixed(tally);
    report_order(tally);
    report_pairs(tally);
    report_pages(tally);
    report_totals(tally);
    report_sheets(tally);
    report_writes(tally);
}

fn report_writes(tally: &Tally) {
    let writes = &tally.writes;
    println!(
        "{:?} dockets written again by version; {} changed parts, written by version and bytes beyond the total (2: more): {:?}",
        writes.again, writes.calls, writes.written
    );
    println!(
        "writer: refusals 31 and 3 by version, least number of states, number and place: {:?}",
        writes.states
    );
    println!(
        "writer: versions refused: {:?}; bytes beyond whole states: {:?}",
        writes.versions, writes.cut
    );
    for (number, places) in &writes.places {
        println!("writer: refusal {number} at {} places", places.len());
    }
}

fn report_fixed(tally: &Tally) {
    let fixed = &tally.fixed;
    println!("dockets by version and refusal (0: accepted): {:?}", fixed.versions);
    println!(
        "version 2: accepted dockets by whether they have fixed agents and by kind of node: {:?}",
        fixed.kinds
    );
    println!(
        "version 2: fixed numbers by refusal (0: accepted) and whether in an input: {:?}",
        fixed.numbers
    );
    println!(
        "version 2: dockets that another reading of the fixed numbers judges otherwise, by whether accepted and kind: {:?}",
        fixed.needed
    );
    println!(
        "version 1 in version 2: dockets by refusal (0: accepted): {:?}; {} calls",
        fixed.converted, fixed.converted_calls
    );
    println!(
        "starts with fixed agents by refusal (0: passed), whether in an input, agents more: {:?}; all zeros: {:?}; {} steps and runs",
        fixed.starts, fixed.zeros, fixed.meetings
    );
}

fn report_order(tally: &Tally) {
    let order = &tally.order;
    println!(
        "refusals 14 by the first number that differs (0 layer, then p, q, p', q') and the place: {:?}",
        order.refused
    );
    println!(
        "rules out of order, with a refusal and its place beside that of 14: {:?}; with a fault of test 8: {}",
        order.earlier_test, order.test_8
    );
    println!(
        "rules out of order in version 1, by refusal (0: accepted): {:?}; calls refused with 14: {:?}, in version 2 alone: {}",
        order.version_1, order.calls, order.converted_calls
    );
}

fn report_pairs(tally: &Tally) {
    let pairs = &tally.pairs;
    println!("rules by version, own kind and number of pairs: {:?}", pairs.numbers);
    println!(
        "their groups by refusal (0: none) and workers: {:?}; by standstill: {:?}",
        pairs.groups, pairs.rests
    );
}

fn report_pages(tally: &Tally) {
    let pages = &tally.pages;
    println!(
        "pages by refusal (0: run): {:?}; run by version and groups (3: other numbers): {:?}; refused by lengths of counts and results: {:?}",
        pages.calls, pages.numbers, pages.lengths
    );
    println!(
        "groups of pages by version, place and end: {:?}; by least limit and end: {:?}; by refusal and workers: {:?}",
        pages.groups, pages.limits, pages.workers
    );
}

fn report_totals(tally: &Tally) {
    let totals = &tally.totals;
    println!(
        "totals by version and refusal (0: answered): {:?}; refusals of the check where 34 fits too: {:?}; refusals 34: {:?}",
        totals.lines, totals.before_34, totals.refused_34
    );
    println!(
        "totals answered by agents: {:?}; by inputs: {:?}; by fixed agents in an input and in another state: {:?}",
        totals.agents, totals.inputs, totals.fixed
    );
    println!(
        "totals answered by verdicts met: {:?}; by the start that is shown and how many need its steps: {:?}; by steps: {:?}",
        totals.verdicts, totals.shown, totals.steps
    );
}

fn report_sheets(tally: &Tally) {
    let sheets = &tally.sheets;
    println!(
        "claim sheets by version and refusal (0: accepted; of the docket behind test 8: 100 more): {:?}; of the docket, by bad sheet: {:?}",
        sheets.said, sheets.dockets
    );
    println!(
        "claim sheets: nodes by tree, refusal (0: accepted) and kind: {:?}; refusals 12 by tree and fault: {:?}",
        sheets.nodes, sheets.faults
    );
    println!(
        "claim sheets: refusals 15 by the only rule that is broken: {:?}",
        sheets.rules
    );
    println!(
        "claim sheets accepted by fixed agents counted and others: {:?}; by signs of limit and numbers: {:?}; leaves by tree and multiplier: {:?}; with counts at their limit: {:?}",
        sheets.fixed, sheets.signs, sheets.multipliers, sheets.limits
    );
    println!(
        "claims tried, by whether some starts come to 0 and some to 1: {:?}; lines of decides by refusal: {:?}",
        sheets.tried, sheets.lines
    );
}

/// How many problems there are, and the first five of them.
fn first_of(problems: &[String]) -> Option<String> {
    let shown: Vec<String> = problems.iter().take(5).cloned().collect();
    (!shown.is_empty()).then(|| format!("{} times\n{}", problems.len(), shown.join("\n")))
}

// ---- Samples and corpus

fn run_samples(results: &mut Results) {
    let lines = [
        samples::published(),
        samples::edges(),
        outcomes::lines(),
        remainders::lines(),
        fixed_agents::lines(),
        order::lines(),
    ];
    for (name, docket, line) in lines.concat() {
        results.expect(name, line_problem(&docket, line));
    }
    let calls = [
        samples::calls(),
        outcomes::calls(),
        fixed_agents::calls(),
        order::calls(),
        pairs::calls(),
    ];
    for sample in calls.into_iter().flatten() {
        results.expect(sample.name, call_problem(&sample));
    }
    for (name, docket) in pairs::tables() {
        let problem = pairs::problem_at_limits(&native::say, &docket);
        results.expect(&format!("pairs at limits: {name}"), problem);
    }
    results.expect_all("page", pages::samples());
    results.expect_all("writer", writing::samples());
    results.expect_all("totals", totals::samples());
    results.expect_all("sheet", sheets::samples());
    results.expect_all("example", sheets::example_problems());
    for name in ["docket", "tally", "decides"] {
        let problem = program::unreadable_problem(name);
        results.expect(&format!("{name}: standard input that cannot be read"), problem);
    }
}

/// What is wrong with what the two implementations and the program say of a docket, in either version, or with how its
/// parts are written.
fn line_problem(docket: &[u8], line: &str) -> Option<String> {
    let (second, printed) = (second::line(docket), program::printed("docket", docket));
    let (native, code) = (native::check(docket), check_code(docket));
    let good = second.trim_end() == line && printed == second && native == code && figures_agree(docket);
    if !good {
        let codes = format!("codes {native} and {code}");
        return Some(format!(
            "expected {line}, second {second:?}, printed {printed:?}, {codes}"
        ));
    }
    versions::problem(docket, code).or_else(|| writing::write_again(docket).err())
}

/// Whether docket_figures says of a docket what the second implementation says.
fn figures_agree(docket: &[u8]) -> bool {
    native::figures(docket) == calls::figures(docket)
}

fn call_problem(sample: &samples::CallSample) -> Option<String> {
    let refused = |&(number, place): &(u32, u32)| Said::refused(Refusal { number, place });
    let expected = sample.said.as_ref().map_or_else(refused, |answers| Said::done(answers));
    for say in [native::say, calls::say] {
        let mut counts = sample.counts.clone();
        let said = say(&sample.docket, &mut counts, sample.call);
        if said != expected || counts != sample.after {
            return Some(format!(
                "expected {expected:?} and {:?}, got {said:?} and {counts:?}",
                sample.after
            ));
        }
    }
    None
}

/// The least number of dockets in the corpus, so that it is seen where some are gone.
const CORPUS: usize = 133;

/// Runs the corpus; hands back its accepted dockets.
fn run_corpus(results: &mut Results) -> Vec<Docket> {
    let folder = Path::new(env!("CARGO_MANIFEST_DIR")).join("corpus");
    let entries = std::fs::read_dir(&folder).expect("the corpus");
    let mut files: Vec<PathBuf> = entries
        .map(|entry| entry.expect("a file of the corpus").path())
        .collect();
    files.retain(|path| path.extension().is_some_and(|ending| ending == "docket"));
    files.sort();
    let missing = (files.len() < CORPUS).then(|| format!("{} of at least {CORPUS} dockets", files.len()));
    results.expect("the corpus is whole", missing);
    let mut accepted = vec![];
    for path in files {
        let docket = std::fs::read(&path).expect("a docket of the corpus");
        let line = std::fs::read_to_string(path.with_extension("expect")).expect("its line");
        results.expect(&path.to_string_lossy(), line_problem(&docket, line.trim_end()));
        if second::check(&docket).is_ok() {
            accepted.extend(second::parse(&docket));
            let problem = totals::accepted_problem(&docket);
            results.expect(&format!("totals: {}", path.display()), problem);
        }
    }
    accepted
}

/// Runs a file of the corpus that has a case in each line, so many in all.
fn run_cases(results: &mut Results, name: &str, number: usize, problem: fn(&str) -> Option<String>) {
    let folder = Path::new(env!("CARGO_MANIFEST_DIR")).join("corpus");
    let text = std::fs::read_to_string(folder.join(format!("{name}.txt"))).expect("a file of cases");
    let cases: Vec<&str> = text.lines().filter(|line| !line.starts_with('#')).collect();
    let missing = (cases.len() != number).then(|| format!("{} cases and not {number}", cases.len()));
    results.expect(&format!("the cases of {name}.txt are whole"), missing);
    for case in cases {
        results.expect(&format!("{name}: {case}"), problem(case));
    }
}

// ---- Random inputs

/// Accepted dockets. A large one is drawn seldom, since its check takes as long as that of a thousand small ones. And
/// accepted claim sheets.
struct Pool {
    small: Vec<Docket>,
    large: Vec<Docket>,
    claims: sheets::Pool,
}

impl Pool {
    fn new(seed: u64, corpus: Vec<Docket>) -> Pool {
        let mut random = Random::new(seed);
        let mut all = corpus;
        all.extend(families(&mut random));
        all.extend((0..40).filter_map(|_| prover::prove(make::majority(), &mut random)));
        all.extend((0..300).filter_map(|_| prover::near_parity(&mut random)));
        all.extend(
            (0..10_000)
                .filter_map(|_| prover::random_docket(&mut random))
                .filter(|docket| docket.nodes.len() > 2),
        );
        all.extend(
            (0..2_000)
                .filter_map(|_| prover::random_fixed(&mut random))
                .filter(|docket| docket.nodes.len() > 2),
        );
        let claims = sheets::Pool::new(all.iter(), &mut random);
        let (large, small) = all.into_iter().partition(make::is_large);
        Pool { small, large, claims }
    }

    fn all(&self) -> impl Iterator<Item = &Docket> {
        self.small.iter().chain(&self.large)
    }

    /// What is wrong with one of the dockets of version 1 in version 2, where it is accepted too.
    fn version_problem(&self) -> Option<String> {
        let mut dockets = self.all().map(Docket::bytes);
        dockets.find_map(|docket| versions::problem(&docket, 0))
    }

    fn draw(&self, random: &mut Random) -> &Docket {
        let large = random.chance(1, 200);
        random.pick(if large { &self.large } else { &self.small })
    }

    /// A docket's bytes: as they are, written in another way, damaged, with other fixed agents, or noise.
    fn input(&self, random: &mut Random) -> Vec<u8> {
        let docket = self.draw(random);
        match random.below(12) {
            0 => docket.bytes(),
            1 | 2 => damage::rewritten(docket, random).bytes(),
            3 => damage::noise(random),
            4 | 5 => damage::damaged(&damage::rewritten(docket, random), random),
            6 => damage::other_fixed(docket, random),
            _ => damage::damaged(docket, random),
        }
    }

    /// A docket's bytes for calls of the machine: most often as they are.
    fn input_of_calls(&self, random: &mut Random) -> Vec<u8> {
        match random.below(8) {
            0 => self.input(random),
            1 | 2 => damage::rewritten(self.draw(random), random).bytes(),
            _ => self.draw(random).bytes(),
        }
    }

    /// A docket that the check refuses with a number that is drawn first, so that rare ones are met too; or no byte,
    /// where none is found soon.
    fn refused(&self, random: &mut Random) -> Vec<u8> {
        let (number, version) = (1 + random.below(14) as u32, 1 + random.below(2) as u8);
        let fits = |docket: &Vec<u8>| {
            let refusal = second::check(docket).err();
            refusal.is_some_and(|refusal| refusal.number == number) && (number < 9 || docket[0] == version)
        };
        let mut inputs = (0..400).map(|_| self.input(random));
        inputs.find(fits).unwrap_or_default()
    }
}

/// The families, some of them in several sizes.
fn families(random: &mut Random) -> Vec<Docket> {
    let mut all = vec![
        make::broadcast(),
        make::largest(),
        make::still(2),
        make::still(64),
        make::last_no_input(),
        make::deep(1),
        make::deep(40),
        make::two_outcomes(),
        make::shared_marks(),
    ];
    for states in 2..=60 {
        all.push(make::relay(states, 5 + states * states * 2043 / 3600));
    }
    for states in 2..=22 {
        let verdicts: Vec<u8> = (0..states).map(|_| random.below(2) as u8).collect();
        all.push(make::maximum(&verdicts));
    }
    for layers in 1..=16 {
        let (rules, nodes) = (layers * (layers + 1) / 2, 6 + layers * layers);
        all.push(make::layered(2 + layers, rules, layers, nodes, layers));
        all.push(make::outcomes(9 + layers, 16 * layers, layers));
    }
    all.extend(remainder_families(random));
    all.extend(fixed_families(random));
    all
}

/// The families with fixed agents, with random numbers of them.
fn fixed_families(random: &mut Random) -> Vec<Docket> {
    let mut all = vec![
        fixed::largest(),
        fixed::layered(64, 3, 100, 20),
        fixed::with_fixed(make::largest(), &[1000]),
        fixed::with_fixed(make::outcomes(64, 256, 16), &[]),
        fixed::with_fixed(make::shared_marks(), &[7]),
        fixed::with_fixed(make::still(2), &[]),
        fixed::with_fixed(make::still(64), &[1; 64]),
        fixed::with_fixed(make::last_no_input(), &[[0; 63].as_slice(), &[1000]].concat()),
    ];
    for number in [1, 2, 255, 256, 257, 1000] {
        all.push(fixed::broadcast(true, number));
        all.push(fixed::broadcast(false, number));
        all.push(fixed::majority(number, number - 1));
        all.push(fixed::majority(number - 1, number));
        all.push(fixed::majority(number, number));
    }
    for m in 2..=18 {
        for most in [3, 300, 1001] {
            let mut numbers: Vec<i64> = (0..m).map(|_| random.below(most) as i64).collect();
            numbers[m - 1] = 1 + random.below(1000) as i64;
            all.push(fixed::sum(m, random.below(m), &numbers));
        }
    }
    all
}

/// The families with nodes of kind 7, with random inputs, remainders and ends; only accepted dockets.
fn remainder_families(random: &mut Random) -> Vec<Docket> {
    let mut all = vec![
        remainder::parity(),
        remainder::many_leaves(),
        remainder::largest(1, 10_000),
        remainder::largest(2, -10_000),
    ];
    for m in 2..=18 {
        for _ in 0..4 {
            let inputs: Vec<usize> = (0..1 + random.below(3)).map(|_| random.below(m)).collect();
            all.push(remainder::table(m, random.below(m), &inputs));
        }
    }
    for m in [2_u64, 3, 7, 1000].repeat(20) {
        let ends = [0; 2].map(|_| random.word() % m.next_power_of_two());
        all.push(remainder::digits(m, ends));
    }
    all.retain(|docket| second::check(&docket.bytes()).is_ok());
    all
}

fn compare_all(pool: &Pool, seed: u64, times: u64) -> Tally {
    let mut tally = Tally::default();
    std::thread::scope(|scope| {
        let threads: Vec<_> = (0..THREADS)
            .map(|thread| scope.spawn(move || compare_some(pool, Random::new(seed + 1 + thread), times)))
            .collect();
        for thread in threads {
            tally.merge(thread.join().expect("a thread of the comparison"));
        }
    });
    tally
}

fn compare_some(pool: &Pool, mut random: Random, times: u64) -> Tally {
    let mut tally = Tally::default();
    for i in 0..DOCKETS * times {
        let docket = pool.input(&mut random);
        compare_check(&mut tally, &docket);
        if i % CONVERTED == 0 {
            compare_versions(&mut tally, &docket);
        }
        if i % (DOCKETS / LINES) == 0 {
            compare_line(&mut tally, &docket);
        }
    }
    for _ in 0..LISTS * times {
        compare_list(&mut tally, pool, &mut random);
    }
    for _ in 0..WRITES * times {
        compare_write(&mut tally, pool, &mut random);
    }
    for _ in 0..GROUPS * times {
        compare_pairs(&mut tally, pool, &mut random);
    }
    for _ in 0..PAGES * times {
        compare_page(&mut tally, pool, &mut random);
    }
    for _ in 0..TOTALS * times {
        compare_totals(&mut tally, pool, &mut random);
    }
    for i in 0..SHEETS * times {
        compare_sheet(&mut tally, pool, &mut random, i % DECIDED == 0);
    }
    tally
}

fn compare_check(tally: &mut Tally, docket: &[u8]) {
    let before = docket.to_vec();
    let (native, code) = (native::check(docket), check_code(docket));
    if native != code || before != docket {
        tally.differ(docket, format!("check: {native}, second implementation: {code}"));
    }
    if !figures_agree(docket) {
        tally.differ(docket, "other figures, or another code with them".into());
    }
    tally.count_docket(docket, code);
}

/// A docket of version 1 in version 2.
fn compare_versions(tally: &mut Tally, docket: &[u8]) {
    if versions::in_version_2(docket).is_none() {
        return;
    }
    let code = check_code(docket);
    if let Some(problem) = versions::problem(docket, code) {
        return tally.differ(docket, problem);
    }
    let number = (code / 65_536) as u32;
    let said = versions::refusal_14(docket, number).map_or(number, |refusal| refusal.number);
    *tally.fixed.converted.entry(said).or_default() += 1;
}

fn compare_line(tally: &mut Tally, docket: &[u8]) {
    let (printed, line) = (program::printed("docket", docket), second::line(docket));
    if printed != line {
        tally.differ(docket, format!("printed: {printed:?}, second implementation: {line:?}"));
    }
    tally.lines += 1;
}

/// Writes the parts of a docket, as they are and then changed.
fn compare_write(tally: &mut Tally, pool: &Pool, random: &mut Random) {
    let docket = pool.input(random);
    match writing::write_again(&docket) {
        Ok(true) => *tally.writes.again.entry(u32::from(docket[0])).or_default() += 1,
        Ok(false) => {}
        Err(problem) => return tally.differ(&docket, format!("its parts: {problem}")),
    }
    let other = pool.draw(random).bytes();
    let sections = second::sections(&docket).or(second::sections(&other));
    let (version, sections) = sections.expect("the sections of an accepted docket");
    let (version, changed) = parts::changed(version, sections, random);
    let parts = parts::slices(&changed);
    let room = parts::room(&parts, random);
    match writing::write_both(version, parts, &writing::old_bytes(room)) {
        Ok((said, _)) => tally.writes.count(version, parts, room, &said),
        Err(problem) => {
            let input = writing::text(version, parts, room);
            tally.differences.push(format!("parts {input}\n  {problem}"));
        }
    }
}

/// A list of calls on one group: each is lent the counts that the one before left.
fn compare_list(tally: &mut Tally, pool: &Pool, random: &mut Random) {
    let docket = pool.input_of_calls(random);
    let parsed = second::parse(&docket).ok();
    let states = parsed.as_ref().map_or(random.below(66), |docket| docket.states.len());
    let rules = parsed.as_ref().map_or(0, |docket| docket.rules.len());
    let mut counts = random_counts(parsed.as_ref(), states, random);
    let converted = versions::in_version_2(&docket).filter(|_| random.chance(1, CONVERTED as usize));
    for _ in 0..1 + random.below(10) {
        let call = random_call(rules, random);
        let (before, counts_before) = (docket.clone(), counts.clone());
        let mut others = counts.clone();
        let (native, second) = (
            native::say(&docket, &mut counts, call),
            calls::say(&docket, &mut others, call),
        );
        if native != second || counts != others || before != docket {
            let what = format!("{call:?}: {native:?} and {counts:?}, second implementation: {second:?} and {others:?}");
            tally.differ(&docket, what);
            return;
        }
        if let Some(other) = &converted {
            let both = [&docket, other].map(|docket| &docket[..]);
            if !compare_converted(tally, both, call, &counts_before, (native, &counts)) {
                return;
            }
        }
        tally.count_call(&docket, call, &native);
        if let Some(parsed) = &parsed {
            tally.fixed.count_call(parsed, &counts, call, &native);
        }
    }
}

/// The numbers of pairs of all rules, for one group.
fn compare_pairs(tally: &mut Tally, pool: &Pool, random: &mut Random) {
    let docket = pool.draw(random);
    let counts = pairs::random_counts(docket, random);
    if let Some(difference) = pairs::difference(&native::say, docket, &counts) {
        tally.differ(&docket.bytes(), difference);
    }
    if let Some(law) = pairs::broken_law(&native::say, docket, &counts) {
        tally.break_pairs(&docket.bytes(), format!("{counts:?}: not so that {law}"));
    }
    let numbers = pairs::numbers(&native::say, docket, &counts);
    tally.pairs.count(docket, &counts, &numbers);
}

/// The groups of a page, in one call and one by one.
fn compare_page(tally: &mut Tally, pool: &Pool, random: &mut Random) {
    let docket = if random.chance(1, 2) {
        pool.input(random)
    } else {
        pool.input_of_calls(random)
    };
    let parsed = second::parse(&docket).ok();
    let page = pages::random_page(parsed.as_ref(), random);
    let before = docket.clone();
    let done = pages::outcome(&native::run_page, &docket, &page);
    if before != docket {
        tally.differ(&before, "a page changes the docket".into());
    }
    if let Some(difference) = pages::difference(&docket, &page, &done) {
        tally.differ(&docket, difference);
    }
    if let Some(law) = pages::broken_law(&native::say, &docket, &page, &done) {
        tally.break_page(&docket, law);
    }
    tally.pages.count(parsed.as_ref(), &page, &done);
}

/// The line of the program `tally`, beside the second implementation and the calls of the library.
fn compare_totals(tally: &mut Tally, pool: &Pool, random: &mut Random) {
    let docket = match random.below(8) {
        0 | 1 => totals::random_docket(random).bytes(),
        2 => pool.input(random),
        3 | 4 => pool.refused(random),
        _ => pool.input_of_calls(random),
    };
    let input = totals::random_input(&docket, random);
    let line = program::printed("tally", &input);
    if let Some(difference) = totals::difference(&input, &line) {
        tally.differ(totals::parts_of(&input).1, difference);
    }
    let said = totals::said_by(native::check, &native::say, &input);
    if let Some(law) = totals::broken_law(&input, &said, &line) {
        tally.break_totals(&input, format!("{line:?}: not so that {law}"));
    }
    tally.totals.count(&input, &said);
}

/// A claim sheet with its docket, beside the second implementation and by the laws of sheets, and now and then its line.
fn compare_sheet(tally: &mut Tally, pool: &Pool, random: &mut Random, is_printed: bool) {
    let (mut docket, sheet) = pool.claims.input(random);
    if random.chance(1, 40) {
        docket = pool.refused(random);
    }
    if let Some(difference) = sheets::difference(&docket, &sheet) {
        tally.differ_sheet(&docket, &sheet, difference);
    }
    if let Some(law) = sheets::broken_law(sheets::NATIVE, &docket, &sheet, 2..=4) {
        tally.break_sheet(&docket, &sheet, format!("not so that {law}"));
    }
    let said = refusal_by_code(native::check_sheet(&docket, &sheet));
    let of_docket = refusal_by_code(native::check(&docket));
    tally.sheets.count(&docket, &sheet, of_docket, said);
    if !is_printed {
        return;
    }
    if let Some(difference) = sheets::printed_difference(&docket, &sheet) {
        tally.differ_sheet(&docket, &sheet, difference);
    }
    let number = said.map_or(0, |refusal| refusal.number);
    *tally.sheets.lines.entry(number).or_default() += 1;
}

/// What the accepted claim sheets claim, beside all terminal configurations that small starts reach.
fn try_claims(tally: &mut Tally, claims: &sheets::Pool) {
    for claimed in claims.all() {
        match sheets::tried(claimed) {
            Ok(shown) => shown.iter().for_each(|shown| tally.sheets.count_tried(shown)),
            Err(problem) => tally.break_sheet(&claimed.0.bytes(), &claimed.1.to_bytes(), problem),
        }
    }
}

/// Makes a call in version 2 too, which in version 1 says this and leaves these counts. Hands back whether it says and
/// leaves what it must.
fn compare_converted(
    tally: &mut Tally,
    [docket, in_version_2]: [&[u8]; 2],
    call: Call,
    before: &[u32],
    (said, counts): (Said, &[u32]),
) -> bool {
    let number = said.refusal().map_or(0, |refusal| refusal.number);
    let refused = versions::refusal_14(docket, number).map(Said::refused);
    let expected = refused.map_or((said, counts), |refused| (refused, before));
    let mut after = before.to_vec();
    let other = native::say(in_version_2, &mut after, call);
    if (other, &after[..]) != expected {
        let what = format!("{call:?}: {said:?}, in version 2: {other:?} and {after:?}");
        tally.differ(docket, what);
        return false;
    }
    match refused {
        Some(_) => tally.order.converted_calls += 1,
        None => tally.fixed.converted_calls += 1,
    }
    true
}

fn random_call(rules: usize, random: &mut Random) -> Call {
    let number = match random.below(10) {
        0 => *random.pick(&[rules as u32, rules as u32 + 1, 255, 256, 65_536, u32::MAX]),
        _ => random.below(rules) as u32,
    };
    match random.below(12) {
        0 => Call::StartTest,
        1 => Call::CanAct(number),
        2 => Call::IsStandstill,
        3 => Call::Verdict,
        4..=8 => Call::Step(number),
        _ => Call::Run(*random.pick(&[0, 1, 2, 5, 20, 100, 1000])),
    }
}
