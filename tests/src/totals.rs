//! The sheet of exact totals, which the program `tally` prints: samples, cases of the corpus, the comparison with the
//! second implementation, and laws that a line keeps beside what the calls of the library say.

mod random;

pub use random::{random_docket, random_input};

use crate::calls::{refusal_by_code, Call};
use crate::make::fixed::{self, with_fixed};
use crate::make::{self, remainder};
use crate::native;
use crate::outcomes::with_rules;
use crate::pages::with_bytes;
use crate::pairs::{self, Say};
use crate::program;
use crate::remainders::{numbers, row};
use crate::writing::from_hex;
use second::{Docket, Refusal};
use std::collections::BTreeSet;
use std::path::Path;

/// A name, a docket, the number of agents, and the line. The dockets are those of `table`; `fixed` has the numbers of
/// fixed agents of the first states, `with` the places of bytes and what they are set to, and `to` the length, to which
/// it is cut or made up with zeros. With `-` agents there is no byte before the docket.
const SAMPLES: &str = "\
two agents | broadcast | 2 | 3 1 2 1 1 1
three agents | broadcast | 3 | 4 1 3 2 2 1
twelve agents | broadcast | 12 | 13 1 12 11 11 1
P9 | corpus cert_majority | 2 | 3 1 2 2 1 1 0 0
P8, the first of two starts with two steps | corpus cert_majority | 3 | 4 2 2 2 2 1 0 0
the start in the middle | corpus cert_majority | 4 | 5 2 3 4 2 2 0 0
the first of two starts in the middle | corpus cert_majority | 5 | 6 3 3 4 3 2 0 0
the first of three starts with one step | maximum of 3 states | 2 | 6 4 2 1 1 1 0
one start alone with three steps | maximum of 3 states | 3 | 10 7 3 3 1 1 1
the first of ten starts with one step | maximum of 5 states | 2 | 15 4 11 1 1 1 0 0 0
two rules for a pair | two outcomes | 3 | 4 1 3 2 2 1 0
two rules for a pair, the first of them in the higher layer | higher layer first | 5 | 1 0 1 4 5 0
one input, five agents | own kind | 5 | 1 0 1 4 5 0
one input, an even number | parity | 2 | 1 1 0 1 2 0 0 0
one input, an odd number | parity | 3 | 1 0 1 3 3 0 0 0
one input, the next even number | parity | 4 | 1 1 0 3 4 0 0 0
inputs behind another state | sums modulo 3 | 2 | 3 2 1 1 0 2 0 0 0
the first state and the last are inputs | relay of 6 states | 3 | 4 1 3 10 2 0 0 0 0 1
no rule, two agents | no rule | 2 | 6 6 0 0 2 0 0
no rule, three agents | no rule | 3 | 10 10 0 0 3 0 0
no step from any start | no rule reached | 4 | 1 1 0 0 4 0 0 0
version 2 without fixed agents | broadcast, fixed 0 0 | 3 | 4 1 3 2 2 1
fixed agents in the first input | broadcast, fixed 3 0 | 2 | 3 1 2 4 4 1
fixed agents in the last input | broadcast, fixed 0 257 | 2 | 3 0 3 2 2 257
fixed agents in both inputs | broadcast, fixed 3 1 | 2 | 3 0 3 5 5 1
1,000 fixed agents in both inputs | broadcast, fixed 1000 1000 | 12 | 13 0 13 1012 1012 1000
1,000 fixed agents in a state that is no input | broadcast of fixed agents | 3 | 1 0 1 3 3 1000
fixed agents before the inputs, the last start | version 2, majority | 2 | 3 3 0 6 3 2 0 2
fixed agents before the inputs, the first start | majority of 2 and 2 | 2 | 3 0 3 6 2 2 2 0
257 and 256 fixed agents | corpus cert_majority_fixed_257_256 | 2 | 3 3 0 514 257 256 0 2
1,000 fixed agents of the only input | version 2, own kind | 2 | 1 0 1 1001 1002 0
1,000 fixed agents of the other state | own kind, fixed 0 1000 | 2 | 1 0 1 1 2 1000
no rule, fixed agents | no rule, fixed 1 0 2 | 3 | 10 10 0 0 4 0 2
8 inputs | 8 inputs | 2 | 36 36 0 0 2 0 0 0 0 0 0 0
8 inputs and fixed agents in another state | 8 inputs of 9 states, fixed 0 0 0 0 5 | 2 | 36 36 0 0 2 0 0 0 5 0 0 0 0
no agent | broadcast | 0 | refused 34 0
one agent | broadcast | 1 | refused 34 0
13 agents | broadcast | 13 | refused 34 0
the digit 0 | broadcast | 48 | refused 34 0
the digit 2 | broadcast | 50 | refused 34 0
255 agents | broadcast | 255 | refused 34 0
one agent and a fixed one | broadcast, fixed 0 1 | 1 | refused 34 0
no agent but fixed ones | broadcast, fixed 1 1 | 0 | refused 34 0
8 inputs, one agent | 8 inputs | 1 | refused 34 0
8 inputs, 13 agents | 8 inputs | 13 | refused 34 0
9 inputs | 9 inputs | 2 | refused 34 0
9 inputs, 12 agents | 9 inputs | 12 | refused 34 0
9 inputs, 13 agents | 9 inputs | 13 | refused 34 0
63 inputs of 64 states | 63 inputs | 2 | refused 34 0
no byte | nothing | - | refused 1 0
";

/// The same, with many starts or many steps.
const LARGE: &str = "\
more steps than 16 bits hold | halving, fixed 1000 0 0 0 0 0 0 0 0 0 1000 | 12 | 13 0 13 1035276 1000 0 0 0 0 0 0 0 0 0 1012
8 inputs, 12 agents | 8 inputs | 12 | 50388 50388 0 0 12 0 0 0 0 0 0 0
8 inputs, 12 agents and 1,000 fixed ones in each | 8 inputs, fixed 1000 1000 1000 1000 1000 1000 1000 1000 | 12 | 50388 50388 0 0 1012 1000 1000 1000 1000 1000 1000 1000
";

/// A name, a docket that the check refuses, and the line, which is the same for every number of agents.
const REFUSED: &str = "\
no docket | nothing | refused 1 0
23 bytes | broadcast to 23 | refused 1 0
24 bytes | broadcast to 24 | refused 1 0
98 bytes | broadcast to 98 | refused 1 0
100 bytes | broadcast to 100 | refused 1 0
65,535 bytes | broadcast to 65535 | refused 1 0
65,535 bytes, as the header says | broadcast with 22=255, 23=255 to 65535 | refused 4 5
65,536 bytes | broadcast to 65536 | refused 1 0
65,536 bytes, of which the header says 65,535 | broadcast with 22=255, 23=255 to 65536 | refused 1 0
65,536 bytes, as 16 bits say | broadcast with 22=0 to 65536 | refused 1 0
65,537 bytes, as 16 bits say | broadcast with 22=1 to 65537 | refused 1 0
65,537 bytes, of which the header says 65,535 | broadcast with 22=255, 23=255 to 65537 | refused 1 0
65,536 bytes more | broadcast to 65635 | refused 1 0
70,000 bytes | broadcast to 70000 | refused 1 0
70,000 bytes, as 16 bits say | broadcast with 22=112, 23=17 to 70000 | refused 1 0
test 1 | broadcast with 22=98 | refused 1 0
test 2 | broadcast with 0=3 | refused 2 0
test 3 | broadcast with 2=1 | refused 3 0
test 4 | broadcast with 12=0 | refused 4 0
test 5 | broadcast with 25=7 | refused 5 1
test 5, no input | broadcast with 24=0, 25=1 | refused 5 2
test 6 | broadcast with 30=1 | refused 6 0
test 7 | two outcomes with 35=1 | refused 7 1
test 14 | version 2, two outcomes with 34=2 | refused 14 1
test 8 | broadcast with 34=1 | refused 8 0
test 9 | broadcast with 31=0 | refused 9 0
test 10 | corpus r10_before_11 | refused 10 1
test 11 | corpus r11_before_12 | refused 11 0
test 12 | broadcast with 39=9 | refused 12 0
test 13 | broadcast with 67=1 | refused 13 2
9 inputs, test 13 | 9 inputs with 34=1 | refused 13 0
";

/// The numbers of agents that the refused dockets are tried with.
const AGENTS: [u8; 4] = [2, 12, 0, 13];

/// The docket of a name: one of the corpus, one made here, or one of `pairs::tables`.
fn table(name: &str) -> Docket {
    if let Some(file) = name.strip_prefix("corpus ") {
        let folder = Path::new(env!("CARGO_MANIFEST_DIR")).join("corpus");
        let bytes = std::fs::read(folder.join(format!("{file}.docket"))).expect("a docket of the corpus");
        return second::parse(&bytes).expect("a docket that passes tests 1 to 8");
    }
    match name {
        "maximum of 3 states" => make::maximum(&[0, 1, 0]),
        "higher layer first" => with_rules(make::deep(1), "0 0 1 1 1; 0 0 0 1 0", vec![1, 0]),
        "no rule reached" => make::layered(4, 3, 1, 6, 1),
        "broadcast of fixed agents" => fixed::broadcast(false, 1000),
        "majority of 2 and 2" => fixed::majority(2, 2),
        "halving" => make::halving(10, 1),
        "8 inputs" => make::still(8),
        "8 inputs of 9 states" => {
            let mut docket = make::still(9);
            docket.states[4].input = false;
            docket
        }
        "9 inputs" => make::still(9),
        "63 inputs" => make::last_no_input(),
        _ => pairs::table(name),
    }
}

/// The bytes of a docket as the samples have it.
fn named(text: &str) -> Vec<u8> {
    let (text, length) = text.split_once(" to ").unwrap_or((text, ""));
    let (text, changes) = text.split_once(" with ").unwrap_or((text, ""));
    let (name, agents) = text.split_once(", fixed ").unwrap_or((text, ""));
    let mut bytes = match (name, agents) {
        ("nothing", _) => vec![],
        (_, "") => table(name).bytes(),
        _ => with_fixed(table(name), &numbers(agents)).bytes(),
    };
    bytes = with_bytes(bytes, changes);
    if !length.is_empty() {
        bytes.resize(length.parse().expect("a length"), 0);
    }
    bytes
}

/// Standard input with so many agents.
pub fn with_agents(agents: u8, docket: &[u8]) -> Vec<u8> {
    [&[agents], docket].concat()
}

/// A name, standard input and the line.
type Sample = (String, Vec<u8>, &'static str);

fn all_samples() -> Vec<Sample> {
    let sample = |text: &'static str| {
        let [name, docket, agents, line] = row(text);
        let input = match agents {
            "-" => named(docket),
            _ => with_agents(agents.parse().expect("a number of agents"), &named(docket)),
        };
        (name.to_string(), input, line)
    };
    let refused = refused_dockets().into_iter().flat_map(|(name, docket, line)| {
        AGENTS.map(|agents| (format!("{name}, n = {agents}"), with_agents(agents, &docket), line))
    });
    let rows = SAMPLES.lines().map(sample).chain(refused);
    rows.chain(LARGE.lines().map(sample)).collect()
}

/// Dockets that the check refuses, with their names and the line.
pub fn refused_dockets() -> Vec<(&'static str, Vec<u8>, &'static str)> {
    let refused = |text: &'static str| {
        let [name, docket, line] = row(text);
        (name, named(docket), line)
    };
    REFUSED.lines().map(refused).collect()
}

/// Dockets that take long with so many agents or with their fixed ones.
fn long_runs() -> Vec<(&'static str, Docket, u8)> {
    let eight = || make::maximum(&[0, 1, 1, 0, 1, 0, 0, 1]);
    let mut scattered = make::still(64);
    for (i, state) in scattered.states.iter_mut().enumerate() {
        state.input = i % 9 == 0;
    }
    vec![
        ("maximum of 8 states", eight(), 12),
        ("maximum of 8 states in version 2", with_fixed(eight(), &[0, 0, 1]), 12),
        ("8 inputs of 64 states", scattered, 12),
        (
            "the sum of 7 values modulo 8",
            remainder::table(8, 3, &[1, 2, 3, 4, 5, 6, 7]),
            5,
        ),
        (
            "the sum of 8 values modulo 8",
            remainder::table(8, 3, &[0, 1, 2, 3, 4, 5, 6, 7]),
            12,
        ),
        (
            "maximum of 8 states, 1,000 fixed agents in each",
            with_fixed(eight(), &[1000; 8]),
            2,
        ),
        ("1,000 fixed agents in each of 64 states", fixed::largest(), 12),
        ("majority of 1,000 and 999", fixed::majority(1000, 999), 12),
        (
            "the sum of 18 values of 1,000 fixed agents each",
            fixed::sum(18, 5, &[1000; 18]),
            3,
        ),
    ]
}

/// The names of the samples, and what is wrong with each.
pub fn samples() -> Vec<(String, Option<String>)> {
    let samples = all_samples().into_iter();
    let mut all: Vec<_> = samples
        .map(|(name, input, line)| (name, line_problem(&input, line)))
        .collect();
    for (name, docket, agents) in long_runs() {
        let input = with_agents(agents, &docket.bytes());
        all.push((format!("{name}, n = {agents}"), problem(&input)));
    }
    all.push(("3 tops of 10 levels".into(), many_steps_problem(10, 3)));
    all
}

/// What is wrong with the lines of an accepted docket for a few agents.
pub fn accepted_problem(docket: &[u8]) -> Option<String> {
    (2..=5).find_map(|agents| problem(&with_agents(agents, docket)))
}

/// What is wrong with a case of the corpus: standard input, `->`, and the line.
pub fn case_problem(case: &str) -> Option<String> {
    let (input, line) = case.split_once(" -> ").expect("a line");
    line_problem(&from_hex(input), line)
}

/// What is wrong with the line of the halving table, where every top has 1,000 fixed agents, and one of them two agents
/// more. With 19 levels and 9 tops there are more steps than 32 bits hold.
pub fn many_steps_problem(levels: usize, tops: usize) -> Option<String> {
    let mut docket = make::halving(levels, tops);
    docket.states[0].input = false;
    let mut agents = [vec![1000], vec![0; levels - 1], vec![1000; tops]].concat();
    let input = with_agents(2, &with_fixed(docket, &agents).bytes());
    agents[levels] += 2;
    let steps = (1000 * tops as u64 + 2) * ((1 << levels) - 1);
    let start: Vec<String> = agents.iter().map(i64::to_string).collect();
    let expected = format!("1 0 1 {steps} {}\n", start.join(" "));
    let printed = program::printed("tally", &input);
    (printed != expected).then(|| format!("expected {expected:?}, printed {printed:?}"))
}

/// What is wrong with an input that has this line.
fn line_problem(input: &[u8], line: &str) -> Option<String> {
    let second = second::tally_line(&second::tally(input));
    if second.strip_suffix('\n') != Some(line) {
        return Some(format!("expected {line}, second implementation: {second:?}"));
    }
    problem(input)
}

/// What is wrong with what the program prints for an input.
fn problem(input: &[u8]) -> Option<String> {
    let line = program::printed("tally", input);
    let law = || broken_law(input, &said_by(native::check, &native::say, input), &line);
    difference(input, &line).or_else(|| law().map(|law| format!("{line:?}: not so that {law}")))
}

/// Where a line is another than that of the second implementation.
pub fn difference(input: &[u8], line: &str) -> Option<String> {
    let second = second::tally_line(&second::tally(input));
    let agents = parts_of(input).0;
    (line != second).then(|| format!("tally, n = {agents}: {line:?}, second implementation: {second:?}"))
}

// ---- Laws

/// A start that was run until it rested: its counts, its steps, and the verdict of its end.
pub struct Run {
    pub start: Vec<u32>,
    pub steps: u64,
    pub verdict: u64,
}

/// One byte n, 0 if there is none, and the docket behind it.
pub fn parts_of(input: &[u8]) -> (u8, &[u8]) {
    input
        .split_first()
        .map_or((0, input), |(&agents, docket)| (agents, docket))
}

/// How many states are inputs.
pub fn inputs(docket: &Docket) -> usize {
    docket.states.iter().filter(|state| state.input).count()
}

/// Whether test 34 refuses the number of agents, and whether it refuses that of the inputs.
pub fn test_34(docket: &Docket, agents: u8) -> [bool; 2] {
    [!(2..=12).contains(&agents), inputs(docket) > 8]
}

/// What the calls of an implementation say of an input: a refusal, or all starts in order, each run by itself.
pub fn said_by(check: fn(&[u8]) -> u64, say: Say, input: &[u8]) -> Result<Vec<Run>, Refusal> {
    let (agents, docket) = parts_of(input);
    if let Some(refusal) = refusal_by_code(check(docket)) {
        return Err(refusal);
    }
    let parsed = second::parse(docket)?;
    if test_34(&parsed, agents).contains(&true) {
        return Err(Refusal { number: 34, place: 0 });
    }
    Ok(starts(&parsed, agents)
        .into_iter()
        .map(|start| run(say, docket, start))
        .collect())
}

/// The starts in order: one agent after the other joins the fixed ones, in each of the inputs.
pub fn starts(docket: &Docket, agents: u8) -> Vec<Vec<u32>> {
    let inputs: Vec<usize> = (0..docket.states.len()).filter(|&i| docket.states[i].input).collect();
    let mut all: BTreeSet<Vec<u32>> = [docket.states.iter().map(|state| state.fixed as u32).collect()].into();
    for _ in 0..agents {
        let joined = |counts: &Vec<u32>, input: usize| {
            let mut counts = counts.clone();
            counts[input] += 1;
            counts
        };
        all = all
            .iter()
            .flat_map(|counts| inputs.iter().map(|&input| joined(counts, input)))
            .collect();
    }
    all.into_iter().rev().collect()
}

/// How many ways there are to spread so many agents over these inputs, of which there is one or more.
fn binomial(inputs: usize, agents: u8) -> u64 {
    (1..=u64::from(agents)).fold(1, |product, k| product * (inputs as u64 - 1 + k) / k)
}

/// Runs a start with the greatest limit until it rests. A run that is refused leaves its answers as they were, neither
/// 0 nor 1, and is the last.
fn run(say: Say, docket: &[u8], start: Vec<u32>) -> Run {
    let mut counts = start.clone();
    let (mut steps, mut rests) = (0, 0);
    while rests == 0 {
        let said = say(docket, &mut counts, Call::Run(u32::MAX));
        steps += said.answers[0];
        rests = said.answers[1];
    }
    let verdict = say(docket, &mut counts, Call::Verdict).answers[0];
    Run { start, steps, verdict }
}

/// The first law that a line breaks, beside what the calls of an implementation say of the input.
pub fn broken_law(input: &[u8], said: &Result<Vec<Run>, Refusal>, line: &str) -> Option<&'static str> {
    let runs = match said {
        Err(refusal) => return (line != refusal.line()).then_some(REFUSAL),
        Ok(runs) => runs,
    };
    let (agents, docket) = parts_of(input);
    let docket = second::parse(docket).expect("a docket that passes tests 1 to 8");
    let Some(([number, zeros, ones, steps], start)) = shown(line, docket.states.len()) else {
        return Some(FORM);
    };
    let rest_on = |verdict: u64| runs.iter().filter(|run| run.verdict == verdict).count() as u64;
    let laws = [
        (NUMBER, number == binomial(inputs(&docket), agents)),
        (SUM, zeros.checked_add(ones) == Some(number)),
        (VERDICTS, [zeros, ones] == [rest_on(0), rest_on(1)]),
        (START, is_start(&docket, agents, &start)),
        (STEPS, runs.iter().any(|run| run.start == start && run.steps == steps)),
        (GREATEST, runs.iter().all(|run| run.steps <= steps)),
        (
            FIRST,
            runs.iter()
                .take_while(|run| run.start != start)
                .all(|run| run.steps < steps),
        ),
    ];
    laws.into_iter().find(|(_, holds)| !holds).map(|(law, _)| law)
}

/// The four numbers and the counts of a line, if it has the right form.
fn shown(line: &str, states: usize) -> Option<([u64; 4], Vec<u32>)> {
    let words: Vec<&str> = line.strip_suffix('\n')?.split(' ').collect();
    let numbers: Vec<u64> = words.iter().flat_map(|word| word.parse()).collect();
    let texts: Vec<String> = numbers.iter().map(u64::to_string).collect();
    let (four, counts) = numbers.split_at_checked(4)?;
    let counts: Vec<u32> = counts.iter().flat_map(|&count| u32::try_from(count)).collect();
    (texts == words && counts.len() == states).then(|| (std::array::from_fn(|i| four[i]), counts))
}

/// Whether the counts are the fixed agents and so many more in inputs.
fn is_start(docket: &Docket, agents: u8, counts: &[u32]) -> bool {
    let more = docket.states.iter().zip(counts);
    let more: Vec<(bool, i64)> = more.map(|(s, &count)| (s.input, i64::from(count) - s.fixed)).collect();
    more.iter().all(|&(input, more)| more == 0 || input && more > 0)
        && more.iter().map(|more| more.1).sum::<i64>() == i64::from(agents)
}

const REFUSAL: &str = "the refusal is that of the check and, behind it, 34";
const FORM: &str = "the line has four numbers and a count for each state, with single spaces";
const NUMBER: &str = "the number of starts is the binomial number";
const SUM: &str = "the two verdict totals add up to the number of starts";
const VERDICTS: &str = "the verdict totals are those of the starts one by one";
const START: &str = "the counts are the fixed agents and n more in input states";
const STEPS: &str = "the start that is shown takes the steps that are shown";
const GREATEST: &str = "no start takes more steps";
const FIRST: &str = "no start before it takes as many steps";

#[cfg(test)]
mod tests;
