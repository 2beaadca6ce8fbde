use super::*;
use crate::calls;
use crate::random::Random;
use second::State;
use std::cmp::Reverse;
use std::ops::RangeInclusive;

/// An implementation in parts, each of which can be a wrong one.
struct Variant<'a> {
    read: &'a dyn Fn(&[u8]) -> Parts,
    refusal: &'a dyn Fn(u8, &[u8]) -> Option<Refusal>,
    starts: &'a dyn Fn(&Docket, u8) -> Starts,
    run: &'a dyn Fn(&[u8], Vec<u32>) -> Run,
    /// The place of the start that is shown.
    pick: &'a dyn Fn(&[Run]) -> usize,
    /// The numbers of the line, by all runs and by the one that is shown.
    numbers: &'a dyn Fn(&[Run], &Run) -> Vec<u64>,
}

type Starts = Vec<Vec<u32>>;

/// The number of agents and the docket of standard input.
type Parts = (u8, Vec<u8>);

/// What is wrong with a part, and the wrong part.
type Wrong<T> = (&'static str, T);

type Read = fn(&[u8]) -> Parts;
type Refuse = fn(u8, &[u8]) -> Option<Refusal>;
type RunStart = fn(&[u8], Vec<u32>) -> Run;
type Pick = fn(&[Run]) -> usize;
type Numbers = fn(&[Run], &Run) -> Vec<u64>;

const RIGHT: Variant = Variant {
    read: &|input| (parts_of(input).0, parts_of(input).1.to_vec()),
    refusal: &|agents, docket| check(docket).or_else(|| refused_34(agents, docket)),
    starts: &starts,
    run: &right_run,
    pick: &|runs| place(runs, |steps| steps.max()),
    numbers: &|runs, shown| line_numbers(runs, shown.steps, &shown.start),
};

impl Variant<'_> {
    fn line(&self, input: &[u8]) -> String {
        let (agents, docket) = (self.read)(input);
        if let Some(refusal) = (self.refusal)(agents, &docket) {
            return refusal.line();
        }
        let parsed = second::parse(&docket).expect("a docket that passes tests 1 to 8");
        let starts = (self.starts)(&parsed, agents).into_iter();
        let runs: Vec<Run> = starts.map(|start| (self.run)(&docket, start)).collect();
        let Some(shown) = runs.get((self.pick)(&runs)) else {
            return "0\n".into();
        };
        let texts: Vec<String> = (self.numbers)(&runs, shown).iter().map(u64::to_string).collect();
        texts.join(" ") + "\n"
    }

    /// The implementation is told apart by a sample, and breaks a law in one.
    fn is_seen(&self, name: &str, samples: &[Sample]) {
        let mut lines = samples.iter().map(|(_, input, line)| (self.line(input), line));
        assert!(lines.any(|(said, line)| said.trim_end() != *line), "{name}");
        let breaks = |input: &[u8]| broken_law(input, &by_second(input), &self.line(input)).is_some();
        assert!(samples.iter().any(|(_, input, _)| breaks(input)), "{name}");
    }
}

/// What the calls of the second implementation say.
fn by_second(input: &[u8]) -> Result<Vec<Run>, Refusal> {
    said_by(calls::check_code, &calls::say, input)
}

fn check(docket: &[u8]) -> Option<Refusal> {
    second::check(docket).err()
}

fn refused_34(agents: u8, docket: &[u8]) -> Option<Refusal> {
    beyond(agents, docket, 2..=12, 8)
}

/// Test 34 with other limits.
fn beyond(agents: u8, docket: &[u8], limits: RangeInclusive<u8>, most_inputs: usize) -> Option<Refusal> {
    let docket = second::parse(docket).ok()?;
    let refused = !limits.contains(&agents) || inputs(&docket) > most_inputs;
    refused.then_some(Refusal { number: 34, place: 0 })
}

fn right_run(docket: &[u8], start: Vec<u32>) -> Run {
    run(&calls::say, docket, start)
}

/// The first run that takes the steps that are chosen from those of all runs.
fn place(runs: &[Run], chosen: fn(&mut dyn Iterator<Item = u64>) -> Option<u64>) -> usize {
    let steps = chosen(&mut runs.iter().map(|run| run.steps));
    runs.iter().position(|run| Some(run.steps) == steps).unwrap_or(0)
}

fn line_numbers(runs: &[Run], steps: u64, start: &[u32]) -> Vec<u64> {
    let rest_on = |verdict: u64| runs.iter().filter(|run| run.verdict == verdict).count() as u64;
    let four = [runs.len() as u64, rest_on(0), rest_on(1), steps];
    four.into_iter()
        .chain(start.iter().map(|&count| u64::from(count)))
        .collect()
}

/// The docket behind the first byte, cut to a length.
fn cut(input: &[u8], length: usize) -> Parts {
    let (agents, docket) = parts_of(input);
    (agents, docket[..length.min(docket.len())].to_vec())
}

const READS: [Wrong<Read>; 6] = [
    ("the first byte is a digit", |input| {
        let (agents, docket) = parts_of(input);
        (agents.wrapping_sub(b'0'), docket.to_vec())
    }),
    ("the number of agents is the last byte", |input| {
        let (agents, docket) = input.split_last().unwrap_or((&0, &[]));
        (*agents, docket.to_vec())
    }),
    ("the first byte belongs to the docket too", |input| {
        (parts_of(input).0, input.to_vec())
    }),
    ("the docket ends after 65,535 bytes", |input| cut(input, 65_535)),
    ("standard input ends after 65,535 bytes", |input| cut(input, 65_534)),
    ("a length of 16 bits", |input| {
        cut(input, (input.len().max(1) - 1) % 65_536)
    }),
];

const REFUSALS: [Wrong<Refuse>; 4] = [
    ("test 34 before the check", |agents, docket| {
        refused_34(agents, docket).or_else(|| check(docket))
    }),
    ("tests 1 to 8 alone", |agents, docket| {
        second::parse(docket).err().or_else(|| refused_34(agents, docket))
    }),
    ("no tree", |agents, docket| {
        let of_tree = |refusal: &Refusal| matches!(refusal.number, 11..=13);
        check(docket)
            .filter(|refusal| !of_tree(refusal))
            .or_else(|| refused_34(agents, docket))
    }),
    ("the place of 34 is the number of agents", |agents, docket| {
        let refusal = check(docket).or_else(|| refused_34(agents, docket))?;
        let place = if refusal.number == 34 {
            agents.into()
        } else {
            refusal.place
        };
        Some(Refusal { place, ..refusal })
    }),
];

const LIMITS: [(&str, RangeInclusive<u8>, usize); 6] = [
    ("one agent is allowed", 1..=12, 8),
    ("two agents are too few", 3..=12, 8),
    ("12 agents are too many", 2..=11, 8),
    ("13 agents are allowed", 2..=13, 8),
    ("8 inputs are too many", 2..=12, 7),
    ("9 inputs are allowed", 2..=12, 9),
];

/// Changes of the states that the starts are made from.
const STATES: [Wrong<fn(&mut State)>; 7] = [
    ("fixed agents are forgotten", |state| state.fixed = 0),
    ("fixed agents of inputs are forgotten", |state| {
        state.fixed *= i64::from(!state.input)
    }),
    ("fixed agents of other states are forgotten", |state| {
        state.fixed *= i64::from(state.input)
    }),
    ("fixed agents twice", |state| state.fixed *= 2),
    ("fixed agents of one byte", |state| state.fixed %= 256),
    ("agents in all states", |state| state.input = true),
    ("no agents beside fixed ones", |state| state.input &= state.fixed == 0),
];

/// Changes of the list of starts.
const LISTS: [Wrong<fn(&mut Starts)>; 8] = [
    ("the first start is left out", |all| drop(all.remove(0))),
    ("the last start is left out", |all| drop(all.pop())),
    ("a start in the middle is left out", |all| {
        drop(all.remove(all.len() / 2))
    }),
    ("the first start is counted twice", |all| all.insert(0, all[0].clone())),
    ("the last start is counted twice", |all| all.extend(all.last().cloned())),
    ("lowest counts first", |all| all.reverse()),
    ("the last input first", |all| {
        all.sort_by_key(|start| Reverse(start.iter().rev().copied().collect::<Vec<u32>>()))
    }),
    ("the second input lowest first", |all| {
        all.sort_by_key(|start| (Reverse(start[0]), start[1..].to_vec()))
    }),
];

/// Runs up to a limit.
fn limited(docket: &[u8], start: Vec<u32>, limit: u32) -> Run {
    let mut counts = start.clone();
    let steps = calls::say(docket, &mut counts, Call::Run(limit)).answers[0];
    let verdict = calls::say(docket, &mut counts, Call::Verdict).answers[0];
    Run { start, steps, verdict }
}

const RUNS: [Wrong<RunStart>; 7] = [
    ("one step", |docket, start| limited(docket, start, 1)),
    ("1,000 steps at most", |docket, start| limited(docket, start, 1000)),
    ("65,535 steps at most", |docket, start| limited(docket, start, 65_535)),
    ("all rules in one layer", |docket, start| {
        let mut flat = second::parse(docket).expect("a docket that passes tests 1 to 8");
        flat.version = 1;
        flat.rules.iter_mut().for_each(|rule| rule.layer = 0);
        flat.weights.truncate(1);
        right_run(&flat.bytes(), start)
    }),
    ("the verdict of the start", |docket, start| {
        let verdict = limited(docket, start.clone(), 0).verdict;
        Run {
            verdict,
            ..right_run(docket, start)
        }
    }),
    ("the last step is not counted", |docket, start| {
        let run = right_run(docket, start);
        Run {
            steps: run.steps.saturating_sub(1),
            ..run
        }
    }),
    ("the counts of the end", |docket, start| {
        let mut end = start.clone();
        calls::say(docket, &mut end, Call::Run(u32::MAX));
        Run {
            start: end,
            ..right_run(docket, start)
        }
    }),
];

const PICKS: [Wrong<Pick>; 4] = [
    ("the last start with as many steps", |runs| {
        let greatest = runs.iter().map(|run| run.steps).max();
        runs.iter().rposition(|run| Some(run.steps) == greatest).unwrap_or(0)
    }),
    ("the fewest steps", |runs| place(runs, |steps| steps.min())),
    ("the last start where there is no step", |runs| {
        match (RIGHT.pick)(runs) {
            0 if runs[0].steps == 0 => runs.len() - 1,
            place => place,
        }
    }),
    ("the first start", |_| 0),
];

const NUMBERS: [Wrong<Numbers>; 8] = [
    ("the steps of the first start", |runs, shown| {
        line_numbers(runs, runs[0].steps, &shown.start)
    }),
    ("the steps of the last start", |runs, shown| {
        line_numbers(runs, runs[runs.len() - 1].steps, &shown.start)
    }),
    ("the steps of all starts", |runs, shown| {
        line_numbers(runs, runs.iter().map(|run| run.steps).sum(), &shown.start)
    }),
    ("steps of 16 bits", |runs, shown| {
        line_numbers(runs, shown.steps % 65_536, &shown.start)
    }),
    ("the first start with the greatest steps", |runs, shown| {
        line_numbers(runs, shown.steps, &runs[0].start)
    }),
    ("the verdict totals are exchanged", |runs, shown| {
        let mut numbers = line_numbers(runs, shown.steps, &shown.start);
        numbers.swap(1, 2);
        numbers
    }),
    ("the number of starts is left out", |runs, shown| {
        line_numbers(runs, shown.steps, &shown.start)[1..].to_vec()
    }),
    ("no start is shown where there is no step", |runs, shown| {
        let counts = if shown.steps == 0 { &[][..] } else { &shown.start };
        line_numbers(runs, shown.steps, counts)
    }),
];

/// The number of agents with the fixed ones among them.
fn agents_beside_fixed(docket: &Docket, agents: u8) -> Starts {
    let fixed: i64 = docket.states.iter().map(|state| state.fixed).sum();
    starts(docket, agents.saturating_sub(fixed.min(255) as u8))
}

#[test]
fn samples_have_their_lines() {
    for (name, input, line) in all_samples() {
        let second = second::tally_line(&second::tally(&input));
        assert_eq!(second.strip_suffix('\n'), Some(line), "{name}");
        assert_eq!(RIGHT.line(&input), second, "{name}");
        assert_eq!(broken_law(&input, &by_second(&input), &second), None, "{name}");
    }
}

#[test]
fn wrong_inputs_are_seen() {
    let samples = all_samples();
    for (name, read) in READS {
        Variant { read: &read, ..RIGHT }.is_seen(name, &samples);
    }
    for (name, refusal) in REFUSALS {
        Variant {
            refusal: &refusal,
            ..RIGHT
        }
        .is_seen(name, &samples);
    }
    for (name, agents, most_inputs) in LIMITS {
        let refusal = |n: u8, docket: &[u8]| check(docket).or_else(|| beyond(n, docket, agents.clone(), most_inputs));
        Variant {
            refusal: &refusal,
            ..RIGHT
        }
        .is_seen(name, &samples);
    }
}

#[test]
fn wrong_starts_are_seen() {
    let samples = all_samples();
    for (name, change) in STATES {
        let of_states = |docket: &Docket, agents: u8| {
            let mut other = docket.clone();
            other.states.iter_mut().for_each(change);
            starts(&other, agents)
        };
        Variant {
            starts: &of_states,
            ..RIGHT
        }
        .is_seen(name, &samples);
    }
    for (name, change) in LISTS {
        let of_list = |docket: &Docket, agents: u8| {
            let mut all = starts(docket, agents);
            change(&mut all);
            all
        };
        Variant {
            starts: &of_list,
            ..RIGHT
        }
        .is_seen(name, &samples);
    }
    Variant {
        starts: &agents_beside_fixed,
        ..RIGHT
    }
    .is_seen("the fixed agents among n", &samples);
}

#[test]
fn wrong_totals_are_seen() {
    let samples = all_samples();
    for (name, run) in RUNS {
        Variant { run: &run, ..RIGHT }.is_seen(name, &samples);
    }
    for (name, pick) in PICKS {
        Variant { pick: &pick, ..RIGHT }.is_seen(name, &samples);
    }
    for (name, numbers) in NUMBERS {
        Variant {
            numbers: &numbers,
            ..RIGHT
        }
        .is_seen(name, &samples);
    }
}

/// A law for each wrong line of three agents of the broadcast docket.
#[test]
fn each_law_is_broken() {
    let input = with_agents(3, &make::broadcast().bytes());
    let said = by_second(&input);
    let law = |line: &str| broken_law(&input, &said, line);
    assert_eq!(law("4 1 3 2 2 1\n"), None);
    for (line, broken) in [
        ("4 1 3 2 2 1", FORM),
        ("4 1 3 2 2 1 \n", FORM),
        (" 4 1 3 2 2 1\n", FORM),
        ("4 1  3 2 2 1\n", FORM),
        ("4 1 3 2 2 1\n\n", FORM),
        ("4 1 3 2 2\n", FORM),
        ("4 1 3\n", FORM),
        ("4 1 3 2 2 1 0\n", FORM),
        ("4 1 3 +2 2 1\n", FORM),
        ("4 1 3 02 2 1\n", FORM),
        ("4 1 3 2 4294967298 1\n", FORM),
        ("refused 34 0\n", FORM),
        ("", FORM),
        ("5 1 4 2 2 1\n", NUMBER),
        ("4 1 2 2 2 1\n", SUM),
        ("4 18446744073709551615 5 2 2 1\n", SUM),
        ("4 2 2 2 2 1\n", VERDICTS),
        ("4 1 3 2 2 2\n", START),
        ("4 1 3 2 2 0\n", START),
        ("4 1 3 3 2 1\n", STEPS),
        ("4 1 3 1 1 2\n", GREATEST),
    ] {
        assert_eq!(law(line), Some(broken), "{line:?}");
    }
    let input = with_agents(2, &make::maximum(&[0, 1, 0]).bytes());
    let said = by_second(&input);
    assert_eq!(broken_law(&input, &said, "6 4 2 1 1 1 0\n"), None);
    assert_eq!(broken_law(&input, &said, "6 4 2 1 1 0 1\n"), Some(FIRST));
    let input = with_agents(1, &make::broadcast().bytes());
    let said = by_second(&input);
    assert_eq!(broken_law(&input, &said, "refused 34 0\n"), None);
    for line in ["refused 34 1\n", "refused 34 0", "refused 1 0\n", "2 1 1 0 1 0\n"] {
        assert_eq!(broken_law(&input, &said, line), Some(REFUSAL), "{line:?}");
    }
}

/// The fixed agents are no part of n: in a start they are all there.
#[test]
fn starts_with_fixed_agents() {
    let docket = fixed::majority(3, 2);
    assert!(is_start(&docket, 2, &[3, 2, 1, 1]));
    for counts in [[3, 2, 1, 0], [3, 2, 2, 1], [3, 1, 2, 1], [4, 2, 1, 0], [2, 2, 2, 1]] {
        assert!(!is_start(&docket, 2, &counts), "{counts:?}");
    }
    assert!(!is_start(&fixed::broadcast(true, 5), 2, &[3, 4]));
}

#[test]
fn long_runs_are_answered() {
    for (name, docket, agents) in long_runs() {
        assert!(second::check(&docket.bytes()).is_ok(), "{name}");
        assert_eq!(test_34(&docket, agents), [false, false], "{name}");
    }
}

/// Random dockets are accepted, and have up to ten inputs, inputs behind other states, and fixed agents.
#[test]
fn random_dockets() {
    let mut random = Random::new(9);
    let (mut met, mut fixed) = (BTreeSet::new(), BTreeSet::new());
    for _ in 0..500 {
        let docket = random_docket(&mut random);
        assert!(second::check(&docket.bytes()).is_ok());
        met.insert(inputs(&docket));
        fixed.extend(docket.states.iter().map(|state| (state.input, state.fixed > 0)));
    }
    assert!((1..=10).all(|inputs| met.contains(&inputs)), "{met:?}");
    assert_eq!(fixed.len(), 4);
}
