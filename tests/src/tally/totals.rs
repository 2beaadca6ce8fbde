//! What the inputs of the program `tally` were.

use super::{add, few};
use crate::totals::{inputs, parts_of, test_34, Run};
use second::{Docket, Refusal};
use std::collections::BTreeMap;

/// Which start is shown.
#[derive(Clone, Copy, Debug, PartialEq, Eq, PartialOrd, Ord)]
pub enum Shown {
    Only,
    First,
    Middle,
    Last,
}

/// How many starts take as many steps as the one that is shown.
#[derive(Clone, Copy, Debug, PartialEq, Eq, PartialOrd, Ord)]
pub enum Takes {
    One,
    Several,
    All,
}

#[derive(Default)]
pub struct Totals {
    /// Lines by the version, 0 where tests 1 to 8 refuse the docket, and by the number of the refusal, 0 for an answer.
    pub lines: BTreeMap<(u32, u32), u64>,
    /// Refusals of tests 9 to 13 by their number, where test 34 would refuse the input too.
    pub before_34: BTreeMap<u32, u64>,
    /// Refusals 34 by the number of agents, where it is wrong, and by whether the number of inputs is wrong; 14 stands
    /// for all numbers that are not in `WRONG_AGENTS`.
    pub refused_34: BTreeMap<(Option<u8>, bool), u64>,
    /// Answers by the number of agents.
    pub agents: BTreeMap<u8, u64>,
    /// Answers by the number of inputs.
    pub inputs: BTreeMap<usize, u64>,
    /// Answers by the version, and by whether an input has fixed agents and whether another state has.
    pub fixed: BTreeMap<(u32, bool, bool), u64>,
    /// Answers by whether a start rests on 0 and whether one rests on 1.
    pub verdicts: BTreeMap<(bool, bool), u64>,
    /// Answers by the start that is shown, and by how many take as many steps.
    pub shown: BTreeMap<(Shown, Takes), u64>,
    /// Answers by the greatest number of steps, given as the least of its kind.
    pub steps: BTreeMap<u64, u64>,
    /// Lines that break a law, with the inputs.
    pub broken: Vec<String>,
}

impl Totals {
    /// Counts an input by what the calls of the library say of it.
    pub fn count(&mut self, input: &[u8], said: &Result<Vec<Run>, Refusal>) {
        let (agents, docket) = parts_of(input);
        let number = said.as_ref().err().map_or(0, |refusal| refusal.number);
        let docket = second::parse(docket).ok();
        let version = docket.as_ref().map_or(0, |docket| docket.version);
        *self.lines.entry((version, number)).or_default() += 1;
        let Some(docket) = docket else {
            return;
        };
        let [wrong_agents, wrong_inputs] = test_34(&docket, agents);
        match said {
            Ok(runs) => self.count_answer(&docket, agents, runs),
            Err(_) if number == 34 => {
                let shown = if WRONG_AGENTS.contains(&agents) { agents } else { 14 };
                let agents = wrong_agents.then_some(shown);
                *self.refused_34.entry((agents, wrong_inputs)).or_default() += 1;
            }
            Err(_) if wrong_agents || wrong_inputs => *self.before_34.entry(number).or_default() += 1,
            Err(_) => {}
        }
    }

    fn count_answer(&mut self, docket: &Docket, agents: u8, runs: &[Run]) {
        *self.agents.entry(agents).or_default() += 1;
        *self.inputs.entry(inputs(docket)).or_default() += 1;
        let has_fixed = |input: bool| {
            docket
                .states
                .iter()
                .any(|state| state.fixed > 0 && state.input == input)
        };
        let key = (docket.version, has_fixed(true), has_fixed(false));
        *self.fixed.entry(key).or_default() += 1;
        let rests_on = |verdict: u64| runs.iter().any(|run| run.verdict == verdict);
        *self.verdicts.entry((rests_on(0), rests_on(1))).or_default() += 1;
        let greatest = runs.iter().map(|run| run.steps).max().unwrap_or(0);
        let take_them: Vec<usize> = (0..runs.len()).filter(|&at| runs[at].steps == greatest).collect();
        let shown = match take_them[0] {
            _ if runs.len() == 1 => Shown::Only,
            0 => Shown::First,
            at if at + 1 == runs.len() => Shown::Last,
            _ => Shown::Middle,
        };
        let takes = match take_them.len() {
            1 => Takes::One,
            number if number == runs.len() => Takes::All,
            _ => Takes::Several,
        };
        *self.shown.entry((shown, takes)).or_default() += 1;
        let least = *STEPS.iter().rfind(|&&least| least <= greatest).unwrap_or(&0);
        *self.steps.entry(least).or_default() += 1;
    }

    pub fn merge(&mut self, other: Totals) {
        add(&mut self.lines, other.lines);
        add(&mut self.before_34, other.before_34);
        add(&mut self.refused_34, other.refused_34);
        add(&mut self.agents, other.agents);
        add(&mut self.inputs, other.inputs);
        add(&mut self.fixed, other.fixed);
        add(&mut self.verdicts, other.verdicts);
        add(&mut self.shown, other.shown);
        add(&mut self.steps, other.steps);
        self.broken.extend(other.broken);
    }

    /// What the inputs failed to reach: every refusal, those behind test 8 in both versions and before test 34; test 34
    /// by the agents, by the inputs and by both; answers for every number of agents and of inputs, with and without
    /// fixed agents; both verdicts; every place of the start that is shown, with others that take as many steps and
    /// without; and no step, few steps and many.
    pub fn not_reached(&self) -> Vec<String> {
        let of_shape = (1..=8).chain([14]).map(|number| (0, number));
        let behind = (9..=13).chain([0, 34]);
        let of_version = behind.flat_map(|number| [(1, number), (2, number)]);
        let refused_34 = WRONG_AGENTS.map(|agents| (Some(agents), false));
        let inputs_34 = [(None, true), (Some(1), true), (Some(13), true)];
        let fixed = [false, true]
            .into_iter()
            .flat_map(|one| [(2, one, false), (2, one, true)]);
        [
            few(
                "version, refusal (0: answered)",
                &self.lines,
                of_shape.chain(of_version),
                LEAST,
            ),
            few("before 34, refusal", &self.before_34, 9..=13, LEAST),
            few("34: wrong agents, wrong inputs", &self.refused_34, refused_34, LEAST),
            few("34: wrong agents, wrong inputs", &self.refused_34, inputs_34, 1),
            few("agents", &self.agents, 2..=12, LEAST),
            few("inputs", &self.inputs, 1..=8, LEAST),
            few("version, fixed in an input, in another", &self.fixed, fixed, LEAST),
            few("rests on 0, on 1", &self.verdicts, VERDICTS, LEAST),
            few("start, how many", &self.shown, SHOWN, LEAST),
            few("steps", &self.steps, STEPS, LEAST),
        ]
        .concat()
        .into_iter()
        .map(|text| format!("totals: {text}"))
        .collect()
    }
}

/// How many inputs of each kind must be met.
const LEAST: u64 = 10;

/// Wrong numbers of agents that must be met.
const WRONG_AGENTS: [u8; 7] = [0, 1, 13, 14, 48, 50, 255];

const VERDICTS: [(bool, bool); 3] = [(true, false), (false, true), (true, true)];

/// Starts that must be shown. With several starts the last is shown only where it alone takes as many steps.
const SHOWN: [(Shown, Takes); 7] = [
    (Shown::Only, Takes::One),
    (Shown::First, Takes::One),
    (Shown::First, Takes::Several),
    (Shown::First, Takes::All),
    (Shown::Middle, Takes::One),
    (Shown::Middle, Takes::Several),
    (Shown::Last, Takes::One),
];

/// The least number of steps of each kind.
const STEPS: [u64; 5] = [0, 1, 2, 100, 1000];
