//! The sheet of exact totals: every start with n agents besides the fixed ones is run until it rests.

use crate::docket::{check, parse, refuse, Docket, Refusal, State};
use crate::machine::{run_to_rest, verdict_of, Verdict};
use std::ops::RangeInclusive;

/// The numbers of agents for which there is a sheet, and the most input states.
const AGENTS: RangeInclusive<u8> = 2..=12;
const MOST_INPUTS: usize = 8;

/// The totals over all starts of one size.
#[derive(Clone, Debug, Default, PartialEq, Eq)]
pub struct Totals {
    pub starts: u64,
    /// How many starts rest on 0.
    pub zeros: u64,
    /// How many starts rest on 1.
    pub ones: u64,
    /// The greatest number of steps that a start needs.
    pub steps: u64,
    /// The first start that needs them, fixed agents included.
    pub start: Vec<u32>,
}

/// What is said to the standard input of the program `tally`: one byte n, 0 if there is none, and the docket behind it.
/// The check, then test 34.
pub fn tally(input: &[u8]) -> Result<Totals, Refusal> {
    let (&agents, docket) = input.split_first().unwrap_or((&0, &[]));
    check(docket)?;
    let docket = parse(docket)?;
    let inputs = docket.states.iter().filter(|state| state.input).count();
    if inputs > MOST_INPUTS || !AGENTS.contains(&agents) {
        return refuse(34, 0);
    }
    let mut totals = Totals::default();
    each_start(&docket.states, u32::from(agents), &mut vec![], &mut |start| {
        totals.add(&docket, start);
    });
    Ok(totals)
}

/// The line that the program `tally` prints.
pub fn tally_line(said: &Result<Totals, Refusal>) -> String {
    match said {
        Ok(totals) => {
            let four = [totals.starts, totals.zeros, totals.ones, totals.steps];
            let counts = totals.start.iter().map(|&count| u64::from(count));
            let numbers: Vec<String> = four.into_iter().chain(counts).map(|n| n.to_string()).collect();
            numbers.join(" ") + "\n"
        }
        Err(refusal) => refusal.line(),
    }
}

/// Goes through the starts that begin with these counts: the agents that are left are spread over the inputs among the
/// states that follow. A greater count of a state comes before a lesser one.
fn each_start(states: &[State], agents: u32, counts: &mut Vec<u32>, each: &mut dyn FnMut(&[u32])) {
    let Some((state, others)) = states.split_first() else {
        if agents == 0 {
            each(counts);
        }
        return;
    };
    let most = if state.input { agents } else { 0 };
    for here in (0..=most).rev() {
        counts.push(state.fixed as u32 + here);
        each_start(others, agents - here, counts, each);
        counts.pop();
    }
}

impl Totals {
    /// Runs the next start and adds it to the totals. In an accepted docket no start rests mixed.
    fn add(&mut self, docket: &Docket, start: &[u32]) {
        let mut counts = start.to_vec();
        let steps = run_to_rest(docket, &mut counts);
        if self.starts == 0 || steps > self.steps {
            self.steps = steps;
            self.start = start.to_vec();
        }
        self.starts += 1;
        match verdict_of(docket, &counts) {
            Verdict::Zero => self.zeros += 1,
            Verdict::One => self.ones += 1,
            Verdict::Mixed => {}
        }
    }
}

#[cfg(test)]
mod tests {
    use super::*;
    use crate::docket::samples::*;

    /// Majority with a tree that is accepted.
    fn voted() -> Docket {
        let docket = std::fs::read(concat!(
            env!("CARGO_MANIFEST_DIR"),
            "/../tests/corpus/cert_majority.docket"
        ));
        parse(&docket.expect("majority")).expect("its docket")
    }

    /// So many states with one verdict, all of them inputs, and no rule.
    fn still(states: usize) -> Docket {
        docket(&["3"; 64][..states].join(" "), "", "", "1 1 0 0")
    }

    fn line(agents: u8, docket: &[u8]) -> String {
        tally_line(&tally(&[&[agents], docket].concat()))
    }

    fn says(agents: u8, docket: &Docket, expected: &str) {
        assert_eq!(
            line(agents, &docket.bytes()).strip_suffix('\n'),
            Some(expected),
            "{agents} agents"
        );
    }

    fn starts(states: &[State], agents: u32) -> Vec<Vec<u32>> {
        let mut all = vec![];
        each_start(states, agents, &mut vec![], &mut |start| all.push(start.to_vec()));
        all
    }

    #[test]
    fn order_of_starts() {
        let mut states = still(3).states;
        let all = [[2, 0, 0], [1, 1, 0], [1, 0, 1], [0, 2, 0], [0, 1, 1], [0, 0, 2]];
        assert_eq!(starts(&states, 2), all);
        states[1] = State {
            verdict: 1,
            input: false,
            fixed: 7,
        };
        states[2].fixed = 1000;
        assert_eq!(starts(&states, 2), [[2, 7, 1000], [1, 7, 1001], [0, 7, 1002]]);
        states[0].input = false;
        assert_eq!(starts(&states, 12), [[0, 7, 1012]]);
    }

    /// Each start stands once and behind all greater ones, and there are as many as there must be: C(n + i - 1, n).
    #[test]
    fn number_of_starts() {
        for inputs in 1..=8 {
            let states = vec![still(2).states[0]; inputs];
            for agents in 2..=12 {
                let all = starts(&states, agents);
                let number = (1..=u64::from(agents)).fold(1, |product, k| product * (inputs as u64 - 1 + k) / k);
                assert_eq!(all.len() as u64, number);
                assert!(all.windows(2).all(|two| two[0] > two[1]));
                assert!(all.iter().all(|start| start.iter().sum::<u32>() == agents));
            }
        }
    }

    #[test]
    fn broadcasts() {
        let docket = broadcast(TREE);
        says(2, &docket, "3 1 2 1 1 1");
        says(3, &docket, "4 1 3 2 2 1");
        says(12, &docket, "13 1 12 11 11 1");
        says(2, &with_fixed(docket.clone(), [0, 0]), "3 1 2 1 1 1");
        says(2, &with_fixed(docket.clone(), [0, 257]), "3 0 3 2 2 257");
        says(2, &with_fixed(docket, [3, 0]), "3 1 2 4 4 1");
    }

    /// Where several starts need the greatest number of steps, the first of them is shown.
    #[test]
    fn ties() {
        says(2, &voted(), "3 1 2 2 1 1 0 0");
        says(3, &voted(), "4 2 2 2 2 1 0 0");
        says(4, &voted(), "5 2 3 4 2 2 0 0");
        says(5, &voted(), "6 3 3 4 3 2 0 0");
    }

    /// Where no start makes a step, the first one is shown.
    #[test]
    fn no_step() {
        says(2, &still(2), "3 0 3 0 2 0");
        says(4, &still(8), "330 0 330 0 4 0 0 0 0 0 0 0");
        says(12, &still(8), "50388 0 50388 0 12 0 0 0 0 0 0 0");
        says(3, &with_fixed(still(3), [1000, 0, 1]), "10 0 10 0 1003 0 1");
    }

    #[test]
    fn one_input() {
        says(2, &parity(), "1 1 0 1 2 0 0 0");
        says(3, &parity(), "1 0 1 3 3 0 0 0");
        let only_fixed = docket("2 1", "0 1 1 1 0", "1 0", "3 1 0 0; 1 1 0 0; 5 1 0 2; 2 0 1 0");
        says(12, &with_fixed(only_fixed, [0, 1000]), "1 0 1 12 12 1000");
    }

    #[test]
    fn test_34() {
        for agents in [0, 1, 13, 48, 50, 255] {
            says(agents, &broadcast(TREE), "refused 34 0");
            says(agents, &still(9), "refused 34 0");
        }
        for agents in 2..=12 {
            says(agents, &still(9), "refused 34 0");
            assert!(!line(agents, &still(8).bytes()).starts_with("refused"));
        }
    }

    /// The check comes first, its last test too, and nothing is read beyond the input.
    #[test]
    fn check_before_test_34() {
        let heavy = docket("2 3", "0 1 1 1 0", "0 0", TREE);
        let no_ground = broadcast("3 1 0 0; 1 1 0 0; 5 1 0 1; 6 2 0 2; 1 2 0 0");
        let mut nine = still(9);
        nine.nodes[0].party = 2;
        for agents in [0, 2, 13] {
            says(agents, &heavy, "refused 9 0");
            says(agents, &no_ground, "refused 13 2");
            says(agents, &nine, "refused 13 0");
            says(agents, &with_fixed(exchanged(), [0; 4]), "refused 14 2");
            assert_eq!(line(agents, &broadcast(TREE).bytes()[..98]), "refused 1 0\n");
            assert_eq!(line(agents, &[]), "refused 1 0\n");
        }
        assert_eq!(tally(&[]), refuse(1, 0));
        let mut longer = broadcast(TREE).bytes();
        longer.resize(65_536 + 99, 0);
        assert_eq!(line(2, &longer), "refused 1 0\n");
    }
}
