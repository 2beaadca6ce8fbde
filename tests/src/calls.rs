//! A call of the machine, on a group or on a page, or of the writer, and what it says in the terms of `docket.h`.

use second::{Ran, Refusal, Verdict};

#[derive(Clone, Copy, Debug, PartialEq, Eq)]
pub enum Call {
    StartTest,
    CanAct(u32),
    IsStandstill,
    Verdict,
    Step(u32),
    Run(u32),
}

impl Call {
    /// The call without its numbers.
    pub fn name(self) -> &'static str {
        match self {
            Call::StartTest => "start test",
            Call::CanAct(_) => "can act",
            Call::IsStandstill => "standstill",
            Call::Verdict => "verdict",
            Call::Step(_) => "step",
            Call::Run(_) => "run",
        }
    }
}

/// Whether a refusal of this number is one of tests 1 to 8, to which 14 belongs.
pub fn is_of_tests_1_to_8(number: u32) -> bool {
    matches!(number, 1..=8 | 14)
}

/// What an answer holds before the call, and still holds after a refusal.
pub const UNTOUCHED: u64 = 0x5555_aaaa_5555_aaaa;

/// 0, or a refusal's number times 2 to the power 32 plus its place; and the values behind the answer pointers.
#[derive(Clone, Copy, Debug, PartialEq, Eq)]
pub struct Said {
    pub code: u64,
    pub answers: [u64; 2],
}

impl Said {
    pub fn refusal(&self) -> Option<Refusal> {
        let (number, place) = ((self.code >> 32) as u32, self.code as u32);
        (self.code != 0).then_some(Refusal { number, place })
    }

    pub fn done(answers: &[u64]) -> Said {
        let mut all = [UNTOUCHED; 2];
        all[..answers.len()].copy_from_slice(answers);
        Said { code: 0, answers: all }
    }

    pub fn refused(refusal: Refusal) -> Said {
        let code = (u64::from(refusal.number) << 32) + u64::from(refusal.place);
        Said {
            code,
            answers: [UNTOUCHED; 2],
        }
    }
}

/// What the second implementation says to a call.
pub fn say(docket: &[u8], counts: &mut [u32], call: Call) -> Said {
    let said = match call {
        Call::StartTest => second::start_test(docket, counts).map(|()| Said::done(&[])),
        Call::CanAct(rule) => second::can_act(docket, counts, rule).map(|n| Said::done(&[in_64_bits(n)])),
        Call::IsStandstill => second::is_standstill(docket, counts).map(|t| Said::done(&[u64::from(t)])),
        Call::Verdict => second::verdict(docket, counts).map(|v| Said::done(&[verdict_number(v)])),
        Call::Step(rule) => second::step(docket, counts, rule).map(|()| Said::done(&[])),
        Call::Run(limit) => second::run(docket, counts, limit).map(|ran| Said::done(&ran_numbers(ran))),
    };
    said.unwrap_or_else(Said::refused)
}

/// What the second implementation says to a page, as docket_run_page says it: there is no answer beside the results.
pub fn run_page(docket: &[u8], counts: &mut [u32], limit: u32, results: &mut [u64]) -> Said {
    second::run_page(docket, counts, limit, results).map_or_else(Said::refused, |()| Said::done(&[]))
}

/// What the writer of the second implementation says, as docket_write says it: the total is the first answer.
pub fn write(version: u32, parts: [&[u8]; 5], output: &mut [u8]) -> Said {
    second::write(version, parts, output).map_or_else(Said::refused, |total| Said::done(&[total as u64]))
}

fn in_64_bits(number: u128) -> u64 {
    u64::try_from(number).expect("a number of pairs of 64 bits")
}

fn verdict_number(verdict: Verdict) -> u64 {
    match verdict {
        Verdict::Zero => 0,
        Verdict::One => 1,
        Verdict::Mixed => 2,
    }
}

fn ran_numbers(ran: Ran) -> [u64; 2] {
    [ran.steps, u64::from(ran.rests)]
}

/// What the check of the second implementation says, as docket_check says it.
pub fn check_code(docket: &[u8]) -> u64 {
    second::check(docket).map_or_else(refusal_code, |_| 0)
}

/// What the second implementation says of a claim sheet, as docket_check_sheet says it.
pub fn check_sheet_code(docket: &[u8], sheet: &[u8]) -> u64 {
    second::check_sheet(docket, sheet).map_or_else(refusal_code, |_| 0)
}

/// A refusal as docket_check returns it.
pub fn refusal_code(refusal: Refusal) -> u64 {
    u64::from(refusal.number) * 65_536 + u64::from(refusal.place)
}

/// The refusal that docket_check returns so.
pub fn refusal_by_code(code: u64) -> Option<Refusal> {
    let (number, place) = ((code / 65_536) as u32, (code % 65_536) as u32);
    (code != 0).then_some(Refusal { number, place })
}

/// What docket_figures says, by the second implementation: the code of the check, and the six figures where it accepts.
pub fn figures(docket: &[u8]) -> (u64, [u64; 6]) {
    let figures = second::check(docket).map_or([UNTOUCHED; 6], |figures| figures.numbers());
    (check_code(docket), figures)
}
