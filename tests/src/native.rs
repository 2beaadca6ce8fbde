//! The functions of `docket.h`, as the static library has them. Nothing is tested before a call.

use crate::calls::{Call, Said, UNTOUCHED};

extern "C" {
    fn docket_check(docket: *const u8, docket_len: usize) -> u64;
    fn docket_check_sheet(docket: *const u8, docket_len: usize, sheet: *const u8, sheet_len: usize) -> u64;
    fn docket_start_test(docket: *const u8, docket_len: usize, counts: *const u32, counts_len: usize) -> u64;
    fn docket_can_act(
        docket: *const u8,
        docket_len: usize,
        counts: *const u32,
        counts_len: usize,
        rule: u32,
        answer: *mut u64,
    ) -> u64;
    fn docket_is_standstill(
        docket: *const u8,
        docket_len: usize,
        counts: *const u32,
        counts_len: usize,
        answer: *mut u64,
    ) -> u64;
    fn docket_verdict(
        docket: *const u8,
        docket_len: usize,
        counts: *const u32,
        counts_len: usize,
        answer: *mut u64,
    ) -> u64;
    fn docket_step(docket: *const u8, docket_len: usize, counts: *mut u32, counts_len: usize, rule: u32) -> u64;
    fn docket_run(
        docket: *const u8,
        docket_len: usize,
        counts: *mut u32,
        counts_len: usize,
        limit: u32,
        steps: *mut u64,
        rests: *mut u64,
    ) -> u64;
    fn docket_run_page(
        docket: *const u8,
        docket_len: usize,
        counts: *mut u32,
        counts_len: usize,
        limit: u32,
        results: *mut u64,
        results_len: usize,
    ) -> u64;
    fn docket_figures(docket: *const u8, docket_len: usize, figures: *mut u64) -> u64;
    fn docket_write(
        version: u32,
        states: *const u8,
        states_len: usize,
        rules: *const u8,
        rules_len: usize,
        layers: *const u8,
        layers_len: usize,
        nodes: *const u8,
        nodes_len: usize,
        leaves: *const u8,
        leaves_len: usize,
        out: *mut u8,
        out_len: usize,
        total: *mut u64,
    ) -> u64;
}

/// What docket_check returns: 0, or the number times 65,536 plus the place.
pub fn check(docket: &[u8]) -> u64 {
    // SAFETY: the pointer and the length are those of one slice, which the library only reads.
    unsafe { docket_check(docket.as_ptr(), docket.len()) }
}

/// What docket_check_sheet returns, as docket_check does.
pub fn check_sheet(docket: &[u8], sheet: &[u8]) -> u64 {
    // SAFETY: each pointer and length are those of one slice, which the library only reads.
    unsafe { docket_check_sheet(docket.as_ptr(), docket.len(), sheet.as_ptr(), sheet.len()) }
}

/// What docket_figures returns, and what it leaves behind its pointer.
pub fn figures(docket: &[u8]) -> (u64, [u64; 6]) {
    let mut figures = [UNTOUCHED; 6];
    // SAFETY: as in check; six numbers can be written behind the last pointer, which overlaps nothing.
    let code = unsafe { docket_figures(docket.as_ptr(), docket.len(), figures.as_mut_ptr()) };
    (code, figures)
}

/// What a machine call says; the counts are lent as they are.
pub fn say(docket: &[u8], counts: &mut [u32], call: Call) -> Said {
    let (d, n) = (docket.as_ptr(), docket.len());
    let (c, m) = (counts.as_mut_ptr(), counts.len());
    let mut answers = [UNTOUCHED; 2];
    let [first, second] = &mut answers;
    // SAFETY: each pointer and length are those of one slice, the counts and the answers are writable, and none overlap.
    let code = unsafe {
        match call {
            Call::StartTest => docket_start_test(d, n, c, m),
            Call::CanAct(rule) => docket_can_act(d, n, c, m, rule, first),
            Call::IsStandstill => docket_is_standstill(d, n, c, m, first),
            Call::Verdict => docket_verdict(d, n, c, m, first),
            Call::Step(rule) => docket_step(d, n, c, m, rule),
            Call::Run(limit) => docket_run(d, n, c, m, limit, first, second),
        }
    };
    Said { code, answers }
}

/// What docket_run_page says; the counts and the results are lent as they are.
pub fn run_page(docket: &[u8], counts: &mut [u32], limit: u32, results: &mut [u64]) -> Said {
    let (d, n) = (docket.as_ptr(), docket.len());
    let (c, m) = (counts.as_mut_ptr(), counts.len());
    let (r, k) = (results.as_mut_ptr(), results.len());
    // SAFETY: each pointer and length are those of one slice, the counts and the results are writable, and none overlap.
    let code = unsafe { docket_run_page(d, n, c, m, limit, r, k) };
    Said {
        code,
        ..Said::done(&[])
    }
}

/// What docket_write says; the output is lent as it is.
pub fn write(version: u32, parts: [&[u8]; 5], output: &mut [u8]) -> Said {
    let [s, r, l, n, k] = parts.map(|part| part.as_ptr());
    let [s_len, r_len, l_len, n_len, k_len] = parts.map(|part| part.len());
    let (d, d_len) = (output.as_mut_ptr(), output.len());
    let mut answers = [UNTOUCHED; 2];
    let total = &mut answers[0];
    // SAFETY: each pointer and length are those of one slice, the output and the answer are writable, and none overlap.
    let code = unsafe {
        docket_write(
            version, s, s_len, r, r_len, l, l_len, n, n_len, k, k_len, d, d_len, total,
        )
    };
    Said { code, answers }
}
