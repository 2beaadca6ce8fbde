//! The check, the machine, the writer, the check of claim sheets and the sheet of totals by the same methods as the proved
//! implementation, written in Rust with the same care for speed: the file is read in place, sets of states and of rules
//! are words of 64 bits, facts are a plain struct that is copied to each child, every search stops at its first find, and
//! nothing is allocated but the start that a sheet of totals shows.

mod docket;
mod ladder;
mod machine;
mod sheet;
mod totals;
mod tree;
mod writer;

use docket::Docket;
use second::Totals;
pub use writer::write;

/// Number and place of a refusal.
#[derive(Clone, Copy, Debug, PartialEq, Eq)]
pub struct Refusal {
    pub number: u32,
    pub place: u32,
}

fn refuse<T>(number: u32, place: usize) -> Result<T, Refusal> {
    Err(Refusal {
        number,
        place: place as u32,
    })
}

/// Tests 1 to 14, and the figures W and M as the proved check computes them too; hands back the docket.
fn check(docket: &[u8]) -> Result<Docket<'_>, Refusal> {
    let docket = Docket::read(docket)?;
    ladder::lowering(&docket)?;
    ladder::handover(&docket)?;
    tree::leaf_limits(&docket)?;
    tree::check(&docket)?;
    std::hint::black_box((ladder::spread_sum(&docket), tree::widest(&docket)));
    Ok(docket)
}

/// What `docket_check` returns.
pub fn check_code(docket: &[u8]) -> u64 {
    check(docket).map_or_else(refusal_code, |_| 0)
}

/// What `docket_check_sheet` returns.
pub fn check_sheet_code(docket: &[u8], sheet: &[u8]) -> u64 {
    let said = check(docket).and_then(|docket| sheet::check(&docket, sheet));
    said.map_or_else(refusal_code, |()| 0)
}

fn refusal_code(refusal: Refusal) -> u64 {
    u64::from(refusal.number) * 65_536 + u64::from(refusal.place)
}

/// What `docket_start_test` returns.
pub fn start_code(docket: &[u8], counts: &[u32]) -> u64 {
    call_code(Docket::read(docket).and_then(|docket| {
        machine::size_test(&docket, counts)?;
        machine::start_test(&docket, counts)
    }))
}

/// How many pairs of workers could make the meeting of a rule.
pub fn can_act(docket: &[u8], counts: &[u32], rule: u32) -> Result<u64, Refusal> {
    let docket = Docket::read(docket)?;
    machine::size_test(&docket, counts)?;
    machine::can_act(&docket, counts, rule)
}

/// What `docket_step` returns.
pub fn step_code(docket: &[u8], counts: &mut [u32], rule: u32) -> u64 {
    call_code(Docket::read(docket).and_then(|docket| {
        machine::size_test(&docket, counts)?;
        machine::step(&docket, counts, rule)
    }))
}

fn call_code(said: Result<(), Refusal>) -> u64 {
    said.map_or_else(
        |refusal| (u64::from(refusal.number) << 32) + u64::from(refusal.place),
        |()| 0,
    )
}

/// The steps made, and whether the counts rest.
pub fn run(docket: &[u8], counts: &mut [u32], limit: u32) -> Result<(u64, bool), Refusal> {
    let docket = Docket::read(docket)?;
    machine::size_test(&docket, counts)?;
    Ok(machine::run(&docket, counts, limit))
}

/// What `docket_run_page` returns.
pub fn run_page_code(docket: &[u8], counts: &mut [u32], limit: u32, results: &mut [u64]) -> u64 {
    call_code(Docket::read(docket).and_then(|docket| machine::run_page(&docket, counts, limit, results)))
}

/// What the program `tally` says of its input: one byte n, 0 if there is none, and the docket behind it.
pub fn tally(input: &[u8]) -> Result<Totals, Refusal> {
    let (&agents, docket) = input.split_first().unwrap_or((&0, &[]));
    totals::totals(&check(docket)?, agents)
}
