//! A second implementation of the docket check, of its machine, of the writer, of the sheet of totals and of the check of
//! claim sheets, tested and not proved. It depends on nothing but Rust's standard library, so it checks dockets where the
//! Rattle kit cannot be had.
//!
//! Sets and facts are arrays of bool, weights and their sums are signed numbers, and each test is a plain loop in the
//! order of docs/FORMAT.md, so that it can be laid beside its line there.

mod docket;
mod ladder;
mod machine;
mod page;
mod sheet;
mod totals;
mod tree;
mod writer;

pub use docket::{
    check, line, parse, record_lengths, sections, state_length, Docket, Figures, Leaf, Node, Refusal, Rule, State,
};
pub use ladder::handover;
pub use machine::{can_act, is_standstill, run, start_test, step, verdict, Ran, Verdict};
pub use page::run_page;
pub use sheet::{check_sheet, decides, decides_line, parse_sheet, Claim, Sheet, SheetLeaf};
pub use totals::{tally, tally_line, Totals};
pub use writer::write;
