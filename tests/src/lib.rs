//! The proved implementation behind `docket.h`, and what is needed to compare it with the second one.

pub mod calls;
pub mod damage;
pub mod fixed;
pub mod groups;
pub mod make;
pub mod native;
pub mod order;
pub mod outcomes;
pub mod pages;
pub mod pairs;
pub mod parts;
pub mod program;
pub mod prover;
pub mod random;
pub mod remainders;
pub mod samples;
pub mod sheets;
pub mod tally;
pub mod totals;
pub mod versions;
pub mod writing;
