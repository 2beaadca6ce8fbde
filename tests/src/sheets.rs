//! Claim sheets: samples, cases of the corpus, the sheets of the examples, the comparison with the second implementation,
//! and laws that an implementation keeps with its own answers.

mod force;
mod laws;
mod random;
mod rules;
mod samples;

pub use force::{is_small, outputs_shown, sum, AGENTS};
pub use laws::{broken_law, Checks};
pub use random::Pool;
pub use rules::{broken_rules, rule_names};

use crate::calls::check_sheet_code;
use crate::make::sheet::{majority_sheet, quorum_sheet, spread, threshold_sheet, with_sheet, Claimed};
use crate::native;
use crate::program;
use crate::writing::from_hex;
use samples::{all_samples, inputs};
use second::{Claim, Docket, Sheet};
use std::collections::BTreeSet;
use std::path::PathBuf;

/// The library.
pub const NATIVE: Checks = Checks {
    docket: &native::check,
    sheet: &native::check_sheet,
};

/// The names of the samples, and what is wrong with each.
pub fn samples() -> Vec<(String, Option<String>)> {
    let samples = all_samples().into_iter().map(|sample| {
        let problem = line_problem(&sample.docket, &sample.sheet, &sample.line);
        (sample.name, problem)
    });
    let inputs = inputs().into_iter().map(|(name, input, line)| {
        let (printed, second) = (
            program::printed("decides", &input),
            second::decides_line(&second::decides(&input)),
        );
        let good = printed == line && second == line;
        let problem = || format!("expected {line:?}, printed {printed:?}, second implementation: {second:?}");
        (format!("input: {name}"), (!good).then(problem))
    });
    samples.chain(inputs).collect()
}

/// What is wrong with a case of the corpus: a docket, a sheet, `->`, and what is said.
pub fn case_problem(case: &str) -> Option<String> {
    let (input, said) = case.split_once(" -> ").expect("what is said");
    let (docket, sheet) = input.split_once(' ').expect("a docket and a sheet");
    let (docket, sheet) = (from_hex(docket), from_hex(sheet));
    let numbers = match said {
        "accepted" => numbers_of(&sheet),
        _ => String::new(),
    };
    line_problem(&docket, &sheet, &format!("{said}{numbers}\n"))
}

/// The numbers and the limit that stand in the bytes of a sheet, each with a space before it.
fn numbers_of(sheet: &[u8]) -> String {
    let (numbers, limit) = sheet[16..].split_at(2 * usize::from(sheet[0]));
    let numbers = numbers.chunks(2).map(|b| i32::from(i16::from_le_bytes([b[0], b[1]])));
    let limit = i32::from_le_bytes([limit[0], limit[1], limit[2], limit[3]]);
    numbers.chain([limit]).map(|number| format!(" {number}")).collect()
}

/// Standard input of the program `decides`; the docket has at most 65,535 bytes.
fn with_length(docket: &[u8], sheet: &[u8]) -> Vec<u8> {
    let length = u16::try_from(docket.len()).expect("a length of 16 bits");
    [&length.to_le_bytes(), docket, sheet].concat()
}

/// What is wrong with a docket and a sheet that have this line.
fn line_problem(docket: &[u8], sheet: &[u8], line: &str) -> Option<String> {
    let second = second::decides_line(&second::check_sheet(docket, sheet));
    if second != line {
        return Some(format!("expected {line:?}, second implementation: {second:?}"));
    }
    difference(docket, sheet)
        .or_else(|| printed_difference(docket, sheet))
        .or_else(|| broken_law(NATIVE, docket, sheet, AGENTS))
}

/// The outputs that small starts come to by the claim of a sheet that is accepted, or none where they are not tried; or
/// what is wrong with it.
pub fn tried((docket, sheet): &Claimed) -> Result<Option<BTreeSet<u8>>, String> {
    let code = native::check_sheet(&docket.bytes(), &sheet.to_bytes());
    if code != 0 {
        return Err(format!("sheet: {code}, and it is to be accepted"));
    }
    let (numbers, limit) = (sheet.numbers.clone(), sheet.limit);
    let shown = || outputs_shown(docket, &Claim { numbers, limit }, AGENTS);
    is_small(docket).then(shown).transpose()
}

/// Where the library says something else than the second implementation.
pub fn difference(docket: &[u8], sheet: &[u8]) -> Option<String> {
    let before = [docket.to_vec(), sheet.to_vec()];
    let (native, code) = (native::check_sheet(docket, sheet), check_sheet_code(docket, sheet));
    if before != [docket, sheet] {
        return Some("the docket or the sheet is changed".into());
    }
    (native != code).then(|| format!("sheet: {native}, second implementation: {code}"))
}

/// Where the program `decides` prints something else than the second implementation; a docket that is too long for its
/// input is not tried.
pub fn printed_difference(docket: &[u8], sheet: &[u8]) -> Option<String> {
    if docket.len() > usize::from(u16::MAX) {
        return None;
    }
    let printed = program::printed("decides", &with_length(docket, sheet));
    let second = second::decides_line(&second::check_sheet(docket, sheet));
    (printed != second).then(|| format!("decides: {printed:?}, second implementation: {second:?}"))
}

/// The name of an example, how its sheet is made for its docket, and its line.
type Example = (&'static str, fn(&Docket) -> Sheet, &'static str);

const EXAMPLES: [Example; 6] = [
    ("broadcast", |docket| spread(docket, 1), "accepted 0 1 1"),
    ("majority", majority_sheet, "accepted -1 1 0 0 0"),
    (
        "maximum_10",
        |docket| spread(docket, 1),
        "accepted 0 0 0 0 0 0 0 0 0 1 1",
    ),
    ("quorum", quorum_sheet, "accepted 1 0 0 0 0 0 2"),
    (
        "threshold_1_0_8",
        threshold_sheet,
        "accepted 0 -1 0 0 0 0 0 0 0 0 0 0 0 0 0 0 0 0 0 0 0 -7",
    ),
    ("two_outcomes", |docket| spread(docket, 1), "accepted 0 1 0 1"),
];

fn example_folder() -> PathBuf {
    PathBuf::from(env!("CARGO_MANIFEST_DIR")).join("../examples")
}

/// The docket of an example, and the sheet that is made for it.
fn example(name: &str, sheet: fn(&Docket) -> Sheet) -> Claimed {
    let docket = std::fs::read(example_folder().join(format!("{name}.docket"))).expect("an example");
    with_sheet(second::parse(&docket).expect("a docket"), sheet)
}

/// Writes the sheets of the examples anew.
pub fn write_examples() {
    for (name, sheet, _) in EXAMPLES {
        let (_, sheet) = example(name, sheet);
        let file = example_folder().join(format!("{name}.sheet"));
        std::fs::write(file, sheet.to_bytes()).expect("a file that can be written");
    }
}

/// The sheets among the examples, and what is wrong with each: it is not the one that is made, or it is refused, or it
/// has another claim.
pub fn example_problems() -> Vec<(String, Option<String>)> {
    let entries = std::fs::read_dir(example_folder()).expect("the examples");
    let names = entries.map(|entry| entry.expect("an example").file_name().to_string_lossy().into_owned());
    let mut sheets: Vec<String> = names.filter(|name| name.ends_with(".sheet")).collect();
    sheets.extend(EXAMPLES.iter().map(|(name, ..)| format!("{name}.sheet")));
    sheets.sort();
    sheets.dedup();
    let problem = |file: &String| example_problem(file).map_or_else(Some, |()| None);
    sheets.iter().map(|file| (file.clone(), problem(file))).collect()
}

fn example_problem(file: &str) -> Result<(), String> {
    let known = |(name, ..): &&Example| file.strip_suffix(".sheet") == Some(name);
    let (name, sheet, line) = EXAMPLES.iter().find(known).ok_or("no docket is known for it")?;
    let (docket, made) = example(name, *sheet);
    let bytes = std::fs::read(example_folder().join(file)).map_err(|error| error.to_string())?;
    if bytes != made.to_bytes() {
        return Err("another sheet is made for the docket".into());
    }
    let problem = line_problem(&docket.bytes(), &bytes, &format!("{line}\n"));
    problem.map_or(Ok(()), Err)
}

#[cfg(test)]
mod tests;
