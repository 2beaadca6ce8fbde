//! The page docs/BELIEVED.md, and the table of lines.

use std::collections::BTreeSet;
use std::fmt::Write;

use crate::source::{is_page, Name, Sources};

const HEAD: &str = "# What must be believed

The claims of `crates/claims/specs/Claims.antt` and the contracts of the C functions in `crates/capi/src/lib.rt` rest on these
definitions and on no other of this repository; what stands elsewhere serves the code or the proofs. They are in reading order,
each with the first sentence of its comment; one without a comment belongs to the group of the one above it.
`tools/believed` writes this page, and the gate fails where the two differ.
";

/// The first sentence of a comment.
fn sentence(comment: &str) -> String {
    let comment = comment.trim_start_matches("---- ").trim();
    let ends = comment.match_indices(". ").map(|(at, _)| at);
    let end = ends.into_iter().find(|at| !comment[..*at].ends_with('.'));
    comment[..end.unwrap_or(comment.len())]
        .trim_end_matches('.')
        .to_string()
}

/// The believed definitions of one file, in order.
fn of_file(sources: &Sources, believed: &BTreeSet<Name>, krate: &str, module: &str) -> Vec<Name> {
    let mut names: Vec<Name> = believed
        .iter()
        .filter(|n| n.krate == krate && n.module == module)
        .cloned()
        .collect();
    names.sort_by_key(|n| sources.definition(n).at);
    names
}

fn count(sources: &Sources, names: &[Name]) -> usize {
    names.iter().map(|n| sources.definition(n).lines.len()).sum()
}

pub fn page(sources: &Sources, believed: &BTreeSet<Name>) -> String {
    let mut text = String::from(HEAD);
    let (mut definitions, mut lines) = (0, 0);
    let mut body = String::new();
    for krate in &sources.crates {
        for module in sources.modules(krate) {
            let names = of_file(sources, believed, krate, &module);
            if names.is_empty() {
                continue;
            }
            let here = count(sources, &names);
            if module != "declared" {
                definitions += names.len();
                lines += here;
            }
            writeln!(body, "\n## {} ({here} lines)\n", sources.path(&names[0])).unwrap();
            for name in &names {
                let meaning = sentence(&sources.definition(name).comment);
                let dash = if meaning.is_empty() { "" } else { ": " };
                writeln!(body, "- `{}`{dash}{meaning}", name.name).unwrap();
            }
        }
    }
    writeln!(text, "There are {definitions} definitions of {lines} lines, without blanks, comments and imports, and the types of the code.").unwrap();
    text + &body
}

/// Lines of each sort, for each crate.
pub fn lines(sources: &Sources, believed: &BTreeSet<Name>) -> String {
    let mut text = String::from("| crate | believed | internal | laws | cases |\n|---|---|---|---|---|\n");
    let mut all = [0; 4];
    for krate in &sources.crates {
        let names: Vec<Name> = believed
            .iter()
            .filter(|n| n.krate == *krate && n.module != "declared")
            .cloned()
            .collect();
        let cases = |m: &str| {
            let m = m.trim_start_matches("proofs.");
            m.starts_with("Cases") || m.starts_with("Samples") || m.starts_with("Dockets") || m == "Unfold"
        };
        let row = [
            count(sources, &names),
            sources.size(krate, |m| is_page(m) || m == "Code") - count(sources, &names),
            sources.size(krate, |m| m.contains('.') && !cases(m)),
            sources.size(krate, cases),
        ];
        for (sum, n) in all.iter_mut().zip(row) {
            *sum += n;
        }
        writeln!(text, "| {krate} | {} | {} | {} | {} |", row[0], row[1], row[2], row[3]).unwrap();
    }
    writeln!(text, "| all | {} | {} | {} | {} |", all[0], all[1], all[2], all[3]).unwrap();
    text
}
