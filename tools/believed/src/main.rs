//! Which definitions must a reader believe? Those that the record `Claims` and the contracts of the C functions rest on, found
//! by a closure over names. Run in the repository's root:
//!
//!     believed            print the page docs/BELIEVED.md
//!     believed --check    fail where the page differs, or where a file of definitions holds one that nothing rests on
//!     believed --lines    print how many lines each crate has of each sort
//!
//! A file `specs/X.antt` holds definitions to be believed. `Code`, `Samples`, `Dockets`, `Cases`, `Unfold` and whatever stands in
//! a folder below `specs/` do not: they serve functions, compute cases, or prove. What stands in `proofs/` proves.

mod page;
mod source;

use std::collections::BTreeSet;
use std::process::ExitCode;

use source::{Name, Sources};

/// The roots: the record of claims, and what the contracts of the C functions name.
fn roots(sources: &Sources) -> Vec<Name> {
    let mut roots = vec![Name::new("claims", "Claims", "Claims")];
    roots.extend(sources.contract_names("capi"));
    roots
}

/// Everything that the roots rest on.
fn closure(sources: &Sources) -> BTreeSet<Name> {
    let mut seen = BTreeSet::new();
    let mut todo = roots(sources);
    while let Some(name) = todo.pop() {
        let Some(name) = sources.owner(&name) else { continue };
        if seen.insert(name.clone()) {
            todo.extend(sources.references(&name));
        }
    }
    seen
}

fn check(sources: &Sources, believed: &BTreeSet<Name>, text: &str) -> ExitCode {
    let mut faults = 0;
    for name in sources.definitions() {
        if sources.is_page(&name) && !believed.contains(&name) {
            println!(
                "{}: nothing to be believed rests on `{}`: it belongs into a file that serves",
                sources.path(&name),
                name.name
            );
            faults += 1;
        }
    }
    for name in believed {
        if !sources.is_page(name) && !sources.is_declared(name) {
            println!(
                "{}: `{}` is to be believed: it belongs into a file of definitions",
                sources.path(name),
                name.name
            );
            faults += 1;
        }
    }
    if std::fs::read_to_string("docs/BELIEVED.md").unwrap_or_default() != text {
        println!("docs/BELIEVED.md differs from what the claims rest on: write it anew by tools/believed");
        faults += 1;
    }
    println!("{} definitions are to be believed", believed.len());
    if faults == 0 {
        println!("1 passed, 0 failed");
        ExitCode::SUCCESS
    } else {
        println!("0 passed, {faults} failed");
        ExitCode::FAILURE
    }
}

fn main() -> ExitCode {
    let sources = match Sources::read("crates", "crates.txt") {
        Ok(sources) => sources,
        Err(error) => {
            eprintln!("believed: {error}");
            return ExitCode::from(2);
        }
    };
    let believed = closure(&sources);
    let text = page::page(&sources, &believed);
    match std::env::args().nth(1).as_deref() {
        None => {
            print!("{text}");
            ExitCode::SUCCESS
        }
        Some("--check") => check(&sources, &believed, &text),
        Some("--lines") => {
            print!("{}", page::lines(&sources, &believed));
            ExitCode::SUCCESS
        }
        Some(word) => {
            eprintln!("believed: unknown word '{word}'");
            ExitCode::from(2)
        }
    }
}
