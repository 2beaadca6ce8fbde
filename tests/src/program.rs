//! The programs that are built beside the library.

use std::io::Write;
use std::path::{Path, PathBuf};
use std::process::{Child, Command, Stdio};

fn path(name: &str) -> PathBuf {
    Path::new(env!("CARGO_MANIFEST_DIR")).join("../target/bin").join(name)
}

fn started(name: &str, input: Stdio, errors: Stdio) -> Child {
    let program = path(name);
    let child = Command::new(&program)
        .stdin(input)
        .stdout(Stdio::piped())
        .stderr(errors)
        .spawn();
    child.unwrap_or_else(|error| panic!("the program {} cannot be run: {error}", program.display()))
}

/// What a program prints for these bytes on standard input.
pub fn printed(name: &str, input: &[u8]) -> String {
    let mut child = started(name, Stdio::piped(), Stdio::inherit());
    // The program may end before it has read all of a file that is too long.
    let _ = child.stdin.take().map(|mut pipe| pipe.write_all(input));
    let output = child.wait_with_output().expect("the program's output");
    String::from_utf8_lossy(&output.stdout).into_owned()
}

/// What is wrong with what a program does where standard input is a directory, which no read gets a byte of.
pub fn unreadable_problem(name: &str) -> Option<String> {
    let directory = std::fs::File::open("/").expect("the root directory");
    let child = started(name, directory.into(), Stdio::piped());
    let output = child.wait_with_output().expect("the program's output");
    let said = format!("{name}: standard input cannot be read\n");
    let good = output.stdout.is_empty() && output.stderr == said.as_bytes();
    (!good).then(|| format!("{output:?}"))
}
