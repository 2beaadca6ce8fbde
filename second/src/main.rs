//! Reads standard input and prints the line that a program of the proved implementation prints for it: `docket` for a
//! docket; with the argument `tally`, `tally` for one byte n and the docket behind it; with the argument `decides`,
//! `decides` for a docket's length, the docket and its claim sheet.
//!
//! Exit status: 0 accepted, 1 refused, 2 trouble, which is said on standard error.

use std::io::{Read, Write};
use std::process::ExitCode;

const USAGE: &str = "\
usage: docket-second <FILE            the line of the program docket: FILE is a docket
       docket-second tally <FILE      the line of the program tally: FILE is one byte n and a docket
       docket-second decides <FILE    the line of the program decides: FILE is the length of a docket, a 16-bit
                                      little-endian number, then the docket, then its claim sheet
exit status: 0 accepted, 1 refused, 2 trouble
";

/// One more than a docket or a claim sheet can have, so that a longer file is refused for its length.
const MOST_BYTES: u64 = 65_536;

fn main() -> ExitCode {
    let arguments: Vec<_> = std::env::args_os().skip(1).collect();
    match &arguments[..] {
        [] => answer(MOST_BYTES, |docket| {
            (second::line(docket), second::check(docket).is_ok())
        }),
        [argument] if argument == "tally" => answer(1 + MOST_BYTES, |input| {
            let said = second::tally(input);
            (second::tally_line(&said), said.is_ok())
        }),
        [argument] if argument == "decides" => answer(2 + 2 * MOST_BYTES, |input| {
            let said = second::decides(input);
            (second::decides_line(&said), said.is_ok())
        }),
        _ => {
            eprint!("{USAGE}");
            ExitCode::from(2)
        }
    }
}

/// Reads so many bytes at most; prints the line that they have, and says whether they are accepted.
fn answer(most_bytes: u64, line: impl Fn(&[u8]) -> (String, bool)) -> ExitCode {
    let mut input = vec![];
    if let Err(error) = std::io::stdin().lock().take(most_bytes).read_to_end(&mut input) {
        return trouble("standard input cannot be read", &error);
    }
    let (line, accepted) = line(&input);
    if let Err(error) = std::io::stdout().write_all(line.as_bytes()) {
        return trouble("standard output cannot be written", &error);
    }
    ExitCode::from(u8::from(!accepted))
}

fn trouble(what: &str, error: &std::io::Error) -> ExitCode {
    eprintln!("docket-second: {what}: {error}");
    ExitCode::from(2)
}
