//! The program `docket-second`: its lines, exit statuses and troubles.

use std::fs::File;
use std::io::Write;
use std::path::{Path, PathBuf};
use std::process::{Command, Output, Stdio};

fn repository() -> PathBuf {
    Path::new(env!("CARGO_MANIFEST_DIR")).join("..")
}

fn run(arguments: &[&str], input: &Path, output: Stdio) -> Output {
    let child = Command::new(env!("CARGO_BIN_EXE_docket-second"))
        .args(arguments)
        .stdin(File::open(input).expect("the input"))
        .stdout(output)
        .stderr(Stdio::piped())
        .spawn()
        .expect("the program");
    child.wait_with_output().expect("the program's output")
}

/// What `docket-second` prints with this argument for these bytes, and its exit status.
fn said(argument: &str, input: &[u8]) -> (String, Option<i32>) {
    let mut child = Command::new(env!("CARGO_BIN_EXE_docket-second"))
        .arg(argument)
        .stdin(Stdio::piped())
        .stdout(Stdio::piped())
        .spawn()
        .expect("the program");
    // The program does not read all of an input that is too long.
    let _ = child.stdin.take().map(|mut pipe| pipe.write_all(input));
    let said = child.wait_with_output().expect("the program's output");
    (text(&said.stdout), said.status.code())
}

fn text(bytes: &[u8]) -> String {
    String::from_utf8_lossy(bytes).into_owned()
}

/// Every docket of the corpus has the line of its .expect file; the exit status says whether it is accepted.
#[test]
fn corpus() {
    let mut files = 0;
    for entry in std::fs::read_dir(repository().join("tests/corpus")).expect("the corpus") {
        let path = entry.expect("a file of the corpus").path();
        if path.extension().is_none_or(|ending| ending != "docket") {
            continue;
        }
        files += 1;
        let line = std::fs::read_to_string(path.with_extension("expect")).expect("its line");
        let said = run(&[], &path, Stdio::piped());
        let status = if line.starts_with("accepted ") { 0 } else { 1 };
        assert_eq!(
            (text(&said.stdout), said.status.code()),
            (line, Some(status)),
            "{}",
            path.display()
        );
        assert_eq!(text(&said.stderr), "", "{}", path.display());
    }
    assert!(files >= 133, "{files} dockets in the corpus");
}

/// The cases of a file of the corpus: what stands before and behind the arrow.
fn cases(name: &str) -> Vec<(String, String)> {
    let file = std::fs::read_to_string(repository().join("tests/corpus").join(name)).expect(name);
    let lines = file.lines().filter(|line| !line.starts_with('#'));
    let case = |line: &str| {
        let (input, said) = line.split_once(" -> ").expect("a case");
        (input.to_string(), said.to_string())
    };
    lines.map(case).collect()
}

/// Bytes in hexadecimal, `-` where there are none.
fn from_hexadecimal(digits: &str) -> Vec<u8> {
    let byte = |pair: &[u8]| u8::from_str_radix(&text(pair), 16).expect("a byte");
    digits.trim_matches('-').as_bytes().chunks(2).map(byte).collect()
}

/// Every case of tally.txt has its line; the exit status says whether there are totals.
#[test]
fn tally_cases() {
    let cases = cases("tally.txt");
    assert_eq!(cases.len(), 31);
    for (input, line) in cases {
        let status = if line.starts_with("refused ") { 1 } else { 0 };
        let expected = (format!("{line}\n"), Some(status));
        assert_eq!(said("tally", &from_hexadecimal(&input)), expected, "{input}");
    }
}

/// The standard input of `decides`: the docket's length, the docket and the sheet.
fn with_sheet(docket: &[u8], sheet: &[u8]) -> Vec<u8> {
    [&(docket.len() as u16).to_le_bytes(), docket, sheet].concat()
}

/// The numbers of a sheet for so many states, and its limit, each with a space before it.
fn numbers_of(states: usize, sheet: &[u8]) -> String {
    let (numbers, limit) = sheet[16..20 + 2 * states].split_at(2 * states);
    let numbers = numbers.chunks(2).map(|b| i32::from(i16::from_le_bytes([b[0], b[1]])));
    let limit = i32::from_le_bytes([limit[0], limit[1], limit[2], limit[3]]);
    numbers.chain([limit]).map(|number| format!(" {number}")).collect()
}

/// Every case of claim.txt has its line; that of an accepted sheet ends with the numbers of the claim.
#[test]
fn claim_cases() {
    let cases = cases("claim.txt");
    assert!(cases.len() >= 20, "{} cases", cases.len());
    for (input, answer) in cases {
        let (docket, sheet) = input.split_once(' ').expect("a docket and a sheet");
        let (docket, sheet) = (from_hexadecimal(docket), from_hexadecimal(sheet));
        let (numbers, status) = match answer.as_str() {
            "accepted" => (numbers_of(usize::from(docket[2]), &sheet), 0),
            _ => (String::new(), 1),
        };
        let expected = (format!("{answer}{numbers}\n"), Some(status));
        assert_eq!(said("decides", &with_sheet(&docket, &sheet)), expected, "{input}");
    }
}

/// A docket of 65,535 bytes is read whole, and a longer one is refused for its length, whatever its header says.
#[test]
fn long_inputs_of_tally() {
    let docket = std::fs::read(repository().join("examples/broadcast.docket")).expect("the example");
    for (length, total, line) in [
        (65_535, 65_535_u16, "refused 4 5\n"),
        (65_536, 65_535, "refused 1 0\n"),
        (65_536, 0, "refused 1 0\n"),
        (65_536 + 99, 99, "refused 1 0\n"),
    ] {
        let mut input = [&[2], &docket[..]].concat();
        input[23..25].copy_from_slice(&total.to_le_bytes());
        input.resize(1 + length, 0);
        assert_eq!(said("tally", &input), (line.into(), Some(1)), "{length} bytes");
    }
}

/// Bytes that are missing: of the number they are 0, of the docket they are not there, and of the sheet too.
#[test]
fn short_inputs_of_decides() {
    let docket = std::fs::read(repository().join("examples/broadcast.docket")).expect("the example");
    let refused = |line: &str| (line.to_string(), Some(1));
    for input in [&[][..], &[99], &[99, 0], &[255, 255]] {
        assert_eq!(said("decides", input), refused("refused 1 0\n"), "{input:?}");
    }
    for length in [99_u16, 100, 65_535] {
        let input = [&length.to_le_bytes(), &docket[..]].concat();
        assert_eq!(said("decides", &input), refused("refused 15 0\n"), "{length}");
    }
    let input = [&98_u16.to_le_bytes(), &docket[..]].concat();
    assert_eq!(said("decides", &input), refused("refused 1 0\n"));
}

/// A docket and a sheet are each read to 65,535 bytes, and a longer sheet is refused, whatever its header says.
#[test]
fn long_inputs_of_decides() {
    let docket = std::fs::read(repository().join("examples/broadcast.docket")).expect("the example");
    let mut long_docket = docket.clone();
    long_docket.resize(65_535, 0);
    long_docket[22..24].copy_from_slice(&65_535_u16.to_le_bytes());
    let sheet = worked_sheet();
    let accepted = with_sheet(&docket, &sheet);
    assert_eq!(said("decides", &accepted), ("accepted 0 1 1\n".into(), Some(0)));
    for length in [127, 65_535, 65_536, 65_536 + 126, 300_000] {
        let mut long = sheet.clone();
        long.resize(length, 0);
        let refused = ("refused 15 0\n".to_string(), Some(1));
        assert_eq!(said("decides", &with_sheet(&docket, &long)), refused, "{length} bytes");
        let refused = ("refused 4 5\n".to_string(), Some(1));
        assert_eq!(
            said("decides", &with_sheet(&long_docket, &long)),
            refused,
            "{length} bytes"
        );
    }
}

/// A read that fails is not taken for the end of the file.
#[test]
fn input_that_cannot_be_read() {
    for arguments in [&[][..], &["tally"], &["decides"]] {
        let said = run(arguments, &repository(), Stdio::piped());
        assert_eq!((text(&said.stdout), said.status.code()), (String::new(), Some(2)));
        assert!(text(&said.stderr).starts_with("docket-second: standard input cannot be read: "));
    }
}

#[test]
fn output_that_cannot_be_written() {
    for arguments in [&[][..], &["tally"], &["decides"]] {
        let full = File::options().write(true).open("/dev/full").expect("/dev/full");
        let said = run(arguments, &repository().join("examples/broadcast.docket"), full.into());
        assert_eq!(said.status.code(), Some(2));
        assert!(text(&said.stderr).starts_with("docket-second: standard output cannot be written: "));
    }
}

/// Arguments that mean nothing are not passed over.
#[test]
fn other_arguments() {
    for arguments in [
        &["check"][..],
        &["tally", "tally"],
        &["decides", "tally"],
        &["2"],
        &[""],
        &["--help"],
    ] {
        let said = run(
            arguments,
            &repository().join("examples/broadcast.docket"),
            Stdio::piped(),
        );
        assert_eq!((text(&said.stdout), said.status.code()), (String::new(), Some(2)));
        assert!(text(&said.stderr).starts_with("usage: docket-second "), "{arguments:?}");
    }
}

/// The version of the package is the repository's.
#[test]
fn version() {
    let version = std::fs::read_to_string(repository().join("VERSION")).expect("VERSION");
    assert_eq!(version.trim_end(), env!("CARGO_PKG_VERSION"));
}

/// The bytes under a heading of docs/FORMAT.md are those of the example that it names: lines of an offset, two spaces and
/// hexadecimal numbers.
#[test]
fn dockets_in_the_format_page() {
    let page = std::fs::read_to_string(repository().join("docs/FORMAT.md")).expect("docs/FORMAT.md");
    let sections: Vec<&str> = page
        .split("\n##")
        .filter(|text| text.starts_with("# A docket "))
        .collect();
    assert!(sections.len() >= 3, "{} dockets in the page", sections.len());
    for section in sections {
        let (_, rest) = section.split_once("The same bytes are the file `").expect("an example");
        let (name, _) = rest.split_once('`').expect("its name");
        let bytes = bytes_of(section);
        let example = std::fs::read(repository().join(name)).expect("the example");
        assert_eq!(bytes, example, "{name}");
        assert!(
            section.contains(&format!("`{}`", second::line(&bytes).trim_end())),
            "{name}"
        );
    }
}

/// The sheet of docs/FORMAT.md, from the first table of its section: rows of an offset, hexadecimal numbers and words.
fn worked_sheet() -> Vec<u8> {
    let section = worked_section();
    let table = section
        .split("\n\n")
        .find(|block| block.starts_with("| offset "))
        .expect("a table");
    let mut bytes: Vec<u8> = vec![];
    for row in table.lines().skip(2) {
        let cells: Vec<&str> = row.split(" | ").collect();
        let offset = cells[0].trim_start_matches("| ");
        assert_eq!(offset.parse(), Ok(bytes.len()), "{row}");
        bytes.extend(from_row(cells[1]));
    }
    bytes
}

/// The section of docs/FORMAT.md with a sheet byte by byte.
fn worked_section() -> String {
    let page = std::fs::read_to_string(repository().join("docs/FORMAT.md")).expect("docs/FORMAT.md");
    let mut sections = page.split("\n### ");
    let section = sections.find(|text| text.starts_with("10.5 A worked sheet\n"));
    section.expect("a worked sheet").to_string()
}

/// The sheet of docs/FORMAT.md is accepted with the broadcast docket, with the line that the page says.
#[test]
fn sheet_in_the_format_page() {
    let docket = std::fs::read(repository().join("examples/broadcast.docket")).expect("the example");
    let sheet = worked_sheet();
    assert_eq!(sheet.len(), 126);
    let (line, status) = said("decides", &with_sheet(&docket, &sheet));
    assert_eq!((&*line, status), ("accepted 0 1 1\n", Some(0)));
    assert!(worked_section().contains(&format!("`{}`", line.trim_end())));
}

/// What docs/FORMAT.md says of changes to its sheet.
#[test]
fn changes_of_the_sheet_in_the_format_page() {
    let docket = std::fs::read(repository().join("examples/broadcast.docket")).expect("the example");
    let parsed = second::parse(&docket).expect("a docket");
    let sheet = second::parse_sheet(&parsed, &worked_sheet()).expect("a sheet");
    assert_eq!(sheet.to_bytes(), worked_sheet());
    type Change = fn(&mut second::Sheet);
    let changes: [(&str, Change); 12] = [
        ("15, 0", |sheet| sheet.numbers.push(0)),
        ("15, 0", |sheet| sheet.leaves[0].multiplier = 10_001),
        ("13, 3", |sheet| sheet.limit = 0),
        ("13, 7", |sheet| sheet.limit = 2),
        ("13, 3", |sheet| sheet.leaves[0].multiplier = 0),
        ("13, 3", |sheet| sheet.numbers[0] = 1),
        ("12, 1", |sheet| sheet.first[1].party = 2),
        ("12, 3", |sheet| {
            (sheet.first[3].kind, sheet.first[3].set[1]) = (7, true)
        }),
        ("12, 3", |sheet| sheet.first.truncate(3)),
        ("12, 7", |sheet| sheet.second.truncate(3)),
        ("12, 8", |sheet| sheet.second.push(sheet.first[0])),
        ("13, 2", |sheet| std::mem::swap(&mut sheet.first, &mut sheet.second)),
    ];
    for (place, (said, change)) in changes.into_iter().enumerate() {
        let mut changed = sheet.clone();
        change(&mut changed);
        let refusal = second::check_sheet(&docket, &changed.to_bytes()).expect_err("a refusal");
        assert_eq!(format!("{}, {}", refusal.number, refusal.place), said, "change {place}");
    }
}

/// Bytes in hexadecimal with spaces between.
fn from_row(row: &str) -> impl Iterator<Item = u8> + '_ {
    row.split(' ').map(|byte| u8::from_str_radix(byte, 16).expect("a byte"))
}

/// The first bytes that a section shows.
fn bytes_of(section: &str) -> Vec<u8> {
    let mut bytes: Vec<u8> = vec![];
    for line in section.split("```").nth(1).expect("the bytes").lines() {
        if let Some((offset, row)) = line.trim_start().split_once("  ") {
            assert_eq!(offset.parse(), Ok(bytes.len()), "{line}");
            bytes.extend(from_row(row));
        }
    }
    bytes
}
