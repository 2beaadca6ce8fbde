//! The writer: what both implementations say and write is compared, on samples, cases of the corpus and any parts.

use crate::calls::{self, is_of_tests_1_to_8, Said};
use crate::make::{self, fixed};
use crate::native;
use crate::parts::{slices, total, Parts};
use crate::tally::hex;
use second::Refusal;
use std::fmt::Debug;

/// A name, the parts, the length of the output, and what is said. The parts are those of the broadcast, of the least or
/// of the largest docket, or of one of version 2: the broadcast of fixed agents, the least or the largest one; those that
/// follow, each with its number (0 states, 1 rules, 2 layers, 3 nodes, 4 leaves), stand in the place of its own. Their
/// bytes are hexadecimal, `-` is none, `*` repeats and `+` joins. `v` is another version than that of the docket.
const SAMPLES: &str = "\
written to its length | broadcast | total | written
one byte more | broadcast | total+1 | written
much more | broadcast | 100000 | written
one byte too short | broadcast | total-1 | refused 30 0
room for one byte beside the header | broadcast | 25 | refused 30 0
room for the header | broadcast | 24 | refused 30 0
room for the header but one byte | broadcast | 23 | refused 30 0
no room | broadcast | 0 | refused 30 0
the least docket | least | 38 | written
the least docket, one byte too short | least | 37 | refused 30 0
the largest docket | largest | 62808 | written
the largest docket, much more room | largest | 200000 | written
the largest docket, one byte too short | largest | 62807 | refused 30 0
a ladder that falls nowhere | broadcast 2=00*8 | total | written
nodes of any bytes | broadcast 3=ff*60 | total | written
2,048 nodes of any bytes | broadcast 3=ff*24576 | total | written
a node too few for the tree | broadcast 3=030100000000000000000000 | total | written
a rule and one byte | broadcast 1=0001010100+00 | total | refused 31 1
a rule but one byte | broadcast 1=00010101 | total | refused 31 1
one byte of rules | broadcast 1=00 | total | refused 31 1
a layer and one byte | broadcast 2=00*9 | total | refused 31 2
a layer but one byte | broadcast 2=00*7 | total | refused 31 2
a layer but one weight | broadcast 2=00*4 | total | refused 31 2
one byte of layers | broadcast 2=00 | total | refused 31 2
a node and one byte | broadcast 3=00*13 | total | refused 31 3
a node but one byte | broadcast 3=00*11 | total | refused 31 3
one byte of nodes | broadcast 3=00 | total | refused 31 3
a leaf and one byte | broadcast 4=00*9 | total | refused 31 4
a leaf but one byte | broadcast 4=00*7 | total | refused 31 4
the weights of one end | broadcast 4=00*4 | total | refused 31 4
one byte of leaves | broadcast 4=00 | total | refused 31 4
test 31 at parts 1 to 4 | broadcast 1=00 2=00 3=00 4=00 | total | refused 31 1
test 31 at parts 2 to 4 | broadcast 2=00 3=00 4=00 | total | refused 31 2
test 31 at parts 3 and 4 | broadcast 3=00 4=00 | total | refused 31 3
test 31 at parts 1 and 4 | broadcast 1=00 4=00 | total | refused 31 1
test 31 before test 3, too few states | broadcast 0=02 4=00 | total | refused 31 4
test 31 before test 3, no node | broadcast 3=- 4=00 | total | refused 31 4
test 31 before test 5 | broadcast 0=0207 4=00 | total | refused 31 4
test 31 before test 30 | broadcast 4=00 | 0 | refused 31 4
nothing at all | broadcast 0=- 1=- 2=- 3=- 4=- | 0 | refused 3 0
no states | broadcast 0=- | total | refused 3 0
no states, one byte of rules | broadcast 0=- 1=00 | total | refused 31 1
no states, one byte of layers | broadcast 0=- 2=00 | total | refused 3 0
no states, one byte of nodes | broadcast 0=- 3=00 | total | refused 31 3
no states, one byte of leaves | broadcast 0=- 4=00 | total | refused 3 0
no states, one byte of layers and of leaves | broadcast 0=- 2=00 4=00 | total | refused 3 0
no states, one byte of layers and of rules | broadcast 0=- 1=00 2=00 | total | refused 31 1
no states, one byte of layers and of nodes | broadcast 0=- 2=00 3=00 | total | refused 31 3
no states, no nodes | broadcast 0=- 3=- | total | refused 3 0
no states, no room | broadcast 0=- | 0 | refused 3 0
1 state | broadcast 0=02 | total | refused 3 0
1 state, a layer and one byte | broadcast 0=02 2=00*5 | total | refused 31 2
1 state, a leaf but one byte | broadcast 0=02 4=00*3 | total | refused 31 4
2 states, layers of 64 | broadcast 2=00*256 | total | refused 3 2
3 states, layers of 2 | broadcast 0=020301 | total | refused 31 2
64 states, layers of 65 | broadcast 0=02*64 2=00*260 | total | refused 31 2
64 states | broadcast 0=02*64 2=00*256 4=00*256 | total | written
65 states | broadcast 0=02*65 2=00*260 4=00*260 | total | refused 3 0
65 states, layers of 64 | broadcast 0=02*65 2=00*256 | total | refused 31 2
65 states, leaves of 64 | broadcast 0=02*65 2=00*260 4=00*256 | total | refused 31 4
300 states | broadcast 0=02*300 2=00*1200 4=00*1200 | total | refused 3 0
300 states, layers of 44 | broadcast 0=02*300 2=00*176 | total | refused 31 2
65,535 states | broadcast 0=02*65535 2=00*262140 | total | refused 3 0
65,536 states | broadcast 0=02*65536 2=00*262144 | total | refused 3 0
65,536 states, a layer but one weight | broadcast 0=02*65536 2=00*262140 | total | refused 31 2
65,538 states | broadcast 0=02*65538 2=00*262152 | total | refused 3 0
65,538 states, a layer of 2 | broadcast 0=02*65538 | total | refused 31 2
65,538 states, a leaf of 2 | broadcast 0=02*65538 2=- 4=00*8 | total | refused 31 4
65,538 states, no rule, no layer | broadcast 0=02*65538 1=- 2=- | total | refused 3 0
256 rules, two of them equal | broadcast 1=0001010100*256 | total | refused 7 1
257 rules | broadcast 1=0001010100*257 | total | refused 3 1
257 rules and no layer | broadcast 1=0001010100*257 2=- | total | refused 3 1
65,537 rules | broadcast 1=0001010100*65537 | total | refused 3 1
a rule and no layer | broadcast 2=- | total | refused 3 2
a layer and no rule | broadcast 1=- | total | refused 3 2
neither rule nor layer | broadcast 1=- 2=- | total | written
16 layers, one with a rule | broadcast 2=00*128 | total | refused 8 1
17 layers | broadcast 2=00*136 | total | refused 3 2
65,537 layers | broadcast 2=00*524296 | total | refused 3 2
no node | broadcast 3=- | total | refused 3 3
2,049 nodes | broadcast 3=00*24588 | total | refused 3 3
65,537 nodes | broadcast 3=00*786444 | total | refused 3 3
128 leaves | broadcast 4=00*1024 | total | written
129 leaves | broadcast 4=00*1032 | total | refused 3 4
65,536 leaves | broadcast 4=00*524288 | total | refused 3 4
no node, 129 leaves | broadcast 3=- 4=00*1032 | total | refused 3 3
test 3 before test 5 | broadcast 0=0207 3=- | total | refused 3 3
test 3 before test 30 | broadcast 3=- | 0 | refused 3 3
bit 2 of state 0 | broadcast 0=0703 | total | refused 5 0
bit 7 of state 1 | broadcast 0=0283 | total | refused 5 1
no input | broadcast 0=0001 | total | refused 5 2
no input of 64 states | broadcast 0=01*64 2=00*256 | total | refused 5 64
test 5 before test 6 | broadcast 0=0001 1=0001010101 | total | refused 5 2
test 5 before test 30 | broadcast 0=0001 | 0 | refused 5 2
layer 1 of 1 | broadcast 1=0001010101 | total | refused 6 0
state 2 of 2 | broadcast 1=0001010200 | total | refused 6 0
test 6 before test 7 | broadcast 1=0001010100*2+0001000100 | total | refused 6 2
test 6 before test 30 | broadcast 1=0001000100 | 0 | refused 6 0
equal rules in two layers | broadcast 1=0001010100+0001010101 2=00*16 | total | refused 7 1
one pair, two outcomes | broadcast 1=0001010100+0001000000 | total | written
test 7 before test 8 | broadcast 1=0001010100*2 2=ff*8 | total | refused 7 1
test 7 before test 30 | broadcast 1=0001010100*2 | 0 | refused 7 1
weight 1,000,000 | broadcast 2=00*4+40420f00 | total | written
weight 1,000,001 | broadcast 2=00*4+41420f00 | total | refused 8 0
weight 1,000,001 in layer 1, which has no rule | broadcast 2=00*8+00*4+41420f00 | total | refused 8 1
test 8 before test 11 | broadcast 2=ff*8 4=ff7f*4 | total | refused 8 0
test 8 before test 30 | broadcast 2=ff*8 | 0 | refused 8 0
leaf weights -10,000 and 10,000 | broadcast 4=f0d81027*2 | total | written
leaf weight 10,001 at end 1 | broadcast 4=1127+0000*3 | total | refused 11 0
leaf weight 10,001 at end 2 of leaf 1 | broadcast 4=00*8+0000*3+1127 | total | refused 11 1
leaf weight -10,001 | broadcast 4=00*8+0000*2+efd8+0000 | total | refused 11 1
leaf weight -32,768 in leaf 127 | broadcast 4=00*1022+0080 | total | refused 11 127
test 11 before test 30 | broadcast 4=1127*4 | 0 | refused 11 0
test 11 before test 30, one byte too short | broadcast 4=1127*4 | total-1 | refused 11 0
states and leaves exchanged | broadcast 0=- 4=0203 | total | refused 3 0
rules and layers exchanged | broadcast 1=0100000000000000 2=0001010100 | total | refused 31 1
version 2, written to its length | fixed | total | written
version 2, much more | fixed | 100000 | written
version 2, one byte too short | fixed | total-1 | refused 30 0
version 2, no room | fixed | 0 | refused 30 0
version 2, the least docket | least_2 | 42 | written
version 2, the least docket, one byte too short | least_2 | 41 | refused 30 0
version 2, the largest docket | largest_2 | 62936 | written
version 2, the largest docket, one byte too short | largest_2 | 62935 | refused 30 0
version 0 | broadcast v=0 | total | refused 2 0
version 3 | broadcast v=3 | total | refused 2 0
version 257 | broadcast v=257 | total | refused 2 0
version 258 | fixed v=258 | total | refused 2 0
version 65,535 | broadcast v=65535 | total | refused 2 0
version 65,537 | broadcast v=65537 | total | refused 2 0
version 65,538 | fixed v=65538 | total | refused 2 0
the greatest version | broadcast v=4294967295 | total | refused 2 0
version 2 but for bit 31 | fixed v=2147483650 | total | refused 2 0
test 2 before test 31 | broadcast v=0 1=00 | total | refused 2 0
test 2 before test 3 | broadcast v=3 0=- 1=- 2=- 3=- 4=- | 0 | refused 2 0
test 2 before test 5 | broadcast v=3 0=0207 | total | refused 2 0
test 2 before test 30 | fixed v=3 | 0 | refused 2 0
version 2 for parts of version 1 | broadcast v=2 | total | refused 31 0
version 1 for parts of version 2 | fixed v=1 | total | refused 31 2
version 1, neither rule nor layer, 6 states of one byte | fixed v=1 0=020000030000 1=- 2=- | total | written
version 2, neither rule nor layer, 2 states of three bytes | fixed 0=020000030000 1=- 2=- | total | written
two states and one byte | fixed 0=020000+030700+00 | total | refused 31 0
two states and two bytes | fixed 0=020000+030700+0000 | total | refused 31 0
two states but one byte | fixed 0=020000+0307 | total | refused 31 0
one byte of states | fixed 0=02 | total | refused 31 0
two bytes of states | fixed 0=0203 | total | refused 31 0
version 2, test 31 at all parts | fixed 0=02 1=00 2=00 3=00 4=00 | total | refused 31 0
version 2, test 31 at parts 1 to 4 | fixed 1=00 2=00 3=00 4=00 | total | refused 31 1
version 2, test 31 at parts 2 to 4 | fixed 2=00 3=00 4=00 | total | refused 31 2
version 2, test 31 before test 3, no room | fixed 0=- 3=00 | 0 | refused 31 3
version 2, no states, one byte of layers and of leaves | fixed 0=- 2=00 4=00 | total | refused 3 0
version 2, part of a state, one byte of layers | fixed 0=02 2=00 | total | refused 31 0
version 2, 1 state | fixed 0=020000 | total | refused 3 0
version 2, 3 states, layers of 2 | fixed 0=020000*3 | total | refused 31 2
version 2, 2 states, layers of 6 | fixed 2=00*24 | total | refused 8 1
version 2, 64 states | fixed 0=02e803*64 2=00*256 4=00*256 | total | written
version 2, 64 states, layers of 192 | fixed 0=02e803*64 2=00*768 | total | refused 8 1
version 2, 65 states | fixed 0=020000*65 2=00*260 4=00*260 | total | refused 3 0
version 2, 65 states, layers of 64 | fixed 0=020000*65 2=00*256 | total | refused 31 2
version 2, 22 states in 66 bytes | fixed 0=02*66 2=00*88 | total | written
version 2, 65,536 states | fixed 0=020000*65536 2=00*262144 | total | refused 3 0
version 2, 65,538 states, a layer of 2 | fixed 0=020000*65538 | total | refused 31 2
version 2, 65,538 states and one byte | fixed 0=020000*65538+02 | total | refused 31 0
version 2, 21,846 states in 65,538 bytes | fixed 0=020000*21846 2=- 1=- | total | refused 3 0
version 2, 257 rules | fixed 1=0001010100*257 | total | refused 3 1
version 2, no node | fixed 3=- | total | refused 3 3
fixed numbers at the limit | fixed 0=02e803+03e803 | total | written
fixed number 1,001 in state 0 | fixed 0=02e903+030000 | total | refused 5 0
fixed number 1,001 in state 1 | fixed 0=020000+03e903 | total | refused 5 1
fixed number 1,024, its lowest byte 0 | fixed 0=020000+030004 | total | refused 5 1
fixed number 65,535 | fixed 0=02ffff+030000 | total | refused 5 0
fixed number 1,001 in state 0, a bit of state 1 | fixed 0=02e903+070000 | total | refused 5 0
a bit of state 0, fixed number 1,001 in state 1 | fixed 0=060000+03e903 | total | refused 5 0
no input, and fixed agents | fixed 0=000100+010100 | total | refused 5 2
version 2, test 5 before test 6 | fixed 0=020000+03e903 1=0001000100 | total | refused 5 1
version 2, test 6 before test 7 | fixed 1=0001010100*2+0001000100 | total | refused 6 2
version 2, test 7 before test 8 | fixed 1=0001010100*2 2=ff*8 | total | refused 7 1
version 2, test 8 before test 11 | fixed 2=ff*8 4=ff7f*4 | total | refused 8 0
version 2, test 11 before test 30 | fixed 4=1127*4 | 0 | refused 11 0
version 2, rules in order | fixed 1=0000010100+0001010100 | total | written
version 1, rules in no order | broadcast 1=0001010100+0000010100 | total | written
rules in no order by the layer | fixed 1=0000010101+0001010100 2=00*16 | total | refused 14 1
rules in no order by p | fixed 1=0101000000+0001010100 | total | refused 14 1
rules in no order by q | fixed 1=0001010100+0000010100 | total | refused 14 1
rules in no order by p' | fixed 1=0001010100+0001000000 | total | refused 14 1
rules in no order by q' | fixed 1=0101000100+0101000000 | total | refused 14 1
rules in order by the layer before p | fixed 1=0101000000+0001010101 2=00*16 | total | written
rules in order by p | fixed 1=0001010100+0101000000 | total | written
rules in order by q before p' | fixed 1=0000010100+0001000000 | total | written
rules in order by q' | fixed 1=0101000000+0101000100 | total | written
the last of three rules in no order | fixed 1=0000010100+0001010100+0000000100 | total | refused 14 2
the second of three rules in no order | fixed 1=0001010100+0000010100+0101000000 | total | refused 14 1
equal rules, side by side in two layers, version 2 | fixed 1=0001010100+0001010101 2=00*16 | total | refused 7 1
equal rules, side by side in falling layers, version 2 | fixed 1=0001010101+0001010100 2=00*16 | total | refused 7 1
test 2 before test 14 | fixed v=3 1=0001010100+0000010100 | total | refused 2 0
test 31 before test 14 | fixed 1=0001010100+0000010100 4=00 | total | refused 31 4
test 3 before test 14 | fixed 1=0001010100+0000010100 3=- | total | refused 3 3
test 5 before test 14 | fixed 0=020000+03e903 1=0001010100+0000010100 | total | refused 5 1
test 6 before test 14, at a later rule | fixed 1=0001010100+0000010100+0001000100 | total | refused 6 2
test 6 before test 14, at an earlier rule | fixed 1=0001000100+0001010100+0000010100 | total | refused 6 0
test 7 before test 14, at a later rule | fixed 1=0001010100+0000010100+0001010100 | total | refused 7 2
test 7 before test 14, at an earlier rule | fixed 1=0001010100+0001010101+0000010100 2=00*16 | total | refused 7 1
test 14 before test 8 | fixed 1=0001010100+0000010100 2=ff*8 | total | refused 14 1
test 14 before test 8, a layer without a rule | fixed 1=0001010100+0000010100 2=00*16 | total | refused 14 1
test 14 before test 11 | fixed 1=0001010100+0000010100 4=1127*4 | total | refused 14 1
test 14 before test 30 | fixed 1=0001010100+0000010100 | 0 | refused 14 1
test 14 before test 30, one byte too short | fixed 1=0001010100+0000010100 | total-1 | refused 14 1
version 2, nodes of any bytes | fixed 3=ff*60 | total | written
";

/// What the output holds before a call: bytes that change from place to place.
pub fn old_bytes(room: usize) -> Vec<u8> {
    (0..room).map(|at| (at * 89 + 170) as u8).collect()
}

/// Lends the parts, and an output that holds old bytes, to both implementations, and tells them a version. Hands back
/// what they say and leave there, or what is wrong with it.
pub fn write_both(version: u32, parts: [&[u8]; 5], old: &[u8]) -> Result<(Said, Vec<u8>), String> {
    let before = parts.map(<[u8]>::to_vec);
    let (mut output, mut other) = (old.to_vec(), old.to_vec());
    let said = native::write(version, parts, &mut output);
    let second = calls::write(version, parts, &mut other);
    if said != second {
        return Err(format!("{said:?}, second implementation: {second:?}"));
    }
    if output != other {
        return Err(format!("other bytes: {}", first_difference(&output, &other)));
    }
    if slices(&before) != parts {
        return Err("a part is changed".into());
    }
    match written_problem(version, parts, old, &said, &output) {
        Some(problem) => Err(problem),
        None => Ok((said, output)),
    }
}

/// What is wrong with an output that both implementations leave: a refusal writes nothing; else what is written has the
/// version and the parts, it passes tests 1 to 8 and 11, and what follows it stays.
fn written_problem(version: u32, parts: [&[u8]; 5], old: &[u8], said: &Said, output: &[u8]) -> Option<String> {
    let total = if said.code == 0 { total(&parts) } else { 0 };
    if output[total..] != old[total..] {
        return Some(format!("{said:?}, and bytes from {total} on are changed"));
    }
    if said.code != 0 {
        return None;
    }
    let docket = &output[..total];
    if said.answers[0] != total as u64 || second::sections(docket) != Ok((version, parts)) {
        return Some(format!("{said:?}, and another version or other parts are written"));
    }
    let number = (native::check(docket) / 65_536) as u32;
    let fails = is_of_tests_1_to_8(number) || number == 11 || refusal_of(docket).is_some();
    fails.then(|| format!("written, and then refused: {}", second::line(docket)))
}

/// The first refusal of tests 1 to 8, with 14 among them, and 11.
fn refusal_of(docket: &[u8]) -> Option<Refusal> {
    let parsed = match second::parse(docket) {
        Ok(parsed) => parsed,
        Err(refusal) => return Some(refusal),
    };
    let outside = |weight: &i64| weight.abs() > 10_000;
    let place = parsed
        .leaves
        .iter()
        .position(|leaf| leaf.y1.iter().chain(&leaf.y2).any(outside))?;
    Some(Refusal {
        number: 11,
        place: place as u32,
    })
}

/// Writes a docket's own parts: its bytes again where it passes tests 1 to 8 and 11, else their refusal. Hands back
/// whether it was written, or what is wrong. A docket that fails tests 1 to 4 has no parts.
pub fn write_again(docket: &[u8]) -> Result<bool, String> {
    let Ok((version, parts)) = second::sections(docket) else {
        return Ok(false);
    };
    let (said, output) = write_both(version, parts, &old_bytes(docket.len() + 9))?;
    let refusal = refusal_of(docket);
    if said.refusal() != refusal {
        return Err(format!("{:?}, and the docket: {refusal:?}", said.refusal()));
    }
    let written = refusal.is_none();
    if written && !output.starts_with(docket) {
        return Err(format!("other bytes: {}", first_difference(&output, docket)));
    }
    Ok(written)
}

/// What two lists hold at the first place where they differ.
pub fn first_difference<T: Debug + PartialEq>(one: &[T], other: &[T]) -> String {
    let at = one.iter().zip(other).position(|(a, b)| a != b).unwrap_or(0);
    format!("{:?} and {:?} at {at}", one.get(at), other.get(at))
}

/// A version, parts and a length of the output, as the cases of the corpus have them.
pub fn text(version: u32, parts: [&[u8]; 5], room: usize) -> String {
    let part = |bytes: &[u8]| if bytes.is_empty() { "-".into() } else { hex(bytes) };
    format!("{version} {} {room}", parts.map(part).join(" "))
}

/// The names of the samples, and what is wrong with each.
pub fn samples() -> Vec<(&'static str, Option<String>)> {
    let sample = |line: &'static str| {
        let fields: Vec<&str> = line.split(" | ").collect();
        let [name, parts, room, said] = fields[..] else {
            panic!("not four fields: {line}");
        };
        (name, sample_problem(parts, room, said))
    };
    SAMPLES.lines().map(sample).collect()
}

fn sample_problem(parts: &str, room: &str, expected: &str) -> Option<String> {
    let (version, parts) = sample_parts(parts);
    let parts = slices(&parts);
    let room = match room {
        "total-1" => total(&parts) - 1,
        "total" => total(&parts),
        "total+1" => total(&parts) + 1,
        number => number.parse().expect("a length"),
    };
    let said = match write_both(version, parts, &old_bytes(room)) {
        Ok((said, _)) => said.refusal().map_or("written".into(), refused),
        Err(problem) => problem,
    };
    (said != expected).then(|| format!("expected {expected}, got {said}"))
}

fn refused(refusal: Refusal) -> String {
    format!("refused {} {}", refusal.number, refusal.place)
}

fn sample_parts(text: &str) -> (u32, Parts) {
    let mut words = text.split(' ');
    let docket = match words.next() {
        Some("broadcast") => make::broadcast(),
        Some("least") => make::still(2),
        Some("largest") => make::largest(),
        Some("fixed") => fixed::broadcast(true, 7),
        Some("least_2") => fixed::with_fixed(make::still(2), &[]),
        Some("largest_2") => fixed::largest(),
        _ => panic!("not a docket: {text}"),
    };
    let bytes = docket.bytes();
    let (mut version, sections) = second::sections(&bytes).expect("its sections");
    let mut parts = sections.map(<[u8]>::to_vec);
    for word in words {
        let (place, part) = word.split_once('=').expect("a part or a version");
        match place {
            "v" => version = part.parse().expect("a version"),
            place => parts[place.parse::<usize>().expect("its number")] = part.split('+').flat_map(repeated).collect(),
        }
    }
    (version, parts)
}

fn repeated(text: &str) -> Vec<u8> {
    let (bytes, times) = text.split_once('*').unwrap_or((text, "1"));
    from_hex(bytes).repeat(times.parse().expect("how often"))
}

/// The bytes of a text of two digits each; `-` is none.
pub fn from_hex(text: &str) -> Vec<u8> {
    let digits = text.trim_matches('-').as_bytes();
    let byte = |pair: &[u8]| u8::from_str_radix(&String::from_utf8_lossy(pair), 16).expect("a byte");
    digits.chunks(2).map(byte).collect()
}

/// What is wrong with a case of the corpus: a version, five parts and the length of an output filled with the byte aa,
/// `->`, and the total with the whole output afterwards, or the refusal.
pub fn case_problem(case: &str) -> Option<String> {
    let (input, expected) = case.split_once(" -> ").expect("what is said");
    let words: Vec<&str> = input.split(' ').collect();
    let [version, states, rules, layers, nodes, leaves, room] = words[..] else {
        panic!("not a version, five parts and a length: {case}");
    };
    let version = version.parse().expect("a version");
    let parts: Parts = [states, rules, layers, nodes, leaves].map(from_hex);
    let old = vec![0xaa; room.parse().expect("a length")];
    let said = match write_both(version, slices(&parts), &old) {
        Ok((said, output)) => match said.refusal() {
            Some(refusal) => refused(refusal),
            None => format!("{} {}", said.answers[0], hex(&output)),
        },
        Err(problem) => problem,
    };
    (said != expected).then(|| format!("expected {expected}, got {said}"))
}
