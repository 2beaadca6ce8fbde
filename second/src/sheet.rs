//! The claim sheet: what a docket's protocol decides, test 15 on the bytes of the sheet, and its two trees.

use crate::docket::{check, ends, node_bytes, parse, read_node, read_signed, refuse, u16_at, Docket, Node, Refusal};
use crate::tree::{walk, wide, Tree, Weights, LEAF_WEIGHTS};

/// The length of the header.
const HEADER: usize = 16;

/// The greatest multiplier of a leaf.
const GREATEST_MULTIPLIER: i64 = 10_000;

/// What an accepted sheet claims: every terminal configuration that a start reaches has output 1 if the sum over the
/// states of number times count in the start is at least the limit, and output 0 otherwise.
#[derive(Clone, Debug, PartialEq, Eq)]
pub struct Claim {
    pub numbers: Vec<i64>,
    pub limit: i64,
}

/// A leaf of a sheet: a weight for each state, and the multiplier.
#[derive(Clone, Debug, PartialEq, Eq)]
pub struct SheetLeaf {
    pub weights: Vec<i64>,
    pub multiplier: i64,
}

/// A claim sheet. The first tree assumes a sum of at least the limit and an end that holds a state of output 0, the
/// second a lesser sum and an end that holds a state of output 1.
#[derive(Clone, Debug, PartialEq, Eq)]
pub struct Sheet {
    pub numbers: Vec<i64>,
    pub limit: i64,
    pub first: Vec<Node>,
    pub second: Vec<Node>,
    pub leaves: Vec<SheetLeaf>,
}

/// The whole check of the docket, then test 15 on the sheet, then tests 12 and 13 on its first tree and on its second.
pub fn check_sheet(docket: &[u8], sheet: &[u8]) -> Result<Claim, Refusal> {
    check(docket)?;
    let docket = parse(docket)?;
    let sheet = parse_sheet(&docket, sheet)?;
    walk(&sheet.first_tree(&docket))?;
    walk(&sheet.second_tree(&docket)).map_err(|refusal| Refusal {
        place: sheet.first.len() as u32 + refusal.place,
        ..refusal
    })?;
    let Sheet { numbers, limit, .. } = sheet;
    Ok(Claim { numbers, limit })
}

/// What is said to the standard input of the program `decides`: a 16-bit number, missing bytes of which are 0, so many
/// bytes of a docket, and the sheet behind them.
pub fn decides(input: &[u8]) -> Result<Claim, Refusal> {
    let byte = |at: usize| input.get(at).copied().unwrap_or(0);
    let length = usize::from(u16::from_le_bytes([byte(0), byte(1)]));
    let rest = input.get(2..).unwrap_or(&[]);
    let (docket, sheet) = rest.split_at(rest.len().min(length));
    check_sheet(docket, sheet)
}

/// The line that the program `decides` prints.
pub fn decides_line(said: &Result<Claim, Refusal>) -> String {
    match said {
        Ok(claim) => {
            let numbers = claim.numbers.iter().chain([&claim.limit]);
            let numbers: Vec<String> = numbers.map(|number| number.to_string()).collect();
            format!("accepted {}\n", numbers.join(" "))
        }
        Err(refusal) => refusal.line(),
    }
}

/// Test 15 on a sheet for this docket. Nodes are read and not tested.
pub fn parse_sheet(docket: &Docket, sheet: &[u8]) -> Result<Sheet, Refusal> {
    let Some(sections) = sections(docket.states.len(), sheet) else {
        return refuse(15, 0);
    };
    let sheet = read(docket.states.len(), sections);
    if !numbers_hold(docket, &sheet) || !sheet.leaves.iter().all(leaf_holds) {
        return refuse(15, 0);
    }
    Ok(sheet)
}

/// The bytes of the numbers, of the nodes of each tree, and of the leaves; none if a length, a count or an offset breaks
/// its rule.
fn sections(states: usize, sheet: &[u8]) -> Option<[&[u8]; 4]> {
    if sheet.len() < HEADER || u16_at(sheet, 14) != sheet.len() {
        return None;
    }
    let [own_states, first, second, leaves] = std::array::from_fn(|i| u16_at(sheet, 2 * i));
    let nodes = 1..=1024;
    if own_states != states || !nodes.contains(&first) || !nodes.contains(&second) || leaves > 128 {
        return None;
    }
    let ends = ends(HEADER, &lengths(states, [first, second, leaves]));
    let offsets: [usize; 4] = std::array::from_fn(|i| u16_at(sheet, 8 + 2 * i));
    if offsets != [ends[0], ends[1], ends[3], ends[4]] {
        return None;
    }
    Some(std::array::from_fn(|i| &sheet[ends[i]..ends[i + 1]]))
}

/// The lengths of the numbers, of the nodes of each tree and of the leaves, for these counts of nodes and leaves.
fn lengths(states: usize, [first, second, leaves]: [usize; 3]) -> [usize; 4] {
    [2 * states + 4, 12 * first, 12 * second, leaf_length(states) * leaves]
}

fn leaf_length(states: usize) -> usize {
    2 * states + 2
}

fn read(states: usize, [numbers, first, second, leaves]: [&[u8]; 4]) -> Sheet {
    let (numbers, limit) = numbers.split_at(2 * states);
    Sheet {
        numbers: read_signed(numbers),
        limit: i64::from(i32::from_le_bytes(std::array::from_fn(|i| limit[i]))),
        first: first.chunks(12).map(read_node).collect(),
        second: second.chunks(12).map(read_node).collect(),
        leaves: leaves.chunks(leaf_length(states)).map(read_leaf).collect(),
    }
}

fn read_leaf(record: &[u8]) -> SheetLeaf {
    let (weights, multiplier) = record.split_at(record.len() - 2);
    SheetLeaf {
        weights: read_signed(weights),
        multiplier: u16_at(multiplier, 0) as i64,
    }
}

/// Whether the number of each state that is no input is 0.
fn numbers_hold(docket: &Docket, sheet: &Sheet) -> bool {
    let mut states = docket.states.iter().zip(&sheet.numbers);
    states.all(|(state, &number)| state.input || number == 0)
}

fn leaf_holds(leaf: &SheetLeaf) -> bool {
    leaf.multiplier <= GREATEST_MULTIPLIER && leaf.weights.iter().all(|weight| LEAF_WEIGHTS.contains(weight))
}

impl Sheet {
    /// The first tree assumes a sum of at least c: k times the sum less c joins the right side of the leaf rule.
    fn first_tree<'a>(&'a self, docket: &'a Docket) -> Tree<'a> {
        let weights = |leaf| self.weights(leaf, 1, -i128::from(self.limit));
        self.tree(docket, &self.first, &[0], weights)
    }

    /// The second tree assumes a sum of at most c - 1: k times c - 1 less the sum joins the right side of the leaf rule.
    fn second_tree<'a>(&'a self, docket: &'a Docket) -> Tree<'a> {
        let weights = |leaf| self.weights(leaf, -1, i128::from(self.limit) - 1);
        self.tree(docket, &self.second, &[1], weights)
    }

    fn tree<'a>(
        &'a self,
        docket: &'a Docket,
        nodes: &'a [Node],
        assumed: &'a [u8],
        weights: impl Fn(&'a SheetLeaf) -> Weights,
    ) -> Tree<'a> {
        Tree {
            docket,
            nodes,
            assumed,
            leaves: self.leaves.iter().map(weights).collect(),
            remainders: false,
        }
    }

    /// The weights of a leaf: at the start of state i, y[i] and k times its number with this sign; the upper sum begins
    /// with k times the bound.
    fn weights(&self, leaf: &SheetLeaf, sign: i128, bound: i128) -> Weights {
        let (y, k) = (wide(&leaf.weights), i128::from(leaf.multiplier));
        let numbers = wide(&self.numbers);
        let start = y.iter().zip(numbers).map(|(y, a)| y + sign * k * a).collect();
        Weights {
            ends: vec![y],
            start,
            upper: k * bound,
        }
    }

    /// The file of this sheet. Counts and offsets follow from the vectors. Nothing is tested, and each number is cut to
    /// its width in the file.
    pub fn to_bytes(&self) -> Vec<u8> {
        let states = self.numbers.len();
        let counts = [self.first.len(), self.second.len(), self.leaves.len()];
        let ends = ends(HEADER, &lengths(states, counts));
        let header = [&[states], &counts[..], &[ends[0], ends[1], ends[3], ends[4]]].concat();
        let mut bytes: Vec<u8> = header.iter().flat_map(|&number| cut(number as i64)).collect();
        bytes.extend(self.numbers.iter().flat_map(|&number| cut(number)));
        bytes.extend((self.limit as i32).to_le_bytes());
        bytes.extend(self.first.iter().chain(&self.second).flat_map(node_bytes));
        for leaf in &self.leaves {
            let record = leaf.weights.iter().chain([&leaf.multiplier]);
            bytes.extend(record.flat_map(|&number| cut(number)));
        }
        bytes
    }
}

/// The low 16 bits of a number.
fn cut(number: i64) -> [u8; 2] {
    (number as u16).to_le_bytes()
}

#[cfg(test)]
mod tests {
    use super::*;
    use crate::docket::samples::*;

    /// A sheet from its numbers, its limit, its two trees, and the weights and the multiplier of each leaf.
    fn sheet(numbers: &[i64], limit: i64, first: &str, second: &str, leaves: &[(&[i64], i64)]) -> Sheet {
        let leaf = |&(weights, multiplier): &(&[i64], i64)| SheetLeaf {
            weights: weights.to_vec(),
            multiplier,
        };
        Sheet {
            numbers: numbers.to_vec(),
            limit,
            first: nodes(first),
            second: nodes(second),
            leaves: leaves.iter().map(leaf).collect(),
        }
    }

    fn said(docket: &Docket, sheet: &[u8]) -> String {
        let line = decides_line(&check_sheet(&docket.bytes(), sheet));
        line.strip_suffix('\n').expect("a line").to_string()
    }

    fn says(docket: &Docket, sheet: &Sheet, expected: &str) {
        assert_eq!(said(docket, &sheet.to_bytes()), expected, "{sheet:?}");
    }

    const FIRST: &str = "3 1 0 0; 1 1 0 0; 5 1 0 2; 0 0 0 0";
    const SECOND: &str = "4 0 1 0; 6 1 0 2; 1 1 0 0; 0 0 0 0";

    /// Broadcast decides whether state 1 holds an agent at the start.
    fn broadcast_sheet() -> Sheet {
        sheet(&[0, 1], 1, FIRST, SECOND, &[(&[0, 0], 1)])
    }

    /// An accepted docket of the examples.
    fn example(name: &str) -> Docket {
        let path = format!("{}/../examples/{name}.docket", env!("CARGO_MANIFEST_DIR"));
        parse(&std::fs::read(path).expect(name)).expect("a docket")
    }

    fn majority_sheet() -> Sheet {
        let end_without_a = "4 1 2 0; 1 1 0 0; 3 1 2 0; 3 1 3 0; 2 1 2 0; 5 1 0 11; 6 1 0 15; 2 1 2 0; 2 1 2 0";
        let first = format!("4 1 0 0; {end_without_a}; 3 1 0 0; 2 1 0 0; 0 0 0 0");
        let second = "4 1 1 0; 4 1 3 0; 1 1 0 0; 3 1 1 0; 0 0 1 0; 2 1 3 0; 3 1 0 0; 0 0 1 0; 2 1 1 0";
        let leaves: [(&[i64], i64); 2] = [(&[1, -1, 0, 0], 1), (&[-1, 1, 0, 0], 1)];
        sheet(&[-1, 1, 0, 0], 0, &first, second, &leaves)
    }

    /// Quorum counts up to two agents of state 0 with its one fixed agent.
    fn quorum_sheet() -> Sheet {
        let not_full = "3 1 0 0; 0 0 0 0; 3 1 1 0; 0 0 0 0; 5 1 0 28; 2 0 2 0";
        let full = "3 1 2 0; 4 1 2 0; 4 1 3 0; 1 1 0 0; 0 0 1 0; 0 0 1 0; 2 1 4 0";
        let never_full = "5 1 0 16; 6 1 0 32; 3 1 0 0; 1 1 0 0; 3 1 1 0; 1 1 0 0; 5 1 0 28; 2 0 2 0";
        let first = format!("4 1 4 0; {not_full}; {full}");
        let second = format!("4 1 4 0; {never_full}; 0 0 2 0");
        let leaves: [(&[i64], i64); 3] = [
            (&[-1, 0, 1, 0, -1, 0], 1),
            (&[0, 0, 1, 1, 1, 0], 0),
            (&[1, 0, 0, 1, 2, 0], 1),
        ];
        sheet(&[1, 0, 0, 0, 0, 0], 2, &first, &second, &leaves)
    }

    /// A protocol with no rule whose states have the output 1.
    fn still(states: &str) -> Docket {
        docket(states, "", "", "1 1 0 0")
    }

    /// The same with the output 0.
    fn still_0(states: &str) -> Docket {
        docket(states, "", "", "1 2 0 0")
    }

    #[test]
    fn bytes_of_a_sheet() {
        let bytes = broadcast_sheet().to_bytes();
        let header: Vec<usize> = (0..8).map(|i| u16_at(&bytes, 2 * i)).collect();
        assert_eq!(header, [2, 4, 4, 1, 16, 24, 120, 126]);
        assert_eq!(bytes[16..24], [0, 0, 1, 0, 1, 0, 0, 0]);
        assert_eq!(bytes[48..60], [5, 1, 0, 0, 2, 0, 0, 0, 0, 0, 0, 0]);
        assert_eq!(bytes[72..84], [4, 0, 1, 0, 0, 0, 0, 0, 0, 0, 0, 0]);
        assert_eq!(bytes[120..], [0, 0, 0, 0, 1, 0]);
        let signs = sheet(&[-2, 258], -3, FIRST, SECOND, &[(&[-1, 256], 257), (&[0, 0], 0)]).to_bytes();
        assert_eq!(signs[16..24], [0xfe, 0xff, 2, 1, 0xfd, 0xff, 0xff, 0xff]);
        assert_eq!(signs[120..], [0xff, 0xff, 0, 1, 1, 1, 0, 0, 0, 0, 0, 0]);
    }

    #[test]
    fn to_bytes_is_the_inverse_of_parse_sheet() {
        let extreme = Sheet {
            numbers: vec![-32_768, 32_767],
            limit: -2_147_483_648,
            leaves: vec![
                SheetLeaf {
                    weights: vec![-10_000, 10_000],
                    multiplier: 10_000,
                };
                128
            ],
            ..broadcast_sheet()
        };
        for (docket, sheet) in [
            (broadcast(TREE), extreme),
            (broadcast(TREE), broadcast_sheet()),
            (example("quorum"), quorum_sheet()),
        ] {
            assert_eq!(parse_sheet(&docket, &sheet.to_bytes()), Ok(sheet));
        }
    }

    /// Broadcast, majority and quorum, each with limits around the one that they decide.
    #[test]
    fn claims_of_protocols() {
        for (docket, sheet, accepted, lesser, greater) in [
            (
                broadcast(TREE),
                broadcast_sheet(),
                "accepted 0 1 1",
                "refused 13 3",
                "refused 13 7",
            ),
            (
                example("majority"),
                majority_sheet(),
                "accepted -1 1 0 0 0",
                "refused 13 12",
                "refused 13 17",
            ),
            (
                example("quorum"),
                quorum_sheet(),
                "accepted 1 0 0 0 0 0 2",
                "refused 13 2",
                "refused 13 23",
            ),
        ] {
            let with = |limit: i64| Sheet { limit, ..sheet.clone() };
            says(&docket, &sheet, accepted);
            says(&docket, &with(sheet.limit - 1), lesser);
            says(&docket, &with(sheet.limit + 1), greater);
        }
    }

    /// Leaves that fit one claim do not fit the claim with numbers of the other sign, or with doubled ones.
    #[test]
    fn other_numbers() {
        for numbers in [[1, -1, 0, 0], [-2, 2, 0, 0]] {
            let other = Sheet {
                numbers: numbers.to_vec(),
                ..majority_sheet()
            };
            says(&example("majority"), &other, "refused 13 12");
        }
        let mut doubled = majority_sheet();
        doubled.numbers = vec![-2, 2, 0, 0];
        for leaf in &mut doubled.leaves {
            leaf.weights.iter_mut().for_each(|weight| *weight *= 2);
        }
        says(&example("majority"), &doubled, "accepted -2 2 0 0 0");
        doubled.limit = -1;
        says(&example("majority"), &doubled, "accepted -2 2 0 0 -1");
        doubled.limit = -2;
        says(&example("majority"), &doubled, "refused 13 12");
    }

    /// Each byte of the header has one right value.
    #[test]
    fn header_bytes() {
        for at in 0..HEADER {
            for change in [1, 2, 16, 128, 255] {
                let mut bytes = broadcast_sheet().to_bytes();
                bytes[at] ^= change;
                assert_eq!(said(&broadcast(TREE), &bytes), "refused 15 0", "byte {at}, {change}");
            }
        }
    }

    #[test]
    fn lengths_of_a_sheet() {
        let bytes = broadcast_sheet().to_bytes();
        for length in 0..bytes.len() {
            let mut cut = bytes[..length].to_vec();
            assert_eq!(said(&broadcast(TREE), &cut), "refused 15 0", "{length} bytes");
            if length >= HEADER {
                cut[14] = length as u8;
                assert_eq!(said(&broadcast(TREE), &cut), "refused 15 0", "{length} bytes");
            }
        }
        let mut longer = [&bytes[..], &[0]].concat();
        assert_eq!(said(&broadcast(TREE), &longer), "refused 15 0");
        longer[14] += 1;
        assert_eq!(said(&broadcast(TREE), &longer), "refused 15 0");
        longer.resize(65_536 + 126, 0);
        longer[14] -= 1;
        assert_eq!(said(&broadcast(TREE), &longer), "refused 15 0");
    }

    /// All sections are moved by one byte, or from the nodes or from the leaves on, with the length that follows.
    #[test]
    fn gaps() {
        let bytes = broadcast_sheet().to_bytes();
        for (gap, first) in [(16, 8), (24, 10), (120, 12), (126, 14)] {
            let mut moved = [&bytes[..gap], &[0], &bytes[gap..]].concat();
            for at in (first..16).step_by(2) {
                moved[at] += 1;
            }
            assert_eq!(said(&broadcast(TREE), &moved), "refused 15 0", "at {gap}");
        }
    }

    /// A sheet with as many numbers as its header says, but for another protocol.
    #[test]
    fn states_of_another_docket() {
        let three = Sheet {
            numbers: vec![0, 1, 0],
            leaves: vec![],
            ..broadcast_sheet()
        };
        says(&broadcast(TREE), &three, "refused 15 0");
        says(&example("quorum"), &majority_sheet(), "refused 15 0");
        says(&example("majority"), &quorum_sheet(), "refused 15 0");
    }

    /// A tree of this depth whose inner nodes split on state 0 of the start.
    fn splits(depth: usize, last: &str) -> String {
        match depth {
            1 => last.to_string(),
            _ => ["4 0 0 0", &splits(depth - 1, last), &splits(depth - 1, last)].join("; "),
        }
    }

    /// Trees of 1,023 nodes have a chain before them.
    #[test]
    fn counts_of_nodes() {
        let docket = still("3 1");
        let with = |first: &str, second: &str| sheet(&[0, 0], 0, first, second, &[(&[0, 0], 1)]);
        let great = |length: usize, last: &str| "6 1 0 2; ".repeat(length) + &splits(10, last);
        for (before, line) in [(0, "accepted 0 0 0"), (1, "accepted 0 0 0"), (2, "refused 15 0")] {
            says(&docket, &with(&great(before, "1 1 0 0"), "0 0 0 0"), line);
            says(&docket, &with("1 1 0 0", &great(before, "0 0 0 0")), line);
        }
        let both = with(&great(1, "1 1 0 0"), &great(1, "0 0 0 0"));
        assert_eq!([both.first.len(), both.second.len()], [1024, 1024]);
        says(&docket, &both, "accepted 0 0 0");
        says(&docket, &with("", "0 0 0 0"), "refused 15 0");
        says(&docket, &with("1 1 0 0", ""), "refused 15 0");
    }

    #[test]
    fn counts_of_leaves() {
        let with = |leaves: usize, named: usize| {
            let second = format!("0 0 {named} 0");
            let mut sheet = sheet(&[0, 0], 0, "1 1 0 0", &second, &vec![(&[0, 0][..], 0); leaves]);
            if let Some(leaf) = sheet.leaves.get_mut(named) {
                leaf.multiplier = 1;
            }
            sheet
        };
        says(&still("3 3"), &with(0, 0), "refused 12 1");
        says(&still("3 3"), &with(1, 0), "accepted 0 0 0");
        says(&still("3 3"), &with(1, 1), "refused 12 1");
        says(&still("3 3"), &with(128, 127), "accepted 0 0 0");
        says(&still("3 3"), &with(128, 128), "refused 12 1");
        says(&still("3 3"), &with(129, 0), "refused 15 0");
        says(&still("3 3"), &with(129, 128), "refused 15 0");
    }

    /// A node names a leaf of the sheet, and not one of the docket.
    #[test]
    fn leaves_of_the_docket() {
        let docket = example("majority");
        assert_eq!(docket.leaves.len(), 1);
        let mut sheet = majority_sheet();
        sheet.leaves.clear();
        says(&docket, &sheet, "refused 12 12");
    }

    /// The number of a state that is no input is 0, also where it has fixed agents.
    #[test]
    fn numbers_of_inputs() {
        let with = |numbers: &[i64]| sheet(numbers, -2_147_483_648, "1 1 0 0", "0 0 0 0", &[(&[0, 0, 0], 0)]);
        for docket in [still("1 3 1"), with_fixed(still("1 3 1"), [0, 1, 1])] {
            for number in [-32_768, -1, 0, 1, 256, 32_767] {
                let line = if number == 0 { "refused 13 1" } else { "refused 15 0" };
                says(&docket, &with(&[number, 0, 0]), line);
                says(&docket, &with(&[0, 0, number]), line);
                says(&docket, &with(&[0, number, 0]), "refused 13 1");
            }
        }
    }

    /// The second leaf, which no node names, has the same limits as the first.
    #[test]
    fn limits_of_leaves() {
        let with = |leaf: usize, weights: [i64; 2], multiplier: i64| {
            let mut sheet = broadcast_sheet();
            sheet.leaves.push(sheet.leaves[0].clone());
            sheet.leaves[leaf].weights = weights.to_vec();
            sheet.leaves[leaf].multiplier = multiplier;
            sheet
        };
        let docket = broadcast(TREE);
        for weight in [-32_768, -10_001, 10_001, 32_767] {
            for leaf in [0, 1] {
                says(&docket, &with(leaf, [weight, 0], 1), "refused 15 0");
                says(&docket, &with(leaf, [0, weight], 1), "refused 15 0");
            }
        }
        for multiplier in [10_001, 32_767, 32_768, 55_536, 65_535] {
            says(&docket, &with(0, [0, 0], multiplier), "refused 15 0");
            says(&docket, &with(1, [0, 0], multiplier), "refused 15 0");
        }
        for (weights, multiplier) in [([-10_000, 10_000], 10_000), ([10_000, -10_000], 0)] {
            says(&docket, &with(1, weights, multiplier), "accepted 0 1 1");
        }
        says(&docket, &with(0, [0, 0], 10_000), "accepted 0 1 1");
        says(&docket, &with(0, [10_000, 0], 1), "refused 13 3");
    }

    /// The docket is checked first, then the bytes of the sheet, then the first tree, then the second.
    #[test]
    fn order_of_refusals() {
        let mut bad = broadcast_sheet();
        bad.leaves[0].multiplier = 10_001;
        for (docket, line) in [
            (docket("2 3", "0 1 1 1 0", "0 0", TREE), "refused 9 0"),
            (broadcast("3 1 0 0; 1 1 0 0; 5 1 0 2; 6 2 0 2"), "refused 12 4"),
            (broadcast("1 2 0 0"), "refused 13 0"),
            (with_fixed(exchanged(), [0; 4]), "refused 14 2"),
            (broadcast(TREE), "refused 15 0"),
        ] {
            says(&docket, &bad, line);
            assert_eq!(said(&docket, &[]), line);
        }
        let cut = &broadcast(TREE).bytes()[..98];
        assert_eq!(check_sheet(cut, &broadcast_sheet().to_bytes()), refuse(1, 0));
        let trees = |first: &str, second: &str| sheet(&[0, 1], 1, first, second, &[(&[0, 0], 1)]);
        says(&broadcast(TREE), &trees("1 1 0 0", "9 9 9 9"), "refused 13 0");
        says(&broadcast(TREE), &trees("9 9 9 9", "1 1 0 0"), "refused 12 0");
        says(&broadcast(TREE), &trees(FIRST, "1 1 0 0"), "refused 13 4");
        bad.first = nodes("9 9 9 9");
        says(&broadcast(TREE), &bad, "refused 15 0");
    }

    /// Nodes that run out, in the first tree also where the second begins with what is missing, and nodes left over.
    #[test]
    fn places_of_both_trees() {
        let trees = |first: &str, second: &str| sheet(&[0, 1], 1, first, second, &[(&[0, 0], 1)]);
        for (first, second, line) in [
            ("3 1 0 0; 1 1 0 0; 5 1 0 2", SECOND, "refused 12 3"),
            ("3 1 0 0; 1 1 0 0; 5 1 0 2", "0 0 0 0; 4 0 1 0", "refused 12 3"),
            ("3 1 0 0", SECOND, "refused 12 1"),
            (FIRST, "4 0 1 0; 6 1 0 2; 1 1 0 0", "refused 12 7"),
            (FIRST, "4 0 1 0", "refused 12 5"),
            ("3 1 0 0; 1 1 0 0; 5 1 0 2; 0 0 0 0; 9 9 9 9", SECOND, "refused 12 4"),
            (
                "3 1 0 0; 1 1 0 0; 5 1 0 2; 0 0 0 0; 0 0 0 0; 0 0 0 0",
                SECOND,
                "refused 12 4",
            ),
            (FIRST, "4 0 1 0; 6 1 0 2; 1 1 0 0; 0 0 0 0; 9 9 9 9", "refused 12 8"),
            (
                FIRST,
                "4 0 1 0; 6 1 0 2; 1 1 0 0; 0 0 0 0; 0 0 0 0; 0 0 0 0",
                "refused 12 8",
            ),
            (FIRST, "4 0 1 0; 6 1 0 2; 9 1 0 0; 0 0 0 0", "refused 12 6"),
            (FIRST, "4 0 1 0; 6 1 0 1; 1 1 0 0; 0 0 0 0", "refused 13 5"),
            (SECOND, SECOND, "refused 13 2"),
            (FIRST, FIRST, "refused 13 5"),
            (SECOND, FIRST, "refused 13 2"),
        ] {
            says(&broadcast(TREE), &trees(first, second), line);
        }
    }

    #[test]
    fn depth_40_in_each_tree() {
        let docket = docket("3 3", "0 0 0 1 0", "1 0", "1 1 0 0");
        let chain = |length: usize, last: &str| "3 1 0 0; ".repeat(length) + last;
        let trees = |first: usize, second: usize| {
            let (first, second) = (chain(first, "1 1 0 0"), chain(second, "0 0 0 0"));
            sheet(&[0, 0], 0, &first, &second, &[(&[0, 0], 1)])
        };
        says(&docket, &trees(39, 39), "accepted 0 0 0");
        says(&docket, &trees(40, 39), "refused 12 40");
        says(&docket, &trees(39, 40), "refused 12 80");
        says(&docket, &trees(0, 40), "refused 12 41");
        let mut cut = trees(39, 40);
        cut.second.truncate(30);
        says(&docket, &cut, "refused 12 70");
    }

    /// Whether these fields are good at the root of each tree of a sheet for broadcast, which has one leaf. Where they
    /// are, the ground may still fail, or nodes run out.
    fn fields(node: &str) -> [bool; 2] {
        let (first, second) = (nodes(node), nodes(node));
        let first = Sheet {
            first,
            ..broadcast_sheet()
        };
        let second = Sheet {
            second,
            ..broadcast_sheet()
        };
        let said = |sheet: Sheet| said(&broadcast(TREE), &sheet.to_bytes());
        [said(first) != "refused 12 0", said(second) != "refused 12 4"]
    }

    /// Kinds 1, 3, 5 and 6 want party 1, kinds 2 and 4 party 0 or 1, kind 0 party 0; kind 7 is not allowed.
    #[test]
    fn kinds_and_parties() {
        for (kind, rest, parties) in [
            (0, "0 0", [true, false, false]),
            (1, "0 0", [false, true, false]),
            (2, "1 0", [true, true, false]),
            (3, "0 0", [false, true, false]),
            (4, "1 0", [true, true, false]),
            (5, "0 2", [false, true, false]),
            (6, "0 2", [false, true, false]),
            (7, "0 2", [false, false, false]),
            (8, "0 0", [false, false, false]),
        ] {
            for (party, good) in parties.into_iter().enumerate() {
                let node = format!("{kind} {party} {rest}");
                assert_eq!(fields(&node), [good; 2], "{node}");
            }
            let node = format!("{kind} 255 {rest}");
            assert_eq!(fields(&node), [false; 2], "{node}");
        }
    }

    #[test]
    fn other_fields() {
        for node in [
            "0 0 1 0", "0 0 0 1", "1 1 1 0", "1 1 0 1", "2 1 2 0", "3 1 1 0", "4 0 2 0",
        ] {
            assert_eq!(fields(node), [false; 2], "{node}");
        }
        for node in [
            "4 0 1 1",
            "5 1 0 0",
            "5 1 0 4",
            "6 1 0 0",
            "6 1 1 2",
            "6 1 0 4",
            "7 0 0 1000",
        ] {
            assert_eq!(fields(node), [false; 2], "{node}");
        }
    }

    /// Kind 1 wants the states of output 0 absent in the first tree, and those of output 1 in the second.
    #[test]
    fn outputs_assumed() {
        let with = |first: &str, second: &str, limit: i64| sheet(&[0, 0], limit, first, second, &[(&[0, 0], 1)]);
        says(&still("3 3"), &with("1 1 0 0", "0 0 0 0", 0), "accepted 0 0 0");
        says(&still("3 3"), &with("1 1 0 0", "1 1 0 0", 0), "refused 13 1");
        says(&still_0("2 2"), &with("0 0 0 0", "1 1 0 0", 1), "accepted 0 0 1");
        says(&still_0("2 2"), &with("1 1 0 0", "1 1 0 0", 1), "refused 13 0");
        let one_missing = "4 1 0 0; 1 1 0 0; 0 0 0 0";
        says(&still("3 3"), &with("1 1 0 0", one_missing, 0), "refused 13 2");
        says(&still_0("2 2"), &with(one_missing, "1 1 0 0", 1), "refused 13 1");
    }

    /// Whether a tree closes as the first and as the second tree of a sheet with one leaf. All states have the output that
    /// the tree does not assume, so that nodes of kind 1 close.
    fn closes<const S: usize>(docket: &Docket, tree: &str, claim: ([i64; S], i64), leaf: ([i64; S], i64)) -> [bool; 2] {
        let sheet = sheet(&claim.0, claim.1, tree, tree, &[(&leaf.0, leaf.1)]);
        let with_output = |output: u8| {
            let mut docket = docket.clone();
            docket.states.iter_mut().for_each(|state| state.verdict = output);
            docket
        };
        [
            walk(&sheet.first_tree(&with_output(1))).is_ok(),
            walk(&sheet.second_tree(&with_output(0))).is_ok(),
        ]
    }

    /// A protocol with no rule and these fixed agents. States 0 and 1 are inputs and the others not.
    fn without_rules<const S: usize>(fixed: [i64; S]) -> Docket {
        with_fixed(still(&["2 2", &" 0".repeat(S - 2)].concat()), fixed)
    }

    const LEAF: &str = "0 0 0 0";

    /// Trees that split on state 0 of the start or of the end; the leaf is in the branch that they are named after.
    const ABSENT_AT_START: &str = "4 0 0 0; 0 0 0 0; 1 1 0 0";
    const PRESENT_AT_START: &str = "4 0 0 0; 1 1 0 0; 0 0 0 0";
    const ABSENT_AT_END: &str = "4 1 0 0; 0 0 0 0; 1 1 0 0";
    const PRESENT_AT_END: &str = "4 1 0 0; 1 1 0 0; 0 0 0 0";
    const BOTH_AT_START: &str = "4 0 0 0; 4 0 0 0; 1 1 0 0; 0 0 0 0; 1 1 0 0";
    const BOTH_AT_END: &str = "4 1 0 0; 4 1 0 0; 1 1 0 0; 0 0 0 0; 1 1 0 0";

    /// The first tree closes from one limit on, which is the least, and the second up to one limit, which is the greatest.
    /// A limit that is not given is none: the tree closes with no limit of 32 bits.
    fn limits<const S: usize>(
        docket: &Docket,
        tree: &str,
        numbers: [i64; S],
        leaf: ([i64; S], i64),
        least: Option<i64>,
        greatest: Option<i64>,
    ) {
        let ends = [i64::from(i32::MIN), i64::from(i32::MAX)];
        let beside = |limit: i64| [limit - 1, limit, limit + 1];
        let tried = [least, greatest].into_iter().flatten().flat_map(beside).chain(ends);
        for limit in tried {
            let expected = [
                least.is_some_and(|least| limit >= least),
                greatest.is_some_and(|greatest| limit <= greatest),
            ];
            assert_eq!(
                closes(docket, tree, (numbers, limit), leaf),
                expected,
                "{tree}, {numbers:?}, limit {limit}, leaf {leaf:?}"
            );
        }
    }

    /// A sum of 0 is not at least 1, and not at most -1.
    #[test]
    fn limit_of_a_leaf() {
        let docket = without_rules([0, 0]);
        for multiplier in [1, 2, 255, 256, 9_999, 10_000] {
            limits(&docket, LEAF, [0, 0], ([0, 0], multiplier), Some(1), Some(0));
        }
        limits(&docket, LEAF, [0, 0], ([0, 0], 0), None, None);
    }

    /// k times c for the greatest k and the limits at both ends of 32 bits.
    #[test]
    fn greatest_and_least_limits() {
        let docket = without_rules([0, 0]);
        let (least, greatest) = (i64::from(i32::MIN), i64::from(i32::MAX));
        for multiplier in [1, 10_000] {
            let said = |limit: i64| closes(&docket, LEAF, ([0, 0], limit), ([0, 0], multiplier));
            assert_eq!(said(least), [false, true]);
            assert_eq!(said(least + 1), [false, true]);
            assert_eq!(said(greatest), [true, false]);
            assert_eq!(said(greatest - 1), [true, false]);
        }
        let bounded = sheet(&[0, 0], least, "1 1 0 0", LEAF, &[(&[0, 0], 10_000)]);
        says(&still("3 3"), &bounded, "accepted 0 0 -2147483648");
        let bounded = sheet(&[0, 0], greatest, LEAF, "1 1 0 0", &[(&[0, 0], 10_000)]);
        says(&still_0("2 2"), &bounded, "accepted 0 0 2147483647");
    }

    /// y + k a in the first tree and y - k a in the second are at most 0 at every state not absent at the start.
    #[test]
    fn start_of_a_leaf() {
        let docket = without_rules([0, 0]);
        limits(&docket, LEAF, [-1, -7], ([0, 0], 3), Some(1), None);
        limits(&docket, LEAF, [1, 7], ([0, 0], 3), None, Some(0));
        limits(&docket, LEAF, [1, -7], ([0, 0], 3), None, None);
        limits(&docket, LEAF, [0, -2], ([0, 6], 3), Some(1), None);
        limits(&docket, LEAF, [0, -2], ([0, 7], 3), None, None);
        limits(&docket, LEAF, [0, 2], ([0, 6], 3), None, Some(0));
        limits(&docket, LEAF, [0, 2], ([0, 7], 3), None, None);
        limits(&docket, ABSENT_AT_END, [2, 0], ([-6, 0], 3), Some(1), Some(0));
        limits(&docket, ABSENT_AT_END, [2, 0], ([-5, 0], 3), None, Some(0));
        limits(&docket, ABSENT_AT_END, [-2, 0], ([-6, 0], 3), Some(1), Some(0));
        limits(&docket, ABSENT_AT_END, [-2, 0], ([-5, 0], 3), Some(1), None);
    }

    /// A state that is present at the start joins the upper sum once; one that is absent joins not, whatever its sign.
    #[test]
    fn presence_at_the_start() {
        let docket = without_rules([0, 0]);
        limits(&docket, PRESENT_AT_START, [-5, 0], ([0, 0], 1), Some(-4), None);
        limits(&docket, PRESENT_AT_START, [5, 0], ([0, 0], 1), None, Some(5));
        limits(&docket, PRESENT_AT_START, [-5, 0], ([0, 0], 10_000), Some(-4), None);
        limits(&docket, PRESENT_AT_START, [-5, 0], ([1, 0], 1), Some(-3), None);
        limits(&docket, PRESENT_AT_START, [5, 0], ([1, 0], 1), None, Some(4));
        limits(&docket, PRESENT_AT_START, [-5, 0], ([10, 0], 4), Some(-2), None);
        limits(&docket, PRESENT_AT_START, [0, -5], ([0, 0], 1), Some(1), None);
        for tree in [ABSENT_AT_START, BOTH_AT_START] {
            limits(&docket, tree, [-5, 0], ([0, 0], 1), Some(1), Some(0));
            limits(&docket, tree, [5, 0], ([0, 0], 1), Some(1), Some(0));
            limits(&docket, tree, [0, 0], ([9, 0], 1), Some(1), Some(0));
            limits(&docket, tree, [0, 1], ([0, 0], 1), None, Some(0));
        }
    }

    /// The ends of 16 bits, times the greatest multiplier.
    #[test]
    fn greatest_numbers() {
        let docket = without_rules([0, 0]);
        for multiplier in [1, 10_000] {
            limits(
                &docket,
                PRESENT_AT_START,
                [-32_768, 0],
                ([0, 0], multiplier),
                Some(-32_767),
                None,
            );
            limits(
                &docket,
                PRESENT_AT_START,
                [32_767, 0],
                ([0, 0], multiplier),
                None,
                Some(32_767),
            );
        }
        limits(
            &docket,
            PRESENT_AT_START,
            [32_767, 0],
            ([10_000, 0], 10_000),
            None,
            Some(32_766),
        );
        let largest = |states: &str| with_fixed(still(&vec![states; 64].join(" ")), [1000; 64]);
        for (numbers, least, greatest) in [
            ([-32_768; 64], Some(-2_097_151_999), None),
            ([32_767; 64], None, Some(2_097_088_000)),
        ] {
            limits(&largest("2"), LEAF, numbers, ([0; 64], 10_000), least, greatest);
            limits(&largest("2"), LEAF, numbers, ([0; 64], 1), least, greatest);
        }
    }

    /// A weight of 0 or more joins the lower sum where its state is present at the end and not absent.
    #[test]
    fn end_of_a_leaf() {
        let docket = without_rules([0, 0]);
        limits(&docket, PRESENT_AT_END, [-2, 0], ([2, 0], 1), Some(-1), None);
        limits(&docket, PRESENT_AT_END, [2, 0], ([2, 0], 1), None, Some(2));
        limits(&docket, PRESENT_AT_END, [-2, 0], ([4, 0], 2), Some(-1), None);
        limits(&docket, PRESENT_AT_END, [0, -2], ([0, 2], 1), Some(1), None);
        for tree in [LEAF, ABSENT_AT_END, BOTH_AT_END] {
            limits(&docket, tree, [-2, 0], ([2, 0], 1), Some(1), None);
            limits(&docket, tree, [2, 0], ([2, 0], 1), None, Some(0));
        }
        for tree in [LEAF, PRESENT_AT_END] {
            limits(&docket, tree, [0, 0], ([-1, 0], 1), None, None);
        }
        for tree in [ABSENT_AT_END, BOTH_AT_END] {
            limits(&docket, tree, [0, 0], ([-1, 0], 1), Some(1), Some(0));
        }
    }

    /// A negative weight joins where its state holds at most one agent, present or not.
    #[test]
    fn at_most_one_at_the_end() {
        let docket = docket("2 2", "0 0 1 1 0", "1 0", "1 1 0 0");
        let tree = "3 1 0 0; 4 1 1 0; 0 0 0 0; 1 1 0 0";
        limits(&docket, tree, [1, 1], ([-1, -1], 1), Some(2), Some(-1));
        limits(&docket, tree, [-1, -1], ([-1, -1], 1), Some(2), Some(-1));
        let present = "3 1 0 0; 4 1 1 0; 4 1 0 0; 1 1 0 0; 0 0 0 0; 1 1 0 0";
        limits(&docket, present, [1, 1], ([-1, -1], 1), Some(2), Some(-1));
        limits(&docket, "4 1 1 0; 0 0 0 0; 1 1 0 0", [1, 1], ([-1, -1], 1), None, None);
    }

    /// No rule raises y, but for those unused in run 1.
    #[test]
    fn rules_of_a_leaf() {
        let docket = broadcast(TREE);
        let unused = "4 1 1 0; 5 1 0 2; 0 0 0 0; 1 1 0 0";
        let absent = "4 1 1 0; 0 0 0 0; 1 1 0 0";
        limits(&docket, absent, [-1, 0], ([1, 0], 1), Some(1), None);
        limits(&docket, absent, [1, 0], ([1, 0], 1), None, Some(0));
        limits(&docket, absent, [0, -1], ([0, 1], 1), None, None);
        limits(&docket, absent, [0, 1], ([0, 1], 1), None, None);
        limits(&docket, absent, [-1, -1], ([1, 1], 1), Some(1), None);
        limits(&docket, unused, [0, -1], ([0, 1], 1), Some(1), Some(0));
        limits(&docket, unused, [-1, -1], ([0, 1], 1), Some(1), None);
    }

    /// The fixed agents of an input state count in the sum, each of them; further agents have the sign of its number.
    #[test]
    fn fixed_agents_of_inputs() {
        let docket = without_rules([3, 0]);
        limits(&docket, LEAF, [-2, 0], ([0, 0], 1), Some(-5), None);
        limits(&docket, LEAF, [2, 0], ([0, 0], 1), None, Some(6));
        limits(&docket, PRESENT_AT_START, [2, 0], ([0, 0], 1), None, Some(6));
        limits(&docket, LEAF, [-2, 0], ([1, 0], 1), Some(-2), None);
        limits(&docket, LEAF, [-2, -1], ([0, 0], 10_000), Some(-5), None);
        limits(&docket, LEAF, [0, 0], ([1, 0], 1), None, None);
        for tree in [ABSENT_AT_START, BOTH_AT_START] {
            limits(&docket, tree, [-2, 0], ([0, 0], 1), Some(1), Some(0));
        }
    }

    /// Where a state with fixed agents is no input, y has a free sign and counts once for each of them.
    #[test]
    fn fixed_agents_of_other_states() {
        let docket = without_rules([0, 0, 3]);
        limits(&docket, LEAF, [0, 0, 0], ([0, 0, 1], 1), Some(4), Some(-3));
        limits(&docket, LEAF, [0, 0, 0], ([0, 0, 2], 4), Some(2), Some(-1));
        limits(&docket, LEAF, [-1, 0, 0], ([0, 0, 1], 1), Some(4), None);
        let absent_at_end = "4 1 2 0; 0 0 0 0; 1 1 0 0";
        limits(&docket, absent_at_end, [0, 0, 0], ([0, 0, -1], 1), Some(-2), Some(3));
        let absent_at_start = "4 0 2 0; 0 0 0 0; 1 1 0 0";
        limits(&docket, absent_at_start, [0, 0, 0], ([0, 0, 1], 1), Some(1), Some(0));
        let none = without_rules([0, 0, 0]);
        limits(&none, LEAF, [0, 0, 0], ([0, 0, 1], 1), Some(1), Some(0));
    }

    /// The bytes of a docket's length, of the docket and of its sheet.
    fn input(length: usize, docket: &[u8], sheet: &[u8]) -> Vec<u8> {
        [&(length as u16).to_le_bytes(), docket, sheet].concat()
    }

    #[test]
    fn input_of_decides() {
        let (docket, sheet) = (broadcast(TREE).bytes(), broadcast_sheet().to_bytes());
        let line = |length: usize, docket: &[u8], sheet: &[u8]| decides_line(&decides(&input(length, docket, sheet)));
        assert_eq!(line(99, &docket, &sheet), "accepted 0 1 1\n");
        assert_eq!(line(98, &docket, &sheet), "refused 1 0\n");
        assert_eq!(line(100, &docket, &sheet), "refused 1 0\n");
        assert_eq!(line(0, &docket, &sheet), "refused 1 0\n");
        assert_eq!(line(99 + 256, &docket, &sheet), "refused 1 0\n");
        assert_eq!(line(99, &docket, &[]), "refused 15 0\n");
        for length in [99, 100, 65_535] {
            assert_eq!(line(length, &docket, &[]), "refused 15 0\n");
        }
        let (wide, wide_sheet) = (example("majority").bytes(), majority_sheet().to_bytes());
        assert_eq!(line(348, &wide, &wide_sheet), "accepted -1 1 0 0 0\n");
        assert_eq!(line(348 - 256, &wide, &wide_sheet), "refused 1 0\n");
        for bytes in [&[][..], &[99], &[0], &[99, 0], &[255, 255]] {
            assert_eq!(decides(bytes), refuse(1, 0), "{bytes:?}");
        }
    }
}
