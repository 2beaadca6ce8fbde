use super::rules::{Parts, RULES};
use super::samples::{all_samples, Sample};
use super::*;
use crate::prover::{pair_set, states_where, Facts};
use second::{Node, Refusal, SheetLeaf, State};

/// A tree of a sheet, 0 or 1, with the place of its first node.
struct Tree<'a> {
    which: usize,
    docket: &'a Docket,
    sheet: &'a Sheet,
    nodes: Vec<Node>,
    first: usize,
}

/// What is read, or the refusal of the docket or of the sheet's bytes.
type Reading = Result<Claimed, Refusal>;

/// The nodes of each tree, and the place of the first.
type Places = Vec<(Vec<Node>, usize)>;

/// An implementation in parts, each of which can be a wrong one. It takes at most 64 rules.
struct Variant<'a> {
    read: &'a dyn Fn(&[u8], &[u8]) -> Reading,
    trees: &'a dyn Fn(&Sheet) -> Places,
    /// The facts that a tree begins with.
    fresh: &'a dyn Fn(&Docket, usize) -> Facts,
    /// Whether a node is one of a sheet's tree, beside what it has in common with one of a docket's tree.
    allowed: &'a dyn Fn(&Node) -> bool,
    greatest_depth: usize,
    /// Whether the nodes behind a tree are looked at.
    left_over: &'a dyn Fn(usize) -> bool,
    /// The output that a tree assumes.
    assumed: &'a dyn Fn(usize) -> u8,
    /// The multiplier of a leaf.
    multiplier: &'a dyn Fn(&Sheet, &SheetLeaf) -> i128,
    /// The start weight of a state: by the tree, the state, its weight, its number and the multiplier.
    start: &'a dyn Fn(usize, &State, [i128; 3]) -> i128,
    /// What the upper sum begins with: by the tree, the limit and the multiplier.
    bound: &'a dyn Fn(usize, [i128; 2]) -> i128,
    /// How often a state joins the upper sum, by whether it is present.
    times: &'a dyn Fn(&State, bool) -> i128,
    /// Whether the start weight of a state may be above 0.
    free: &'a dyn Fn(&State) -> bool,
    /// Whether the lower sum and the upper sum close a leaf.
    closes: &'a dyn Fn(i128, i128) -> bool,
}

/// What is wrong with a part, and the wrong part.
type Wrong<T> = (&'static str, T);

const RIGHT: Variant = Variant {
    read: &|docket, sheet| right_read(docket, sheet, None),
    trees: &|sheet| vec![(sheet.first.clone(), 0), (sheet.second.clone(), sheet.first.len())],
    fresh: &|docket, _| Facts::fresh(docket),
    allowed: &|node| node.kind < 7 && node.party < 2,
    greatest_depth: 40,
    left_over: &|_| true,
    assumed: &|tree| tree as u8,
    multiplier: &|_, leaf| leaf.multiplier.into(),
    start: &|tree, _, [y, a, k]| y + sign(tree) * k * a,
    bound: &|tree, [c, k]| if tree == 0 { -k * c } else { k * (c - 1) },
    times: &|state, present| i128::from(state.fixed.max(present.into())),
    free: &State::only_fixed,
    closes: &|lower, upper| lower > upper,
};

fn sign(tree: usize) -> i128 {
    1 - 2 * tree as i128
}

impl Variant<'_> {
    fn said(&self, docket: &[u8], sheet: &[u8]) -> Result<(), Refusal> {
        let (docket, sheet) = (self.read)(docket, sheet)?;
        for (which, (nodes, first)) in (self.trees)(&sheet).into_iter().enumerate() {
            let tree = Tree {
                which,
                docket: &docket,
                sheet: &sheet,
                nodes,
                first,
            };
            let end = self.descend(&tree, &(self.fresh)(&docket, which), 0, 1)?;
            if end < tree.nodes.len() && (self.left_over)(which) {
                return tree.refuse(12, end);
            }
        }
        Ok(())
    }

    /// The subtree at a place: the place after it.
    fn descend(&self, tree: &Tree, facts: &Facts, place: usize, depth: usize) -> Result<usize, Refusal> {
        let good = |node: &&Node| depth <= self.greatest_depth && tree.has_fields(node) && (self.allowed)(node);
        let Some(node) = tree.nodes.get(place).filter(good) else {
            return tree.refuse(12, place);
        };
        if !self.ground_holds(tree, facts, node) {
            return tree.refuse(13, place);
        }
        let children = facts.children(tree.docket, node);
        children
            .iter()
            .try_fold(place + 1, |next, child| self.descend(tree, child, next, depth + 1))
    }

    fn ground_holds(&self, tree: &Tree, facts: &Facts, node: &Node) -> bool {
        let (party, set) = (node.party, node.modulus());
        let is_trap = |taken: bool| {
            let mut rules = tree.docket.rules.iter().enumerate();
            rules.all(|(r, rule)| {
                let (takes, puts) = (pair_set(rule.before) & set != 0, pair_set(rule.after) & set != 0);
                let breaks = if taken { takes && !puts } else { puts && !takes };
                facts.unused[party] >> r & 1 == 1 || !breaks
            })
        };
        match node.kind {
            0 => self.leaf_closes(tree, facts, &tree.sheet.leaves[node.argument]),
            1 => {
                let output = (self.assumed)(tree.which);
                states_where(tree.docket, |state| state.verdict == output) & !facts.absent[party] == 0
            }
            2 => (facts.present[party] & facts.absent[party]) >> node.argument & 1 == 1,
            5 => set & !facts.absent[party] == 0 && is_trap(true),
            6 => set & !facts.absent[0] == 0 && is_trap(false),
            _ => true,
        }
    }

    fn leaf_closes(&self, tree: &Tree, facts: &Facts, leaf: &SheetLeaf) -> bool {
        let y = |state: usize| i128::from(leaf.weights[state]);
        let has = |set: u64, state: usize| set >> state & 1 == 1;
        let mut rules = tree.docket.rules.iter().enumerate();
        let kept = rules.all(|(r, rule)| {
            let weight = |pair: [usize; 2]| y(pair[0]) + y(pair[1]);
            has(facts.unused[1], r) || weight(rule.after) <= weight(rule.before)
        });
        let k = (self.multiplier)(tree.sheet, leaf);
        let mut upper = (self.bound)(tree.which, [tree.sheet.limit.into(), k]);
        let mut lower = 0;
        for (i, state) in tree.docket.states.iter().enumerate() {
            let start = (self.start)(tree.which, state, [y(i), tree.sheet.numbers[i].into(), k]);
            if !has(facts.absent[0], i) {
                if start > 0 && !(self.free)(state) {
                    return false;
                }
                upper += (self.times)(state, has(facts.present[0], i)) * start;
            }
            if !has(facts.absent[1], i) {
                if y(i) < 0 && !has(facts.at_most_one[1], i) {
                    return false;
                }
                lower += y(i) * i128::from(y(i) < 0 || has(facts.present[1], i));
            }
        }
        kept && (self.closes)(lower, upper)
    }

    fn code(&self, sample: &Sample) -> u64 {
        let said = self.said(&sample.docket, &sample.sheet);
        said.map_or_else(crate::calls::refusal_code, |()| 0)
    }

    /// The implementation is told apart by a sample.
    fn is_seen(&self, name: &str, samples: &[Sample]) {
        let told = |sample: &Sample| self.code(sample) != check_sheet_code(&sample.docket, &sample.sheet);
        assert!(samples.iter().any(told), "{name}");
    }
}

impl Tree<'_> {
    fn refuse<T>(&self, number: u32, place: usize) -> Result<T, Refusal> {
        let place = (self.first + place) as u32;
        Err(Refusal { number, place })
    }

    /// Whether the fields are those of the node's kind in a docket's tree.
    fn has_fields(&self, node: &Node) -> bool {
        let (states, set) = (self.docket.states.len(), node.modulus());
        let is_run = node.party == 1 || node.party == 2;
        let is_set = set != 0 && set & !(u64::MAX >> (64 - states)) == 0;
        let (party, most, has_set) = match node.kind {
            0 => (node.party == 0, self.sheet.leaves.len(), set == 0),
            1 => (is_run, 1, set == 0),
            2 | 4 => (node.party <= 2, states, set == 0),
            3 => (is_run, self.docket.rules.len(), set == 0),
            5 | 6 => (is_run, 1, is_set),
            7 => (node.party == 0, self.sheet.leaves.len(), (2..=1000).contains(&set)),
            _ => return false,
        };
        party && node.argument < most && has_set
    }
}

// ---- Test 15

/// The docket's check, then test 15 but for one of its rules, if one is named.
fn right_read(docket: &[u8], sheet: &[u8], without: Option<usize>) -> Reading {
    second::check(docket)?;
    let docket = second::parse(docket)?;
    let parts = Parts::read(docket.states.len(), sheet);
    let mut rules = RULES.iter().enumerate().filter(|(i, _)| Some(*i) != without);
    if sheet.len() < 16 || !rules.all(|(_, (_, rule))| rule(&docket, &parts)) {
        return Err(Refusal { number: 15, place: 0 });
    }
    Ok((docket, parts.sheet))
}

type Read = fn(&[u8], &[u8]) -> Reading;

const READS: [Wrong<Read>; 4] = [
    ("tests 1 to 8 of the docket alone", |docket, sheet| {
        let docket = second::parse(docket)?;
        let sheet = second::parse_sheet(&docket, sheet)?;
        Ok((docket, sheet))
    }),
    ("test 15 before tests 9 to 13", |docket, sheet| {
        second::parse_sheet(&second::parse(docket)?, sheet)?;
        right_read(docket, sheet, None)
    }),
    ("test 15 before the docket's check", |docket, sheet| {
        let (states, first) = (docket.get(2), sheet.first());
        if states != first || sheet.len() < 16 {
            return Err(Refusal { number: 15, place: 0 });
        }
        right_read(docket, sheet, None)
    }),
    ("the place of 15 is 1", |docket, sheet| {
        right_read(docket, sheet, None).map_err(|refusal| Refusal {
            place: refusal.place + u32::from(refusal.number == 15),
            ..refusal
        })
    }),
];

/// Leaves that no node names are not looked at.
fn named_leaves_alone(docket: &[u8], sheet: &[u8]) -> Reading {
    second::check(docket)?;
    let docket = second::parse(docket)?;
    let mut parts = Parts::read(docket.states.len(), sheet);
    let Sheet {
        first, second, leaves, ..
    } = &mut parts.sheet;
    for (place, leaf) in leaves.iter_mut().enumerate() {
        let named = |node: &Node| node.kind == 0 && node.argument == place;
        if !first.iter().chain(second.iter()).any(named) {
            leaf.weights.fill(0);
            leaf.multiplier = 0;
        }
    }
    let good = sheet.len() >= 16 && RULES.iter().all(|(_, rule)| rule(&docket, &parts));
    good.then_some((docket, parts.sheet))
        .ok_or(Refusal { number: 15, place: 0 })
}

// ---- Trees

type Trees = fn(&Sheet) -> Places;

const TREES: [Wrong<Trees>; 6] = [
    ("the second tree on the first's nodes", |sheet| {
        vec![(sheet.first.clone(), 0), (sheet.first.clone(), sheet.first.len())]
    }),
    ("the first tree on the second's nodes", |sheet| {
        vec![(sheet.second.clone(), 0), (sheet.second.clone(), sheet.first.len())]
    }),
    ("the trees exchanged", |sheet| {
        vec![(sheet.second.clone(), sheet.first.len()), (sheet.first.clone(), 0)]
    }),
    ("the second tree numbered from 0", |sheet| {
        vec![(sheet.first.clone(), 0), (sheet.second.clone(), 0)]
    }),
    ("the first tree alone", |sheet| vec![(sheet.first.clone(), 0)]),
    ("the first tree may use the nodes of the second", |sheet| {
        let all = [&sheet.first[..], &sheet.second].concat();
        vec![(all, 0), (sheet.second.clone(), sheet.first.len())]
    }),
];

/// The facts of a tree that begins with more, or with less.
type Fresh = fn(&Docket, usize) -> Facts;

const FRESH: [Wrong<Fresh>; 5] = [
    ("nothing is known of the start", |_, _| Facts::default()),
    ("fixed agents are not present", |docket, _| {
        let mut facts = Facts::fresh(docket);
        facts.present[0] = 0;
        facts
    }),
    ("states with fixed agents that are no inputs are absent", |docket, _| {
        let mut facts = Facts::fresh(docket);
        facts.absent[0] = states_where(docket, |state| !state.input);
        facts
    }),
    ("inputs are present", |docket, _| {
        let mut facts = Facts::fresh(docket);
        facts.present[0] |= states_where(docket, |state| state.input);
        facts
    }),
    ("the second tree begins with facts of the first", |docket, tree| {
        let mut facts = Facts::fresh(docket);
        facts.absent[1] = if tree == 1 { 2 } else { 0 };
        facts
    }),
];

type Allow = fn(&Node) -> bool;

const ALLOWED: [Wrong<Allow>; 4] = [
    ("party 2 of kinds 2 and 4", |node| {
        node.kind < 7 && (node.party < 2 || matches!(node.kind, 2 | 4))
    }),
    ("party 2 of kinds 1, 3, 5 and 6", |node| {
        node.kind < 7 && (node.party < 2 || !matches!(node.kind, 2 | 4))
    }),
    ("kind 7", |node| node.party < 2),
    ("no kind 6", |node| node.kind < 6 && node.party < 2),
];

type Assume = fn(usize) -> u8;

const ASSUMED: [Wrong<Assume>; 3] = [
    ("the outputs exchanged", |tree| 1 - tree as u8),
    ("output 0 in both trees", |_| 0),
    ("output 1 in both trees", |_| 1),
];

// ---- Leaves

type Multiplier = fn(&Sheet, &SheetLeaf) -> i128;

const MULTIPLIERS: [Wrong<Multiplier>; 5] = [
    ("k unread, 1", |_, _| 1),
    ("k unread, 0", |_, _| 0),
    ("k of the first leaf", |sheet, _| sheet.leaves[0].multiplier.into()),
    ("k of one byte", |_, leaf| (leaf.multiplier % 256).into()),
    ("k at most 1", |_, leaf| leaf.multiplier.min(1).into()),
];

type Start = fn(usize, &State, [i128; 3]) -> i128;

const STARTS: [Wrong<Start>; 10] = [
    ("the sign of the multiplier", |tree, _, [y, a, k]| {
        y - sign(tree) * k * a
    }),
    ("the first tree's sign in both", |_, _, [y, a, k]| y + k * a),
    ("the second tree's sign in both", |_, _, [y, a, k]| y - k * a),
    ("numbers unread", |_, _, [y, _, _]| y),
    ("the number without its multiplier", |tree, _, [y, a, _]| {
        y + sign(tree) * a
    }),
    ("weights unread", |tree, _, [_, a, k]| sign(tree) * k * a),
    ("weights times the multiplier", |tree, _, [y, a, k]| {
        k * (y + sign(tree) * a)
    }),
    ("numbers without a sign", |tree, _, [y, a, k]| {
        y + sign(tree) * k * a.rem_euclid(65_536)
    }),
    ("numbers of one byte", |tree, _, [y, a, k]| {
        y + sign(tree) * k * i128::from(a as i8)
    }),
    ("fixed agents' states have no number", |tree, state, [y, a, k]| {
        y + sign(tree) * k * if state.fixed > 0 { 0 } else { a }
    }),
];

type Bound = fn(usize, [i128; 2]) -> i128;

const BOUNDS: [Wrong<Bound>; 11] = [
    ("c for c - 1 in the second tree", |tree, [c, k]| -sign(tree) * k * c),
    ("c - 1 for c in the first tree", |tree, [c, k]| {
        -sign(tree) * k * (c - 1)
    }),
    ("c + 1 for c in the first tree", |tree, [c, k]| {
        if tree == 0 {
            -k * (c + 1)
        } else {
            k * (c - 1)
        }
    }),
    ("k c added in the first tree", |tree, [c, k]| {
        if tree == 0 {
            k * c
        } else {
            k * (c - 1)
        }
    }),
    ("k (c - 1) taken off in the second tree", |tree, [c, k]| {
        if tree == 0 {
            -k * c
        } else {
            -k * (c - 1)
        }
    }),
    (
        "c without its multiplier",
        |tree, [c, _]| {
            if tree == 0 {
                -c
            } else {
                c - 1
            }
        },
    ),
    ("c unread", |_, _| 0),
    ("c without a sign", |tree, [c, k]| {
        (RIGHT.bound)(tree, [c.rem_euclid(1 << 32), k])
    }),
    ("c of 16 bits", |tree, [c, k]| {
        (RIGHT.bound)(tree, [(c as i16).into(), k])
    }),
    ("c - 1 of 32 bits", |tree, [c, k]| match tree {
        0 => -k * c,
        _ => k * i128::from((c as i32).wrapping_sub(1)),
    }),
    ("k c less 1 in the second tree", |tree, [c, k]| match tree {
        0 => -k * c,
        _ => k * c - 1,
    }),
];

type Times = fn(&State, bool) -> i128;

const TIMES: [Wrong<Times>; 7] = [
    ("fixed agents left out of the sum", |_, present| present.into()),
    ("fixed agents of inputs once", |state, present| {
        if state.input {
            present.into()
        } else {
            state.fixed.max(present.into()).into()
        }
    }),
    ("fixed agents of no inputs once", |state, present| {
        if state.input {
            state.fixed.max(present.into()).into()
        } else {
            present.into()
        }
    }),
    ("fixed agents and once more", |state, present| {
        i128::from(state.fixed) + i128::from(present)
    }),
    ("states present do not join", |state, _| state.fixed.into()),
    ("all states join once", |state, _| state.fixed.max(1).into()),
    ("fixed agents of one byte", |state, present| {
        (state.fixed % 256).max(present.into()).into()
    }),
];

type Free = fn(&State) -> bool;

const FREE: [Wrong<Free>; 4] = [
    ("every start weight may be above 0", |_| true),
    ("no start weight may be above 0", |_| false),
    ("that of every state with fixed agents", |state| state.fixed > 0),
    ("that of every input", |state| state.input),
];

/// The low bits of a number, with a sign.
fn cut(number: i128, bits: u32) -> i128 {
    number << (128 - bits) >> (128 - bits)
}

type Close = fn(i128, i128) -> bool;

const CLOSES: [Wrong<Close>; 6] = [
    ("equal sums close", |lower, upper| lower >= upper),
    ("sums exchanged", |lower, upper| lower < upper),
    ("sums of 32 bits", |lower, upper| cut(lower, 32) > cut(upper, 32)),
    ("sums of 45 bits", |lower, upper| cut(lower, 45) > cut(upper, 45)),
    ("sums of 46 bits", |lower, upper| cut(lower, 46) > cut(upper, 46)),
    ("the lower sum unread", |_, upper| upper < 0),
];

/// The samples of dockets with at most 64 rules.
fn small_samples() -> Vec<Sample> {
    let mut samples = all_samples();
    samples.retain(|sample| second::parse(&sample.docket).map_or(true, |docket| docket.rules.len() <= 64));
    samples
}

#[test]
fn samples_have_their_lines() {
    for sample in all_samples() {
        let second = second::decides_line(&second::check_sheet(&sample.docket, &sample.sheet));
        assert_eq!(second, sample.line, "{}", sample.name);
    }
    for sample in small_samples() {
        assert_eq!(
            RIGHT.code(&sample),
            check_sheet_code(&sample.docket, &sample.sheet),
            "{}",
            sample.name
        );
    }
}

#[test]
fn wrong_readings_are_seen() {
    let samples = small_samples();
    for (without, (name, _)) in RULES.iter().enumerate() {
        let read = |docket: &[u8], sheet: &[u8]| right_read(docket, sheet, Some(without));
        Variant { read: &read, ..RIGHT }.is_seen(&format!("not tried: {name}"), &samples);
    }
    for (name, read) in READS {
        Variant { read: &read, ..RIGHT }.is_seen(name, &samples);
    }
    Variant {
        read: &named_leaves_alone,
        ..RIGHT
    }
    .is_seen("leaves that no node names are not looked at", &samples);
}

#[test]
fn wrong_trees_are_seen() {
    let samples = small_samples();
    for (name, trees) in TREES {
        Variant { trees: &trees, ..RIGHT }.is_seen(name, &samples);
    }
    for (name, fresh) in FRESH {
        Variant { fresh: &fresh, ..RIGHT }.is_seen(name, &samples);
    }
    for (name, allowed) in ALLOWED {
        Variant {
            allowed: &allowed,
            ..RIGHT
        }
        .is_seen(name, &samples);
    }
    for (name, assumed) in ASSUMED {
        Variant {
            assumed: &assumed,
            ..RIGHT
        }
        .is_seen(name, &samples);
    }
    for greatest_depth in [39, 41] {
        Variant {
            greatest_depth,
            ..RIGHT
        }
        .is_seen("another greatest depth", &samples);
    }
    for not_looked_at in [0, 1] {
        let left_over = |tree: usize| tree != not_looked_at;
        Variant {
            left_over: &left_over,
            ..RIGHT
        }
        .is_seen("nodes left over", &samples);
    }
}

#[test]
fn wrong_leaves_are_seen() {
    let samples = small_samples();
    for (name, multiplier) in MULTIPLIERS {
        Variant {
            multiplier: &multiplier,
            ..RIGHT
        }
        .is_seen(name, &samples);
    }
    for (name, start) in STARTS {
        Variant { start: &start, ..RIGHT }.is_seen(name, &samples);
    }
    for (name, bound) in BOUNDS {
        Variant { bound: &bound, ..RIGHT }.is_seen(name, &samples);
    }
    for (name, times) in TIMES {
        Variant { times: &times, ..RIGHT }.is_seen(name, &samples);
    }
    for (name, free) in FREE {
        Variant { free: &free, ..RIGHT }.is_seen(name, &samples);
    }
    for (name, closes) in CLOSES {
        Variant {
            closes: &closes,
            ..RIGHT
        }
        .is_seen(name, &samples);
    }
}

/// The files of the examples are accepted, and what they claim is true of small starts, which come to both outputs.
#[test]
fn examples_are_true() {
    for (name, sheet, line) in EXAMPLES {
        let (docket, made) = example(name, sheet);
        let file = std::fs::read(example_folder().join(format!("{name}.sheet"))).expect("a sheet");
        assert_eq!(file, made.to_bytes(), "{name}");
        let said = second::check_sheet(&docket.bytes(), &file);
        assert_eq!(second::decides_line(&said), format!("{line}\n"));
        let agents = match docket.states.len() {
            10 => 2..=4,
            21 => 6..=9,
            _ => AGENTS,
        };
        let shown = outputs_shown(&docket, &said.expect("a claim"), agents);
        assert_eq!(shown, Ok([0, 1].into()), "{name}");
    }
}
