//! Samples of claim sheets, with what is said of them.

use crate::make::fixed::with_fixed;
use crate::make::sheet::*;
use crate::make::{self, bits, node};
use crate::pages::with_bytes;
use crate::remainders::{closed_by, numbers, row, with_facts};
use crate::totals;
use second::{Claim, Docket, Node, Sheet, SheetLeaf};

/// A name, the docket and the sheet of `base`, what is changed in the docket and in the sheet, and what is said. Nodes
/// have kind, party, argument and set, and are numbered through both trees.
///
/// Docket: `fixed` and the numbers of fixed agents of its first states; places of bytes and what they are set to; or
/// `to` and a length. Sheet: `c` the limit, `a` the number of a state, `y` the weight of a state in a leaf, `k` the
/// multiplier of a leaf, `n` a node, `first` and `second` a tree, `leaf` one leaf more; then in its bytes `h` a number
/// of the header, `b` a byte, or `to` and a length, to which it is cut or made up with zeros.
const SAMPLES: &str = "\
the sheet of FORMAT.md | broadcast | - | - | accepted
its first 125 bytes | broadcast | - | to 125 | refused 15 0
3 states | broadcast | - | h0=3 | refused 15 0
multiplier 10,001 | broadcast | - | k0=10001 | refused 15 0
limit 0 | broadcast | - | c=0 | refused 13 3
limit 2 | broadcast | - | c=2 | refused 13 7
multiplier 0 | broadcast | - | k0=0 | refused 13 3
a number that the claim does not allow | broadcast | - | a0=1 | refused 13 3
party 2 | broadcast | - | n1=1 2 0 0 | refused 12 1
kind 7 | broadcast | - | n3=7 0 0 2 | refused 12 3
without node 3 | broadcast | - | first=3 1 0 0, 1 1 0 0, 5 1 0 2 | refused 12 3
without node 7 | broadcast | - | second=4 0 1 0, 6 1 0 2, 1 1 0 0 | refused 12 7
a ninth node | broadcast | - | second=4 0 1 0, 6 1 0 2, 1 1 0 0, 0 0 0 0, 9 9 9 9 | refused 12 8
the trees exchanged | broadcast | - | first=4 0 1 0, 6 1 0 2, 1 1 0 0, 0 0 0 0; second=3 1 0 0, 1 1 0 0, 5 1 0 2, 0 0 0 0 | refused 13 2
the last node of the first tree to the second | broadcast | - | h1=3; h2=5 | refused 12 3
the first node of the second tree to the first | broadcast | - | h1=5; h2=3 | refused 12 4
a node left over in the first tree | broadcast | - | first=3 1 0 0, 1 1 0 0, 5 1 0 2, 0 0 0 0, 1 1 0 0 | refused 12 4
a node left over in the first tree, the second runs out | broadcast | - | first=3 1 0 0, 1 1 0 0, 5 1 0 2, 0 0 0 0, 9 9 9 9; second=4 0 1 0 | refused 12 4
the first tree runs out, the second has a node too many | broadcast | - | first=3 1 0 0, 1 1 0 0; second=5 1 0 2, 0 0 0 0, 4 0 1 0, 6 1 0 2, 1 1 0 0, 0 0 0 0 | refused 12 2
both trees are the first | broadcast | - | second=3 1 0 0, 1 1 0 0, 5 1 0 2, 0 0 0 0 | refused 13 5
both trees are the second | broadcast | - | first=4 0 1 0, 6 1 0 2, 1 1 0 0, 0 0 0 0 | refused 13 2
facts of the first tree in the second | broadcast | - | second=1 1 0 0 | refused 13 4
a fact of the first child in the second | broadcast | - | second=4 0 1 0, 0 0 0 0, 0 0 0 0 | refused 13 5
version 2 | broadcast | fixed 0 0 | - | accepted
version 2, limit 2 | broadcast | fixed 0 0 | c=2 | refused 13 7
3 fixed agents | broadcast | fixed 0 3 | - | accepted
limit 3 of 3 fixed agents | broadcast | fixed 0 3 | c=3 | accepted
limit 4 of 3 fixed agents | broadcast | fixed 0 3 | c=4 | refused 13 7
limit 3 of 2 fixed agents | broadcast | fixed 0 2 | c=3 | refused 13 7
limit 1,000 of 1,000 fixed agents | broadcast | fixed 0 1000 | c=1000 | accepted
limit 1,001 of 1,000 fixed agents | broadcast | fixed 0 1000 | c=1001 | refused 13 7
fixed agents in the other state | broadcast | fixed 3 0 | - | accepted
fixed agents in the other state, limit 2 | broadcast | fixed 3 0 | c=2 | refused 13 7
fixed agents in both states, twice the number | broadcast | fixed 5 3 | a1=2; c=6 | accepted
fixed agents in both states, limit 7 | broadcast | fixed 5 3 | a1=2; c=7 | refused 13 7
number 32,767 | broadcast | - | a1=32767 | accepted
number -32,768 | broadcast | - | a1=-32768 | refused 13 7
number 256 | broadcast | - | a1=256 | accepted
number 256, limit 256 | broadcast | - | a1=256; c=256 | accepted
number 256, limit 257 | broadcast | - | a1=256; c=257 | refused 13 7
number 32,767, limit 32,767 | broadcast | - | a1=32767; c=32767 | accepted
number 32,767, limit 32,768 | broadcast | - | a1=32767; c=32768 | refused 13 7
the least limit | broadcast | - | c=-2147483648 | refused 13 3
the greatest limit | broadcast | - | c=2147483647 | refused 13 7
limit 65,537, of which 16 bits are 1 | broadcast | - | c=65537 | refused 13 7
limit -65,535, of which 16 bits are 1 | broadcast | - | c=-65535 | refused 13 3
multiplier 2 | broadcast | - | k0=2 | accepted
multiplier 10,000 | broadcast | - | k0=10000 | accepted
multiplier 256 | broadcast | - | k0=256 | accepted
multiplier 65,535 | broadcast | - | k0=65535 | refused 15 0
multiplier 32,768 | broadcast | - | k0=32768 | refused 15 0
a positive weight at an input | broadcast | - | y0.0=1 | refused 13 3
a negative weight at the end | broadcast | - | y0.0=-1 | refused 13 3
a weight that only an unused rule raises, in the first tree | broadcast | - | y0.1=1 | refused 13 7
weight 10,000 | broadcast | - | leaf=10000 10000 0 | accepted
weight -10,000 | broadcast | - | leaf=-10000 -10000 0 | accepted
weight 10,001 of a leaf that no node names | broadcast | - | leaf=0 10001 0 | refused 15 0
weight -10,001 of a leaf that no node names | broadcast | - | leaf=-10001 0 0 | refused 15 0
weight 32,767 of a leaf that no node names | broadcast | - | leaf=32767 0 0 | refused 15 0
weight -32,768 of a leaf that no node names | broadcast | - | leaf=0 -32768 0 | refused 15 0
multiplier 10,001 of a leaf that no node names | broadcast | - | leaf=0 0 10001 | refused 15 0
multiplier 10,000 of a leaf that no node names | broadcast | - | leaf=0 0 10000 | accepted
the other leaf | broadcast | - | leaf=0 0 0; n7=0 0 1 0 | refused 13 7
a leaf behind the last | broadcast | - | n3=0 0 1 0 | refused 12 3
leaf 256 of one | broadcast | - | n3=0 0 256 0 | refused 12 3
test 15 before test 12 | broadcast | - | k0=10001; n0=9 9 9 9 | refused 15 0
test 15 before test 13 | broadcast | - | leaf=0 10001 0; c=0 | refused 15 0
test 13 of the first tree before test 12 of the second | broadcast | - | c=0; n4=9 9 9 9 | refused 13 3
test 12 before test 13 at a node | broadcast | - | c=0; n3=0 0 0 1 | refused 12 3
kind 0 with party 1 | broadcast | - | n3=0 1 0 0 | refused 12 3
kind 0 with a set | broadcast | - | n7=0 0 0 1 | refused 12 7
kind 1 with party 0 | broadcast | - | n1=1 0 0 0 | refused 12 1
kind 1 with party 2 in the second tree | broadcast | - | n6=1 2 0 0 | refused 12 6
kind 1 with an argument | broadcast | - | n6=1 1 1 0 | refused 12 6
kind 1 with a set | broadcast | - | n1=1 1 0 1 | refused 12 1
kind 1 before its ground holds | broadcast | - | n0=1 1 0 0 | refused 13 0
kind 2 with party 2 | broadcast | - | n1=2 2 0 0 | refused 12 1
kind 2 with a state behind the last | broadcast | - | n1=2 1 2 0 | refused 12 1
kind 2 without its ground | broadcast | - | n6=2 1 1 0 | refused 13 6
kind 2 with a set | broadcast | - | n6=2 1 1 1 | refused 12 6
kind 3 with party 0 | broadcast | - | n0=3 0 0 0 | refused 12 0
kind 3 with party 2 | broadcast | - | n0=3 2 0 0 | refused 12 0
kind 3 with a rule behind the last | broadcast | - | n0=3 1 1 0 | refused 12 0
kind 3 with a set | broadcast | - | n0=3 1 0 1 | refused 12 0
kind 4 with party 2 | broadcast | - | n4=4 2 1 0 | refused 12 4
kind 4 with a state behind the last | broadcast | - | n4=4 0 2 0 | refused 12 4
kind 4 with a set | broadcast | - | n4=4 0 1 1 | refused 12 4
kind 5 with party 0 | broadcast | - | n2=5 0 0 2 | refused 12 2
kind 5 with party 2 | broadcast | - | n2=5 2 0 2 | refused 12 2
kind 5 with an argument | broadcast | - | n2=5 1 1 2 | refused 12 2
kind 5 without a set | broadcast | - | n2=5 1 0 0 | refused 12 2
kind 5 with a state behind the last | broadcast | - | n2=5 1 0 6 | refused 12 2
kind 5 with a state that is not absent | broadcast | - | n2=5 1 0 1 | refused 13 2
kind 6 with party 0 | broadcast | - | n5=6 0 0 2 | refused 12 5
kind 6 with party 2 | broadcast | - | n5=6 2 0 2 | refused 12 5
kind 6 with a state that is not absent | broadcast | - | n5=6 1 0 1 | refused 13 5
kind 6 with state 63 | broadcast | - | n5=6 1 0 9223372036854775810 | refused 12 5
kind 7 with modulus 2 in the second tree | broadcast | - | n7=7 0 0 2 | refused 12 7
kind 8 | broadcast | - | n0=8 1 0 0 | refused 12 0
kind 255 | broadcast | - | n4=255 0 1 0 | refused 12 4
two rules for a pair | two outcomes | - | - | accepted
two rules for a pair, limit 0 | two outcomes | - | c=0 | refused 13 5
two rules for a pair, a trap that one of them leaves | two outcomes | 34=2 | n4=5 1 0 2 | refused 13 4
two rules for a pair, the whole trap | two outcomes | 34=2 | - | accepted
a number at the last state, which is no input | two outcomes | - | a2=1 | refused 15 0
majority | majority | - | - | accepted
majority, limit 1 | majority | - | c=1 | refused 13 12
majority, limit -1 | majority | - | c=-1 | refused 13 10
majority, multiplier 2 in the first tree | majority | - | k0=2 | refused 13 10
majority, multiplier 2 in the second tree | majority | - | k1=2 | refused 13 12
majority, multiplier 0 in the second tree | majority | - | k1=0 | refused 13 12
majority, all doubled | majority | - | a0=-2; a1=2; y0.0=2; y0.1=-2; y1.0=-2; y1.1=2 | accepted
majority, all doubled, limit 1 | majority | - | a0=-2; a1=2; c=1; y0.0=2; y0.1=-2; y1.0=-2; y1.1=2 | refused 13 12
majority, all doubled, limit -1 | majority | - | a0=-2; a1=2; c=-1; y0.0=2; y0.1=-2; y1.0=-2; y1.1=2 | accepted
majority, weights and multipliers doubled | majority | - | k0=2; k1=2; y0.0=2; y0.1=-2; y1.0=-2; y1.1=2 | accepted
majority, the leaves exchanged | majority | - | n10=0 0 1 0; n12=0 0 0 0 | refused 13 10
majority, numbers exchanged | majority | - | a0=1; a1=-1 | refused 13 10
majority, a number at a state that is no input | majority | - | a2=1 | refused 15 0
majority, the number 256 at a state that is no input | majority | - | a3=256 | refused 15 0
majority, the number -1 at a state that is no input | majority | - | a3=-1 | refused 15 0
majority with fixed agents | majority | fixed 2 5 | - | accepted
majority with fixed agents, limit 1 | majority | fixed 2 5 | c=1 | refused 13 12
majority of fixed agents | fixed majority | - | - | accepted
majority of fixed agents, the other way | fixed majority | fixed 2 3 | - | refused 13 1
the output 1 spreads | maximum of 4 states | - | - | accepted
the output 1 spreads, limit 0 | maximum of 4 states | - | c=0 | refused 13 3
the output 1 spreads, limit 2 | maximum of 4 states | - | c=2 | refused 13 18
the output 0 spreads | maximum of 4 states, output 0 | - | - | accepted
the output 0 spreads, limit 1 | maximum of 4 states, output 0 | - | c=1 | refused 13 9
the output 0 spreads, limit -1 | maximum of 4 states, output 0 | - | c=-1 | refused 13 4
a vote of 2 | quorum of 2 | - | - | accepted
a vote of 2, limit 1 | quorum of 2 | - | c=1 | refused 13 2
a vote of 2, limit 3 | quorum of 2 | - | c=3 | refused 13 25
a vote of 2, a number at the keeper | quorum of 2 | - | a2=1 | refused 15 0
a vote of 2, two keepers, which the docket does not allow | quorum of 2 | fixed 0 0 2 | - | refused 13 11
a vote of 2, fixed votes | quorum of 2 | fixed 7 1 1 | - | accepted
a vote of 1 | quorum of 1 | - | - | accepted
a vote of 9 | quorum of 9 | - | - | accepted
a vote of 9, limit 8 | quorum of 9 | - | c=8 | refused 13 2
a threshold of 2 | threshold of 2 | - | - | accepted
a threshold of 2, limit 0 | threshold of 2 | - | c=0 | refused 13 51
a threshold of 2, limit -2 | threshold of 2 | - | c=-2 | refused 13 26
a threshold of 11 | threshold of 11 | - | - | accepted
a relay | relay of 5 states | - | - | accepted
1,024 nodes in each tree | relay of 60 states | - | - | accepted
1,024 nodes in each tree, the last node of the first fails | relay of 60 states | - | n1023=1 1 0 0 | refused 13 1023
1,024 nodes in each tree, the first node of the second fails | relay of 60 states | - | n1024=1 1 0 0 | refused 13 1024
1,024 nodes in each tree, the last node of the second fails | relay of 60 states | - | n2047=1 1 0 0 | refused 13 2047
1,024 nodes in each tree, a bad field in the last node | relay of 60 states | - | n2047=0 0 128 0 | refused 12 2047
every count at its limit | largest | - | - | accepted
every count at its limit, the last number of the last leaf | largest | - | k127=10001 | refused 15 0
every count at its limit, the last weight of the last leaf | largest | - | y127.63=-10001 | refused 15 0
every count at its limit, the number of the last state | largest | - | a63=1 | refused 15 0
every count at its limit, 1,025 nodes | largest | - | h1=1025 | refused 15 0
every count at its limit, a docket of version 2 | largest | fixed 1000 | - | accepted
depth 40 | depth 40 | - | - | accepted
depth 41 in the first tree | depth 41 | - | second=0 0 0 0 | refused 12 40
depth 41 in the second tree | depth 41 | - | first=1 1 0 0 | refused 12 41
depth 41 in both trees | depth 41 | - | - | refused 12 40
no docket | broadcast | to 0 | - | refused 1 0
neither docket nor sheet | broadcast | to 0 | to 0 | refused 1 0
no sheet | broadcast | - | to 0 | refused 15 0
one byte of a sheet | broadcast | - | to 1 | refused 15 0
15 bytes | broadcast | - | to 15 | refused 15 0
15 bytes, as the header would say | broadcast | - | b14=15; to 15 | refused 15 0
16 bytes | broadcast | - | to 16 | refused 15 0
16 bytes, as the header says | broadcast | - | h7=16; to 16 | refused 15 0
127 bytes | broadcast | - | to 127 | refused 15 0
127 bytes, as the header says | broadcast | - | h7=127; to 127 | refused 15 0
65,535 bytes, as the header says | broadcast | - | h7=65535; to 65535 | refused 15 0
65,662 bytes, of which 16 bits are the total | broadcast | - | to 65662 | refused 15 0
no nodes in the first tree | broadcast | - | h1=0; h2=8 | refused 15 0
no nodes in the second tree | broadcast | - | h1=8; h2=0 | refused 15 0
no nodes and no bytes of them in the second tree | broadcast | - | second= | refused 15 0
1,025 nodes in the first tree, as long as they are | long first | - | - | refused 15 0
1,025 nodes in the second tree, as long as they are | long second | - | - | refused 15 0
129 leaves, as long as they are | 129 leaves | - | - | refused 15 0
128 leaves | 128 leaves | - | - | accepted
";

/// A name, the tree that is tried, the fixed agents of A, B, C and D, the numbers of A and B, the limit, the facts that
/// lead to a leaf, its weights, its multiplier, and what is said. States, rules and facts are those of `remainders`: A
/// and B are inputs, with the rules A A to C C, B B to C C and D D to C D. Where the facts do not hold, the assumption
/// alone closes the tree. All states have output 0 where the first tree is tried, else output 1, so that the other tree
/// is closed at once; before the nodes of the second tree stands that of the first.
const LEAVES: &str = "\
the assumption alone | 1 | 0 0 0 0 | 0 0 | 1 |  | 0 0 0 0 | 1 | accepted
without it | 1 | 0 0 0 0 | 0 0 | 1 |  | 0 0 0 0 | 0 | refused 13 0
the assumption is not wrong | 1 | 0 0 0 0 | 0 0 | 0 |  | 0 0 0 0 | 1 | refused 13 0
the start weight is 0 | 1 | 0 0 0 0 | -2 0 | 1 |  | 2 0 0 0 | 1 | accepted
the start weight is 1 | 1 | 0 0 0 0 | -2 0 | 1 |  | 3 0 0 0 | 1 | refused 13 0
the start weight is 0, multiplier 3 | 1 | 0 0 0 0 | -2 0 | 1 |  | 6 0 0 0 | 3 | accepted
the start weight is 1, multiplier 3 | 1 | 0 0 0 0 | -2 0 | 1 |  | 7 0 0 0 | 3 | refused 13 0
the start weight of the other input | 1 | 0 0 0 0 | 0 -2 | 1 |  | 0 2 0 0 | 1 | accepted
the start weight of the other input is 1 | 1 | 0 0 0 0 | 0 -2 | 1 |  | 0 3 0 0 | 1 | refused 13 0
a start weight of no input | 1 | 0 0 0 0 | 0 0 | 1 |  | 0 0 0 1 | 1 | accepted
a start weight of an input that is absent | 1 | 0 0 0 0 | -1 0 | 1 | A0- | 2 0 0 0 | 1 | accepted
equal sums | 1 | 0 0 0 0 | 0 0 | 1 | A1! C1- | -1 0 -1 0 | 1 | refused 13 2
the limit makes the upper sum less | 1 | 0 0 0 0 | 0 0 | 2 | A1! C1- | -1 0 -1 0 | 1 | accepted
the multiplier makes the upper sum less | 1 | 0 0 0 0 | 0 0 | 1 | A1! C1- | -1 0 -1 0 | 2 | accepted
multiplier times limit, equal sums | 1 | 0 0 0 0 | 0 0 | 5 | A1! C1- | -15 0 -15 0 | 3 | refused 13 2
multiplier times limit | 1 | 0 0 0 0 | 0 0 | 5 | A1! C1- | -14 0 -14 0 | 3 | accepted
a negative weight without at most one | 1 | 0 0 0 0 | 0 0 | 2 | C1- | -1 0 -1 0 | 1 | refused 13 1
a negative weight of an absent state | 1 | 0 0 0 0 | 0 0 | 1 | A1- C1- | -1 0 -1 0 | 1 | accepted
a negative weight of an absent state that is at most one | 1 | 0 0 0 0 | 0 0 | 1 | A1! A1- C1- | -1 0 -1 0 | 1 | accepted
present at the end | 1 | 0 0 0 0 | -9 0 | 1 | A1+ | 1 0 0 0 | 1 | accepted
present at the end, multiplier 0 | 1 | 0 0 0 0 | 0 0 | 1 | D1+ | 0 0 0 1 | 0 | accepted
not present at the end, multiplier 0 | 1 | 0 0 0 0 | 0 0 | 1 |  | 0 0 0 1 | 0 | refused 13 0
present and absent at the end, multiplier 0 | 1 | 0 0 0 0 | 0 0 | 1 | D1+ D1- | 0 0 0 1 | 0 | refused 13 3
present at the start | 1 | 0 0 0 0 | -3 0 | 1 | A0+ A1! C1- | -1 0 -1 0 | 1 | accepted
present at the start joins once | 1 | 0 0 0 0 | -3 0 | 1 | A0+ A1! C1- | -4 0 -4 0 | 1 | accepted
not present at the start | 1 | 0 0 0 0 | -3 0 | 1 | A1! C1- | -1 0 -1 0 | 1 | refused 13 2
present and absent at the start | 1 | 0 0 0 0 | -3 0 | 1 | A0+ A0- A1! C1- | -1 0 -1 0 | 1 | refused 13 5
3 fixed agents of an input | 1 | 3 0 0 0 | -2 0 | 1 | B1! C1- | 0 -6 -6 0 | 1 | accepted
3 fixed agents of an input, equal sums | 1 | 3 0 0 0 | -2 0 | 1 | B1! C1- | 0 -7 -7 0 | 1 | refused 13 2
2 fixed agents of an input | 1 | 2 0 0 0 | -2 0 | 1 | B1! C1- | 0 -6 -6 0 | 1 | refused 13 2
fixed agents of an input, multiplier 4 | 1 | 3 0 0 0 | -2 0 | 1 | B1! C1- | 0 -27 -27 0 | 4 | accepted
fixed agents of an input, multiplier 4, equal sums | 1 | 3 0 0 0 | -2 0 | 1 | B1! C1- | 0 -28 -28 0 | 4 | refused 13 2
fixed agents of an input, a limit below 0 | 1 | 3 0 0 0 | -2 0 | -5 | B1! C1- | 0 0 0 0 | 1 | accepted
fixed agents of an input, a limit that is their sum | 1 | 3 0 0 0 | -2 0 | -6 | B1! C1- | 0 0 0 0 | 1 | refused 13 2
fixed agents of an input, a positive start weight | 1 | 1 0 0 0 | -1 0 | 5 |  | 2 0 0 0 | 1 | refused 13 0
fixed agents of an input, a start weight of 0 | 1 | 9 0 0 0 | -1 0 | 1 | B1! C1- | 1 0 0 0 | 1 | accepted
fixed agents of an input, absent at the start | 1 | 9 0 0 0 | -1 0 | 1 | A0- B1! C1- | 0 -1 -1 0 | 1 | refused 13 3
fixed agents of no input | 1 | 0 0 0 2 | 0 0 | 3 |  | 0 0 0 1 | 1 | accepted
fixed agents of no input, equal sums | 1 | 0 0 0 3 | 0 0 | 3 |  | 0 0 0 1 | 1 | refused 13 0
fixed agents of no input, multiplier 2 | 1 | 0 0 0 5 | 0 0 | 3 |  | 0 0 0 1 | 2 | accepted
fixed agents of no input, multiplier 2, equal sums | 1 | 0 0 0 6 | 0 0 | 3 |  | 0 0 0 1 | 2 | refused 13 0
fixed agents of no input, a negative start weight | 1 | 0 0 0 2 | 0 0 | 1 | C1- D1- | 0 0 -1 -1 | 0 | accepted
fixed agents of no input, absent at the start | 1 | 0 0 0 9 | 0 0 | 1 | D0- | 0 0 0 1 | 1 | accepted
1,000 fixed agents | 1 | 1000 0 0 1000 | -10 0 | 1 |  | 0 0 0 10 | 1 | accepted
1,000 fixed agents, equal sums | 1 | 1000 0 0 1000 | -10 0 | -9999 |  | 0 0 0 0 | 1 | accepted
1,000 fixed agents, a limit that is their sum | 1 | 1000 0 0 1000 | -10 0 | -10000 |  | 0 0 0 0 | 1 | refused 13 0
a rule raises the weights | 1 | 0 0 0 0 | 0 0 | 1 |  | 0 0 1 0 | 1 | refused 13 0
only one of the rules that raise the weights is unused | 1 | 0 0 0 0 | 0 0 | 1 | D1s | 0 0 1 0 | 1 | refused 13 1
all rules that raise the weights unused | 1 | 0 0 0 0 | 0 0 | 1 | D1s | 0 0 0 -1 | 1 | accepted
a rule keeps the weights | 1 | 0 0 0 0 | -1 -1 | 1 |  | 1 1 1 1 | 1 | accepted
multiplier 10,000 and limit 2,147,483,647 | 1 | 0 0 0 0 | 0 0 | 2147483647 |  | 0 0 0 0 | 10000 | accepted
multiplier 10,000 and number -32,768 | 1 | 1000 1000 0 0 | -32768 -32768 | -65535999 |  | 0 0 0 0 | 10000 | accepted
multiplier 10,000 and number -32,768, equal sums | 1 | 1000 1000 0 0 | -32768 -32768 | -65536000 |  | 0 0 0 0 | 10000 | refused 13 0
the least limit | 1 | 0 0 0 0 | -32768 0 | -2147483648 |  | 0 0 0 0 | 1 | refused 13 0
the assumption alone | 2 | 0 0 0 0 | 0 0 | 0 |  | 0 0 0 0 | 1 | accepted
without it | 2 | 0 0 0 0 | 0 0 | 0 |  | 0 0 0 0 | 0 | refused 13 1
the assumption is not wrong | 2 | 0 0 0 0 | 0 0 | 1 |  | 0 0 0 0 | 1 | refused 13 1
the start weight is 0 | 2 | 0 0 0 0 | 2 0 | 0 |  | 2 0 0 0 | 1 | accepted
the start weight is 1 | 2 | 0 0 0 0 | 2 0 | 0 |  | 3 0 0 0 | 1 | refused 13 1
the start weight is 0, multiplier 3 | 2 | 0 0 0 0 | 2 0 | 0 |  | 6 0 0 0 | 3 | accepted
the start weight is 1, multiplier 3 | 2 | 0 0 0 0 | 2 0 | 0 |  | 7 0 0 0 | 3 | refused 13 1
the start weight of the other input | 2 | 0 0 0 0 | 0 2 | 0 |  | 0 2 0 0 | 1 | accepted
the start weight of the other input is 1 | 2 | 0 0 0 0 | 0 2 | 0 |  | 0 3 0 0 | 1 | refused 13 1
equal sums | 2 | 0 0 0 0 | 0 0 | 0 | A1! C1- | -1 0 -1 0 | 1 | refused 13 3
the limit makes the upper sum less | 2 | 0 0 0 0 | 0 0 | -1 | A1! C1- | -1 0 -1 0 | 1 | accepted
the multiplier makes the upper sum less | 2 | 0 0 0 0 | 0 0 | 0 | A1! C1- | -1 0 -1 0 | 2 | accepted
multiplier times the limit less 1, equal sums | 2 | 0 0 0 0 | 0 0 | -4 | A1! C1- | -15 0 -15 0 | 3 | refused 13 3
multiplier times the limit less 1 | 2 | 0 0 0 0 | 0 0 | -4 | A1! C1- | -14 0 -14 0 | 3 | accepted
a negative weight without at most one | 2 | 0 0 0 0 | 0 0 | -1 | C1- | -1 0 -1 0 | 1 | refused 13 2
present at the end, multiplier 0 | 2 | 0 0 0 0 | 0 0 | 0 | D1+ | 0 0 0 1 | 0 | accepted
present at the start | 2 | 0 0 0 0 | 3 0 | 0 | A0+ A1! C1- | -1 0 -1 0 | 1 | accepted
not present at the start | 2 | 0 0 0 0 | 3 0 | 0 | A1! C1- | -1 0 -1 0 | 1 | refused 13 3
3 fixed agents of an input | 2 | 3 0 0 0 | 2 0 | 0 | B1! C1- | 0 -6 -6 0 | 1 | accepted
3 fixed agents of an input, equal sums | 2 | 3 0 0 0 | 2 0 | 0 | B1! C1- | 0 -7 -7 0 | 1 | refused 13 3
2 fixed agents of an input | 2 | 2 0 0 0 | 2 0 | 0 | B1! C1- | 0 -6 -6 0 | 1 | refused 13 3
fixed agents of an input, multiplier 4 | 2 | 3 0 0 0 | 2 0 | 0 | B1! C1- | 0 -27 -27 0 | 4 | accepted
fixed agents of an input, multiplier 4, equal sums | 2 | 3 0 0 0 | 2 0 | 0 | B1! C1- | 0 -28 -28 0 | 4 | refused 13 3
fixed agents of an input, a limit that is their sum | 2 | 3 0 0 0 | 2 0 | 6 | B1! C1- | 0 0 0 0 | 1 | accepted
fixed agents of an input, a limit above their sum | 2 | 3 0 0 0 | 2 0 | 7 | B1! C1- | 0 0 0 0 | 1 | refused 13 3
fixed agents of an input, a positive start weight | 2 | 1 0 0 0 | 1 0 | -4 |  | 2 0 0 0 | 1 | refused 13 1
fixed agents of an input, absent at the start | 2 | 9 0 0 0 | 1 0 | 0 | A0- B1! C1- | 0 -1 -1 0 | 1 | refused 13 4
fixed agents of no input | 2 | 0 0 0 2 | 0 0 | -2 |  | 0 0 0 1 | 1 | accepted
fixed agents of no input, equal sums | 2 | 0 0 0 3 | 0 0 | -2 |  | 0 0 0 1 | 1 | refused 13 1
a rule raises the weights | 2 | 0 0 0 0 | 0 0 | 0 |  | 0 0 1 0 | 1 | refused 13 1
all rules that raise the weights unused | 2 | 0 0 0 0 | 0 0 | 0 | D1s | 0 0 0 -1 | 1 | accepted
the least limit | 2 | 0 0 0 0 | 0 0 | -2147483648 |  | 0 0 0 0 | 1 | accepted
the least limit and multiplier 10,000 | 2 | 0 0 0 0 | 0 0 | -2147483648 | A1! C1- | -10000 0 -10000 0 | 10000 | accepted
the greatest limit | 2 | 0 0 0 0 | 32767 0 | 2147483647 |  | 0 0 0 0 | 1 | refused 13 1
multiplier 10,000 and number 32,767 | 2 | 1000 1000 0 0 | 32767 32767 | 65534000 |  | 0 0 0 0 | 10000 | accepted
multiplier 10,000 and number 32,767, equal sums | 2 | 1000 1000 0 0 | 32767 32767 | 65534001 |  | 0 0 0 0 | 10000 | refused 13 1
";

/// A name, standard input of the program `decides` for the docket and the sheet of broadcast, 99 and 126 bytes, and the
/// line: a number of 16 bits, or `-` and its bytes, and how many bytes of the docket and of the sheet follow.
const INPUTS: &str = "\
docket and sheet | 99 | 99 | 126 | accepted 0 1 1
no byte | - | 0 | 0 | refused 1 0
one byte of the number | - 99 | 0 | 0 | refused 1 0
one byte of the number, 0 | - 0 | 0 | 0 | refused 1 0
the number alone | 99 | 0 | 0 | refused 1 0
the number 0 alone | 0 | 0 | 0 | refused 1 0
the number 0 and a sheet | 0 | 0 | 126 | refused 1 0
the greatest number alone | 65535 | 0 | 0 | refused 1 0
a docket | 99 | 99 | 0 | refused 15 0
a docket, and a greater number | 100 | 99 | 0 | refused 15 0
a docket, and a number of a high byte more | 355 | 99 | 0 | refused 15 0
a docket, and the greatest number | 65535 | 99 | 0 | refused 15 0
a docket that is cut | 99 | 98 | 0 | refused 1 0
a docket that is cut, and its number | 98 | 98 | 0 | refused 1 0
a number too small by one | 98 | 99 | 126 | refused 1 0
a number too great by one | 100 | 99 | 126 | refused 1 0
a number for both | 225 | 99 | 126 | refused 1 0
the greatest number for both | 65535 | 99 | 126 | refused 1 0
one byte of a sheet | 99 | 99 | 1 | refused 15 0
a sheet that is cut | 99 | 99 | 125 | refused 15 0
a sheet with a byte more | 99 | 99 | 127 | refused 15 0
65,535 bytes of a sheet | 99 | 99 | 65535 | refused 15 0
65,536 bytes of a sheet | 99 | 99 | 65536 | refused 15 0
65,662 bytes of a sheet, of which 16 bits are the total | 99 | 99 | 65662 | refused 15 0
200,000 bytes of a sheet | 99 | 99 | 200000 | refused 15 0
65,535 bytes of a docket | 65535 | 65535 | 126 | refused 1 0
";

/// Names, standard inputs of the program `decides`, and their lines.
pub fn inputs() -> Vec<(&'static str, Vec<u8>, String)> {
    let (docket, sheet) = base("broadcast");
    let (docket, sheet) = (docket.bytes(), sheet.to_bytes());
    let cut = |bytes: &[u8], length: &str| changed_bytes(bytes.to_vec(), &format!("to {length}"));
    let input = |text: &'static str| {
        let [name, number, of_docket, of_sheet, line] = row(text);
        let number: Vec<u8> = match number.strip_prefix('-') {
            Some(bytes) => numbers(bytes).into_iter().map(|byte| byte as u8).collect(),
            None => number.parse::<u16>().expect("a number").to_le_bytes().into(),
        };
        let input = [number, cut(&docket, of_docket), cut(&sheet, of_sheet)].concat();
        (name, input, format!("{line}\n"))
    };
    INPUTS.lines().map(input).collect()
}

/// The docket and the sheet of a name.
fn base(name: &str) -> Claimed {
    let number = |kind: &str| name.strip_prefix(kind).map(|number| number.parse().expect("a number"));
    if let Some(votes) = number("quorum of ") {
        return claimed_quorum(votes, [0, 0]);
    }
    if let Some(threshold) = number("threshold of ") {
        return claimed_threshold(threshold, &[0, 1]);
    }
    if let Some(leaves) = name.strip_suffix(" leaves") {
        let leaves = leaves.parse().expect("a number of leaves");
        return with_sheet(make::broadcast(), |d| with_leaves(spread(d, 1), leaves));
    }
    let relay = |first: usize, second: usize| {
        with_sheet(make::relay(60, 2048), |d| Sheet {
            second: relay_sheet(d, second, 128).second,
            ..relay_sheet(d, first, 128)
        })
    };
    match name {
        "broadcast" => with_sheet(make::broadcast(), |d| spread(d, 1)),
        "two outcomes" => with_sheet(make::two_outcomes(), |d| spread(d, 1)),
        "maximum of 4 states" => with_sheet(make::maximum(&[0, 0, 1, 1]), |d| spread(d, 1)),
        "maximum of 4 states, output 0" => with_sheet(make::maximum(&[1, 1, 0, 0]), |d| spread(d, 0)),
        "majority" => claimed_majority([0, 0]),
        "fixed majority" => with_sheet(make::fixed::majority(3, 2), fixed_majority_sheet),
        "relay of 5 states" => with_sheet(make::relay(5, 5), |d| relay_sheet(d, 4, 2)),
        "relay of 60 states" => relay(1024, 1024),
        "long first" => relay(1025, 1024),
        "long second" => relay(1024, 1025),
        "largest" => with_sheet(make::largest(), |d| unreached_sheet(d, 1024, 128)),
        "depth 40" => with_sheet(make::deep(40), |_| deep_sheet(40)),
        "depth 41" => with_sheet(make::deep(40), |_| deep_sheet(41)),
        _ => panic!("{name} is no sheet"),
    }
}

/// The sheet with its first leaf so often.
fn with_leaves(mut sheet: Sheet, number: usize) -> Sheet {
    sheet.leaves = vec![sheet.leaves[0].clone(); number];
    sheet
}

/// The bytes of a docket after a change of the samples.
fn changed_docket(docket: Docket, change: &str) -> Vec<u8> {
    if let Some(fixed) = change.strip_prefix("fixed ") {
        return with_fixed(docket, &numbers(fixed)).bytes();
    }
    changed_bytes(docket.bytes(), change.trim_matches('-'))
}

/// The bytes after a change: places of bytes and what they are set to, or a length.
fn changed_bytes(mut bytes: Vec<u8>, change: &str) -> Vec<u8> {
    if let Some(length) = change.strip_prefix("to ") {
        bytes.resize(length.parse().expect("a length"), 0);
        return bytes;
    }
    with_bytes(bytes, change)
}

/// The bytes of a sheet after the changes of the samples.
fn changed_sheet(mut sheet: Sheet, changes: &str) -> Vec<u8> {
    let changes: Vec<&str> = changes.split("; ").filter(|&change| change != "-").collect();
    let of_bytes: Vec<&&str> = changes
        .iter()
        .filter(|change| !change_sheet(&mut sheet, change))
        .collect();
    of_bytes.into_iter().fold(sheet.to_bytes(), |bytes, change| {
        let Some((field, number)) = change.strip_prefix('h').and_then(|text| text.split_once('=')) else {
            return changed_bytes(bytes, change.trim_start_matches('b'));
        };
        let (field, number): (usize, u16) = (field.parse().expect("a field"), number.parse().expect("a number"));
        let mut bytes = bytes;
        bytes[2 * field..2 * field + 2].copy_from_slice(&number.to_le_bytes());
        bytes
    })
}

/// Makes a change of the sheet, and says whether it is one; else it is one of the bytes.
fn change_sheet(sheet: &mut Sheet, change: &str) -> bool {
    let Some((field, value)) = change.split_once('=') else {
        return false;
    };
    let (letter, place) = field.split_at(1);
    let places: Vec<usize> = place.split('.').flat_map(str::parse).collect();
    let number = || value.parse().expect("a number");
    match (letter, &places[..]) {
        ("c", []) => sheet.limit = number(),
        ("a", [state]) => sheet.numbers[*state] = number(),
        ("k", [leaf]) => sheet.leaves[*leaf].multiplier = number(),
        ("y", [leaf, state]) => sheet.leaves[*leaf].weights[*state] = number(),
        ("n", [place]) => *node_at(sheet, *place) = node_of(value),
        ("f", []) => sheet.first = nodes_of(value),
        ("s", []) => sheet.second = nodes_of(value),
        ("l", []) => {
            let mut weights = numbers(value);
            let multiplier = weights.pop().expect("a multiplier");
            sheet.leaves.push(SheetLeaf { weights, multiplier });
        }
        _ => return false,
    }
    true
}

/// A node of a sheet, numbered through both trees.
fn node_at(sheet: &mut Sheet, place: usize) -> &mut Node {
    let first = sheet.first.len();
    if place < first {
        &mut sheet.first[place]
    } else {
        &mut sheet.second[place - first]
    }
}

fn nodes_of(text: &str) -> Vec<Node> {
    text.split_terminator(", ").map(node_of).collect()
}

/// The node of kind, party, argument and set.
fn node_of(text: &str) -> Node {
    let numbers: Vec<u64> = text
        .split(' ')
        .map(|number| number.parse().expect("a number"))
        .collect();
    let [kind, party, argument, set] = numbers[..] else {
        panic!("{text} is no node");
    };
    Node {
        set: bits(set),
        ..node(kind as u8, party as usize, argument as usize)
    }
}

/// A docket, a sheet, and the line.
pub struct Sample {
    pub name: String,
    pub docket: Vec<u8>,
    pub sheet: Vec<u8>,
    pub line: String,
}

impl Sample {
    /// A sample whose line, where it is accepted, has the numbers and the limit of a sheet.
    fn new(name: impl Into<String>, docket: Vec<u8>, sheet: Vec<u8>, said: &str, claimed: &Sheet) -> Sample {
        let (numbers, limit) = (claimed.numbers.clone(), claimed.limit);
        let line = match said {
            "accepted" => second::decides_line(&Ok(Claim { numbers, limit })),
            _ => format!("{said}\n"),
        };
        Sample {
            name: name.into(),
            docket,
            sheet,
            line,
        }
    }
}

pub fn all_samples() -> Vec<Sample> {
    let mut all: Vec<Sample> = SAMPLES.lines().map(changed).collect();
    all.extend(LEAVES.lines().map(leaf));
    all.extend(headers());
    all.extend(refused_dockets());
    all.extend(limits());
    all
}

fn changed(text: &'static str) -> Sample {
    let [name, claimed, docket, changes, said] = row(text);
    let (of_base, mut sheet) = base(claimed);
    let bytes = changed_sheet(sheet.clone(), changes);
    changes.split("; ").for_each(|change| {
        change_sheet(&mut sheet, change);
    });
    Sample::new(name, changed_docket(of_base, docket), bytes, said, &sheet)
}

fn leaf(text: &'static str) -> Sample {
    let [name, tree, fixed, of_inputs, limit, facts, weights, multiplier, said] = row(text);
    let output = u8::from(tree == "2");
    let number = |text: &str| text.parse().expect("a number");
    let mut docket = closed_by(node(1, 2 - usize::from(output), 0), "", vec![0; 4], vec![0; 4]);
    docket.states.iter_mut().for_each(|state| state.verdict = output);
    let plain = SheetLeaf {
        weights: vec![0; 4],
        multiplier: 1,
    };
    let tried = SheetLeaf {
        weights: numbers(weights),
        multiplier: number(multiplier),
    };
    let mut sheet = constant_sheet(
        &docket,
        [&numbers(of_inputs)[..], &[0, 0]].concat(),
        number(limit),
        tried,
    );
    sheet.leaves.push(plain);
    let tree = with_facts(facts, node(0, 0, 0), node(0, 0, 1));
    if output == 0 {
        sheet.first = tree;
    } else {
        sheet.second = tree;
    }
    let name = format!("leaf of tree {}, {name}", output + 1);
    let docket = with_fixed(docket, &numbers(fixed)).bytes();
    Sample::new(name, docket, sheet.to_bytes(), said, &sheet)
}

/// Each number of the header by one less and by one more.
fn headers() -> Vec<Sample> {
    let mut all = vec![];
    for name in ["broadcast", "majority", "quorum of 2", "largest"] {
        let (docket, sheet) = base(name);
        for (field, more) in (0..8).flat_map(|field| [(field, u16::MAX), (field, 1)]) {
            let mut bytes = sheet.to_bytes();
            let at = 2 * field..2 * field + 2;
            let number = u16::from_le_bytes([bytes[at.start], bytes[at.start + 1]]).wrapping_add(more);
            bytes[at].copy_from_slice(&number.to_le_bytes());
            let name = format!("{name}, header number {field} is {number}");
            all.push(Sample::new(name, docket.bytes(), bytes, "refused 15 0", &sheet));
        }
    }
    all
}

/// Dockets that the check refuses, with a sheet that would be accepted, with one that test 15 refuses, and with none.
fn refused_dockets() -> Vec<Sample> {
    let (_, sheet) = base("broadcast");
    let good = sheet.to_bytes();
    let sheets = [
        ("a good sheet", good.clone()),
        ("a bad sheet", good[..125].to_vec()),
        ("no sheet", vec![]),
    ];
    let mut all = vec![];
    for (name, docket, line) in totals::refused_dockets() {
        for (kind, bytes) in &sheets {
            let name = format!("{name}, {kind}");
            all.push(Sample::new(name, docket.clone(), bytes.clone(), line, &sheet));
        }
    }
    all
}

/// Sheets of other dockets, sections out of place, and sums as great as they can be.
fn limits() -> Vec<Sample> {
    let sample = |name: &str, docket: &Docket, sheet: &Sheet, said: &str| {
        Sample::new(name, docket.bytes(), sheet.to_bytes(), said, sheet)
    };
    let [(broadcast, of_broadcast), (majority, of_majority)] = ["broadcast", "majority"].map(base);
    let (maximum, _) = base("maximum of 4 states");
    let mut shifted = of_broadcast.to_bytes();
    shifted.splice(16..16, [0, 0]);
    for offset in [8, 10, 12, 14] {
        shifted[offset] += 2;
    }
    let mut all = vec![
        sample("the sheet of fewer states", &majority, &of_broadcast, "refused 15 0"),
        sample("the sheet of more states", &broadcast, &of_majority, "refused 15 0"),
        sample("the sheet of another docket", &maximum, &of_majority, "refused 13 4"),
        Sample::new(
            "sections shifted by two bytes",
            broadcast.bytes(),
            shifted,
            "refused 15 0",
            &of_broadcast,
        ),
    ];
    for (name, output, number, limit, said) in [
        ("output 1", 1, 32_767, 2_097_088_000, "accepted"),
        ("output 1, one more", 1, 32_767, 2_097_088_001, "refused 13 1"),
        ("output 0", 0, -32_768, -2_097_151_999, "accepted"),
        ("output 0, one less", 0, -32_768, -2_097_152_000, "refused 13 0"),
        ("output 1, the least limit", 1, 32_767, -2_147_483_648, "accepted"),
        ("output 0, the greatest limit", 0, -32_768, 2_147_483_647, "accepted"),
    ] {
        let (docket, sheet) = greatest_sums(output, number, limit);
        all.push(sample(&format!("the greatest sums, {name}"), &docket, &sheet, said));
    }
    all
}
