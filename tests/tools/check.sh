#!/usr/bin/env bash
# Tests tools/docket: its options, lines, words, summary and exit statuses on odd files and names, claim sheets, its
# progress, when it builds a program, two uses at once, signals, and that it leaves no temporary folder.
# A wait that ends by a time limit is a failure: no test passes or fails by how long something takes.
set -euo pipefail
cd "$(dirname "$0")/../.."
root=$(pwd -P)
work=$(cd "$(mktemp -d)" && pwd -P)
# shellcheck disable=SC2046
trap 'kill $(jobs -pr) 2>/dev/null || :; rm -rf "$work"' EXIT
. tests/holds.sh
out=$work/out err=$work/err
shown=("$out" "$err")
# Every temporary folder of the tool is made here, and at the end it is empty.
export TMPDIR=$work/tmp
mkdir "$TMPDIR"

for name in script flock setsid timeout; do
  command -v "$name" >/dev/null || { echo "tools: $name of util-linux or coreutils is not in PATH"; exit 2; }
done

# Runs a command and keeps its exit status, standard output and standard error.
try() {
  status=0
  "$@" >"$out" 2>"$err" </dev/null || status=$?
}

# Whether the last command ended with status $1, printed the lines $2, and nothing to standard error.
printed() { [[ $status == "$1" && $(<"$out") == "$2" && ! -s $err ]]; }

# Whether it ended with status $1, printed the lines $2, and said $3 among other words on standard error.
ended() { [[ $status == "$1" && $(<"$out") == "$2" && $(<"$err") == *"$3"* ]]; }

# Whether it ended with status $1, and printed the usage to the file $2 and nothing to the file $3.
usage() { [[ $status == "$1" && $(<"$2") == *'usage: tools/docket '* && ! -s $3 ]]; }

# Whether no temporary folder is left.
tidy() { [[ -z $(ls -A "$TMPDIR") ]]; }

# ---- files and names

mkdir "$work/files"
cd "$work/files"
tool=$root/tools/docket
good='accepted 2 1 1 5 1 1'
bad='refused 13 2: the ground of node 2 does not hold'
length='refused 1 0: the file has fewer than 24 bytes, or another length than its header says'
cp "$root/examples/broadcast.docket" good.docket
cp "$root/tests/corpus/P05_node2_set_1.docket" bad.docket
: >empty.docket
# The header names a length of 65,535 bytes and version 0.
{ head -c 22 /dev/zero && printf '\377\377' && head -c 65511 /dev/zero; } >65535.docket
{ cat 65535.docket && head -c 1 /dev/zero; } >65536.docket
{ cat 65536.docket && head -c 200000 /dev/zero; } >longer.docket
mkdir folder.docket
odd="%s\\n \$HOME \"q\" '*.docket"
for name in 'a b.docket' -x.docket --help -- - "$odd"; do cp good.docket "./$name"; done

# The program is built here, so that no test below says so.
try "$tool" good.docket
try "$tool" good.docket
holds 'one accepted file' printed 0 "good.docket: $good
1 file: 1 accepted, 0 refused, 0 trouble"

try "$tool" good.docket bad.docket good.docket
holds 'a refused file among accepted ones' printed 1 "good.docket: $good
bad.docket: $bad
good.docket: $good
3 files: 2 accepted, 1 refused, 0 trouble"

try "$tool" missing.docket bad.docket folder.docket /proc/self/mem good.docket
holds 'trouble, and the other files are checked' printed 2 "missing.docket: trouble: no such file
bad.docket: $bad
folder.docket: trouble: is a directory
/proc/self/mem: trouble: cannot be read: Input/output error
good.docket: $good
5 files: 1 accepted, 1 refused, 3 trouble"

try "$tool" empty.docket 65535.docket 65536.docket longer.docket
holds 'empty and long files' printed 1 "empty.docket: $length
65535.docket: refused 2 0: the version is neither 1 nor 2
65536.docket: $length
longer.docket: $length
4 files: 0 accepted, 4 refused, 0 trouble"

try "$tool" -- 'a b.docket' -x.docket ./- -- "$odd"
holds 'odd names' printed 0 "a b.docket: $good
-x.docket: $good
./-: $good
--: $good
$odd: $good
5 files: 5 accepted, 0 refused, 0 trouble"

strange_name=$(printf 'a\033[31m\nb\tc\177\303\251.docket')
cp good.docket "$strange_name"
try "$tool" "$strange_name"
holds 'control characters in a name' printed 0 'a\033[31m\012b\011c\177é.docket: accepted 2 1 1 5 1 1
1 file: 1 accepted, 0 refused, 0 trouble'

# ---- options

try "$tool" -- --help
holds 'a file named --help' printed 0 "--help: $good
1 file: 1 accepted, 0 refused, 0 trouble"
for option in -h --help; do
  try "$tool" "$option"
  holds "$option" usage 0 "$out" "$err"
  try "$tool" good.docket "$option"
  holds "$option behind a file" usage 0 "$out" "$err"
done
try "$tool"
holds 'no argument' usage 2 "$err" "$out"
try "$tool" -q --
holds 'no file after --' usage 2 "$err" "$out"
for option in -x -qq --quiet --versions -x.docket; do
  try "$tool" "$option" good.docket
  holds "$option" usage 2 "$err" "$out"
  holds "$option is named" ended 2 '' "docket: unknown option $option"
done
try "$tool" --version
holds '--version' printed 0 "docket $(<"$root/VERSION")
$(rt version)"

try "$tool" -q good.docket bad.docket missing.docket
holds '-q' printed 2 "bad.docket: $bad
missing.docket: trouble: no such file
3 files: 1 accepted, 1 refused, 1 trouble"
try "$tool" good.docket -q
holds '-q behind the files, all accepted' printed 0 '1 file: 1 accepted, 0 refused, 0 trouble'

# In a folder without a file of the name -.
# shellcheck disable=SC2016
try sh -c 'cat bad.docket | (cd .. && "$0" - files/good.docket -)' "$tool"
holds 'standard input, which is at its end the second time' printed 1 "-: $bad
files/good.docket: $good
-: $length
3 files: 1 accepted, 2 refused, 0 trouble"
# shellcheck disable=SC2016
try sh -c '"$0" - </' "$tool"
holds 'standard input that cannot be read' printed 2 '-: trouble: cannot be read: Is a directory
1 file: 0 accepted, 0 refused, 1 trouble'

# ---- standard output

# shellcheck disable=SC2016
try sh -c '"$0" good.docket >/dev/full' "$tool"
holds 'standard output that cannot be written' ended 2 '' 'standard output cannot be written'

# Runs the tool on a pipe whose reader has gone before the tool begins. Its status is in the file 'status'.
closed_pipe() {
  mkfifo "$work/gone"
  {
    read -r _ <"$work/gone" || :
    "$tool" good.docket bad.docket && echo 0 >"$work/status" || echo "$?" >"$work/status"
  } | {
    exec 0<&-
    : >"$work/gone"
  }
}
try closed_pipe
holds 'a pipe that nobody reads: no word' printed 0 ''
holds 'a pipe that nobody reads: status' test "$(<"$work/status")" -eq 2
holds 'a pipe that nobody reads: no folder is left' tidy

# ---- the dockets of the repository, from its root

cd "$root"
try tools/docket examples/*.docket
holds 'the examples' printed 0 'examples/broadcast.docket: accepted 2 1 1 5 1 1
examples/majority.docket: accepted 4 4 2 21 3 4
examples/maximum_10.docket: accepted 10 45 1 127 9 9
examples/parity.docket: accepted 4 5 3 18 3 4
examples/quorum.docket: accepted 6 3 1 23 2 3
examples/threshold_1_0_8.docket: accepted 21 146 2 384 37 19
examples/two_outcomes.docket: accepted 3 3 1 7 1 2
7 files: 7 accepted, 0 refused, 0 trouble'

files=(tests/corpus/*.docket)
lines=$(for file in "${files[@]}"; do echo "$file: $(<"${file%.docket}.expect")"; done)
accepted=$(grep -c ': accepted ' <<<"$lines")
try tools/docket "${files[@]}"
# Without the words behind a refusal.
sed -i -E 's/: (refused [0-9]+ [0-9]+): [a-z].*$/: \1/' "$out"
holds 'the corpus' printed 1 "$lines
${#files[@]} files: $accepted accepted, $((${#files[@]} - accepted)) refused, 0 trouble"

# ---- claim sheets: the examples, and the corpus

# Whether the last command ended with status $1, printed the line $2, and in the summary the numbers $3 of a single file.
said() { printed "$1" "$2"$'\n'"1 file: $3 trouble"; }
accepted() { said 0 "$1: accepted: 1 if $2, else 0" '1 accepted, 0 refused, 0'; }
refused() { said 1 "$1: refused $2" '0 accepted, 1 refused, 0'; }
troubled() { said 2 "$1: trouble: $2" '0 accepted, 0 refused, 1'; }

# The program decides is built here, so that no test below says so.
try tools/docket --claim examples/broadcast.sheet examples/broadcast.docket
# Tests that the sheet of the example $1 is accepted with the claim $2.
example() {
  try tools/docket --claim "examples/$1.sheet" "examples/$1.docket"
  holds "the claim of $1" accepted "examples/$1.docket" "$2"
}
example broadcast '1 x s1 >= 1'
example majority '- 1 x s0 + 1 x s1 >= 0'
example maximum_10 '1 x s9 >= 1'
example quorum '1 x s0 >= 2'
example threshold_1_0_8 '- 1 x s1 >= -7'
example two_outcomes '1 x s1 >= 1'

# Prints the bytes that stand in hexadecimal on standard input.
bytes() { printf '%b' "$(sed 's/../\\x&/g')"; }
grep -v '^#' tests/corpus/claim.txt >"$work/cases"
while read -r docket sheet _; do
  bytes <<<"$docket" >"$work/case.docket"
  bytes <<<"$sheet" >"$work/case.sheet"
  try tools/docket --claim "$work/case.sheet" "$work/case.docket"
  # Without the claim and the words.
  sed -n -E '1s/^[^:]*: (accepted|refused [0-9]+ [0-9]+): .*$/\1/p' "$out"
done <"$work/cases" >"$work/answers"
holds 'the corpus of sheets' diff <(sed 's/.* -> //' "$work/cases") "$work/answers"

# ---- claim sheets of the broadcast, as docs/FORMAT.md, 10.5, has it, with changes

cd "$work/files"
# Prints 16-bit numbers.
numbers() {
  local n
  for n; do printf '%b' "$(printf '\\0%03o\\0%03o' $((n & 255)) $((n >> 8)))"; done
}
# Makes $1.sheet, with $2 and $3 nodes in its trees, the limit $4, the nodes that follow, and one leaf.
sheet() {
  local file=$1.sheet first=$2 second=$3 limit=$4
  shift 4
  local end=$((24 + 12 * $#))
  # shellcheck disable=SC2048,SC2086
  numbers 2 "$first" "$second" 1 16 24 "$end" $((end + 6)) 0 1 "$limit" 0 $* 0 0 1 >"$file"
}
# The nodes: kind with party, argument, set.
n=('0x103 0 0 0 0 0' '0x101 0 0 0 0 0' '0x105 0 2 0 0 0' '0 0 0 0 0 0'
  '0x004 1 0 0 0 0' '0x106 0 2 0 0 0' '0x101 0 0 0 0 0' '0 0 0 0 0 0')
bad_field='7 0 0 0 0 0'
sheet good 4 4 1 "${n[@]}"
holds 'the sheet of the tests is that of the example' cmp good.sheet "$root/examples/broadcast.sheet"
claim='1 x s1 >= 1'

sheet first_field 4 4 1 "${n[0]}" '0x201 0 0 0 0 0' "${n[@]:2}"
sheet first_left_over 5 4 1 "${n[@]:0:4}" "${n[3]}" "${n[@]:4}"
sheet first_ran_out 3 4 1 "${n[@]:0:3}" "${n[@]:4}"
sheet first_ran_out_before_field 3 4 1 "${n[@]:0:3}" "$bad_field" "${n[@]:5}"
sheet first_ground 4 4 0 "${n[@]}"
sheet second_field 4 4 1 "${n[@]:0:4}" "$bad_field" "${n[@]:5}"
sheet second_field_alone 4 1 1 "${n[@]:0:4}" "$bad_field"
sheet second_left_over 4 5 1 "${n[@]}" "${n[7]}"
sheet second_ran_out 4 3 1 "${n[@]:0:7}"
sheet second_ground 4 4 2 "${n[@]}"
sheet second_ground_of_root 4 4 1 "${n[@]:0:4}" "${n[2]}" "${n[@]:5}"
: >empty.sheet
head -c 125 good.sheet >cut.sheet
{ cat good.sheet && head -c 65410 /dev/zero; } >65536.sheet
{ cat 65536.sheet && head -c 200000 /dev/zero; } >longer.sheet
field='has a bad field, is deeper than 40, or is left over'
more='tree of the sheet needs more nodes than it has'
rule='15 0: a length, count, offset, number, weight or multiplier of the sheet breaks its rule'
# Tests that the sheet $1 is refused with $2.
sheet_refused() {
  try "$tool" --claim "$1.sheet" good.docket
  holds "$1.sheet" refused good.docket "$2"
}
sheet_refused first_field "12 1: node 1 of the sheet, in its first tree, $field"
sheet_refused first_left_over "12 4: node 4 of the sheet, in its first tree, $field"
sheet_refused first_ran_out "12 3: the first $more"
sheet_refused first_ran_out_before_field "12 3: the first $more"
sheet_refused first_ground '13 3: the ground of node 3 of the sheet, in its first tree, does not hold'
sheet_refused second_field "12 4: node 4 of the sheet, in its second tree, $field"
sheet_refused second_field_alone "12 4: node 4 of the sheet, in its second tree, $field"
sheet_refused second_left_over "12 8: node 8 of the sheet, in its second tree, $field"
sheet_refused second_ran_out "12 7: the second $more"
sheet_refused second_ground '13 7: the ground of node 7 of the sheet, in its second tree, does not hold'
sheet_refused second_ground_of_root '13 4: the ground of node 4 of the sheet, in its second tree, does not hold'
for name in empty cut 65536 longer; do sheet_refused "$name" "$rule"; done

# ---- a docket and its sheet: whose refusal, trouble, names, standard input, options

for name in good empty second_ground; do
  try "$tool" --claim "$name.sheet" bad.docket
  holds "a refused docket with $name.sheet" refused bad.docket "${bad#refused }"
done
try "$tool" --claim good.sheet longer.docket
holds 'a long docket with a sheet' refused longer.docket "${length#refused }"

try "$tool" --claim missing.sheet good.docket
holds 'a missing sheet' troubled good.docket 'sheet missing.sheet: no such file'
try "$tool" --claim '' good.docket
holds 'a sheet without a name' troubled good.docket 'sheet : no such file'
try "$tool" --claim folder.docket bad.docket
holds 'a sheet that is a folder' troubled bad.docket 'sheet folder.docket: is a directory'
try "$tool" --claim /proc/self/mem good.docket
holds 'a sheet that cannot be read' troubled good.docket 'sheet /proc/self/mem: cannot be read: Input/output error'
try "$tool" --claim good.sheet missing.docket
holds 'a missing docket' troubled missing.docket 'no such file'
try "$tool" --claim $'a\n\033b.sheet' good.docket
holds 'control characters in the name of a sheet' troubled good.docket 'sheet a\012\033b.sheet: no such file'

for name in 'a b.sheet' -x.sheet --claim -- "$odd.sheet"; do
  cp good.sheet "./$name"
  try "$tool" --claim "$name" -- -x.docket
  holds "a sheet of the name $name" accepted -x.docket "$claim"
done
try "$tool" good.docket --claim good.sheet
holds '--claim behind the file' accepted good.docket "$claim"
cp good.docket ./--claim
try "$tool" -- --claim
holds 'a docket of the name --claim' printed 0 "--claim: $good
1 file: 1 accepted, 0 refused, 0 trouble"

# In a folder without a file of the name -.
# shellcheck disable=SC2016
try sh -c 'cat good.sheet | (cd .. && "$0" --claim - files/good.docket)' "$tool"
holds 'the sheet from standard input' accepted files/good.docket "$claim"
# shellcheck disable=SC2016
try sh -c 'cat good.docket | (cd .. && "$0" --claim files/good.sheet -)' "$tool"
holds 'the docket from standard input' accepted - "$claim"
# shellcheck disable=SC2016
try sh -c '"$0" --claim - good.docket </' "$tool"
holds 'a sheet from standard input that cannot be read' troubled good.docket 'sheet -: cannot be read: Is a directory'

try "$tool" -q --claim good.sheet good.docket
holds '-q with an accepted sheet' printed 0 '1 file: 1 accepted, 0 refused, 0 trouble'
try "$tool" -q --claim empty.sheet good.docket
holds '-q with a refused sheet' refused good.docket "$rule"

# Tests that the arguments from $2 on are wrong usage, with the words $1.
wrong() {
  try "$tool" "${@:2}"
  holds "'${*:2}'" usage 2 "$err" "$out"
  holds "'${*:2}': what is wrong" ended 2 '' "docket: $1"$'\n'
}
wrong 'no sheet is named behind --claim' --claim
wrong 'no sheet is named behind --claim' good.docket --claim
wrong 'no file is named' --claim good.sheet
wrong '--claim takes one file' --claim good.sheet good.docket good.docket
wrong '--claim stands twice' --claim good.sheet --claim good.sheet good.docket
wrong 'sheet and file are both standard input' --claim - -
wrong 'unknown option --claim=good.sheet' --claim=good.sheet good.docket

# ---- other places, links, progress

mkdir "$work/bin"
ln -s "$root/tools/docket" "$work/bin/first"
ln -s first "$work/bin/checker"
cd "$work/files"
try env PATH="$work/bin:$PATH" checker good.docket
holds 'through links in PATH' printed 0 "good.docket: $good
1 file: 1 accepted, 0 refused, 0 trouble"
cd "$root/tools"
try sh docket "$work/files/bad.docket"
holds 'sh docket in its own folder' printed 1 "$work/files/bad.docket: $bad
1 file: 0 accepted, 1 refused, 0 trouble"

cd "$work/files"
erase=$'\r\e[K'
try script -qec "'$tool' good.docket bad.docket" /dev/null
sed -i 's/\r$//' "$out"
holds 'progress on a terminal' printed 1 "${erase}checking 1 of 2${erase}good.docket: $good
${erase}checking 2 of 2${erase}bad.docket: $bad
2 files: 1 accepted, 1 refused, 0 trouble"
try script -qec "'$tool' good.docket 2>'$work/said'" /dev/null
sed -i 's/\r$//' "$out"
holds 'lines on a terminal, standard error not' printed 0 "good.docket: $good
1 file: 1 accepted, 0 refused, 0 trouble"
holds 'no progress where standard error is no terminal' test ! -s "$work/said"

# ---- building, in a small repository with an rt that proves nothing

mkdir -p "$work/repo/tools" "$work/repo/crates/docket/src" "$work/repo/crates/decides/src" "$work/repo/crates/tree/proofs/out" "$work/rt"
cp "$root/tools/docket" "$work/repo/tools/"
: >"$work/repo/crates.txt"
: >"$work/repo/crates/docket/src/main.rt"
: >"$work/repo/crates/tree/proofs/out/Answers.antt"
made=$work/repo/crates/docket/out/docket
programs=$work/repo/target/tools
program=$programs/docket
small_tool=$work/repo/tools/docket

# The stand-in for rt notes where and how it is called, and does what the file 'does' says.
cat >"$work/rt/rt" <<EOF
#!/bin/sh
echo "\$(pwd): \$*" >>"$work/rt/calls"
echo "rt was called with \$*"
. "$work/rt/does"
EOF
chmod +x "$work/rt/rt"

rt_does() {
  : >"$work/rt/calls"
  cat >"$work/rt/does"
}
# Whether rt was called to build the programs that are named, each in its folder, in this order, and no others.
checked() { [[ $(<"$work/rt/calls") == "$(printf "$work/repo/crates/%s: run\n" "$@")" ]]; }
# Whether rt was called $1 times, each time as it must be.
built() { [[ $(wc -l <"$work/rt/calls") == "$1" && $(sort -u "$work/rt/calls") == "$work/repo/crates/docket: run" ]]; }
# Whether rt was not called.
not_built() { [[ ! -s $work/rt/calls ]]; }
small() { try env PATH="$work/rt:$PATH" "$small_tool" "$@"; }
# Whether the last command says of the program $1 that it is in trouble.
strange() { [[ $status == 2 && $(<"$out") == "good.docket: trouble: the program $1 ended with status "*'1 trouble' && ! -s $err ]]; }
program_does() { printf '#!/bin/sh\n%s\n' "$2" >"$programs/$1"; }
line="good.docket: $good
1 file: 1 accepted, 0 refused, 0 trouble"

# What rt does where it builds the program of the folder that it is called in: as the real one, it keeps work in that folder and
# in those of the crates below, and builds nothing where it finds the program and its stamp.
builds="name=\${PWD##*/}
mkdir -p out ../tree/out/rlib
: >../tree/out/rlib/stamp
if [ -e out/\$name ] && [ -e out/\$name.stamp ]; then exit 0; fi
says='$good'
[ \$name = docket ] || says='accepted 0 1 1'
printf '#!/bin/sh\necho %s\n' \"\$says\" >out/\$name
chmod +x out/\$name
: >out/\$name.stamp"

rt_does <<<"$builds"
small missing.docket folder.docket
holds 'no build where no file can be checked' ended 2 'missing.docket: trouble: no such file
folder.docket: trouble: is a directory
2 files: 0 accepted, 0 refused, 2 trouble' ''
holds 'rt is not called for missing files' not_built
small -x good.docket
holds 'a wrong option before a build' usage 2 "$err" "$out"
holds 'rt is not called for a wrong option' not_built
small --help
holds '--help builds nothing' not_built
small good.docket missing.docket
holds 'a missing file is said before the build' test "$(head -n 1 "$err")" = 'docket: missing.docket: no such file'
holds 'the first use builds, and says so' ended 2 "good.docket: $good
missing.docket: trouble: no such file
2 files: 1 accepted, 0 refused, 1 trouble" 'some minutes'
holds 'rt is called in the folder of docket, to build it' built 1
small good.docket
holds 'the second use does not build' printed 0 "$line"
holds 'rt is not called' built 1
rm "$program" "$made"
small good.docket
holds 'a program that was removed is built again' ended 0 "$line" 'some minutes'
rm "$program"
small good.docket
holds 'a copy that was removed is made again' ended 0 "$line" 'some minutes'

for source in crates/docket/src/main.rt crates/docket/src crates/tree/proofs/out/Answers.antt crates.txt; do
  rt_does <<<':'
  find "$work/repo" -exec touch -t 200001010000 {} +
  touch -t 200001020000 "$program"
  small good.docket
  holds "$source is older than the program" printed 0 "$line"
  touch -t 200001030000 "$work/repo/$source"
  small good.docket
  holds "$source is newer than the program" ended 0 "$line" 'some minutes'
  small good.docket
  holds "$source was newer, and the program stood" built 1
done

# A source that changes while rt is at work is newer than the program: the next use builds again.
rt_does <<EOF
: >"$work/begun"
until [ -n "\$(find ../../crates.txt -newer "$work/begun")" ]; do touch ../../crates.txt; done
EOF
touch "$work/repo/crates.txt"
rm "$program"
small good.docket
holds 'a source changes during a build' built 1
rt_does <<<':'
small good.docket
holds 'and the next use builds again' built 1
small good.docket
holds 'once' built 1

for answer in 'echo hello' 'echo accepted 1 2 3 4 5' 'echo accepted 1 2 3 4 5 6 7' 'echo refused 1' 'echo refused 1 x' \
  'echo refused 1 0; echo refused 1 0' 'echo accepted 2 1 1 5 1 1; exit 3' 'exit 0' 'echo trouble >&2'; do
  program_does docket "$answer"
  small good.docket
  holds "a program that does '$answer'" strange docket
done

# ---- the words of every refusal, on a docket of 2 states and 5 nodes

words() {
  program_does docket "echo refused $1 $2"
  small good.docket
  holds "the words of $1 $2" printed 1 "good.docket: refused $1 $2$3
1 file: 0 accepted, 1 refused, 0 trouble"
}
words 1 0 ': the file has fewer than 24 bytes, or another length than its header says'
words 2 0 ': the version is neither 1 nor 2'
words 3 0 ': the number of states is not 2 to 64'
words 3 1 ': the number of rules is over 256'
words 3 2 ': the number of layers is over 16, or one of rules and layers is 0 and the other is not'
words 3 3 ': the number of nodes is not 1 to 2,048'
words 3 4 ': the number of leaves is over 128'
words 4 0 ': the states do not begin at byte 24'
words 4 1 ': the rules do not begin where the states end'
words 4 2 ': the layers do not begin where the rules end'
words 4 3 ': the nodes do not begin where the layers end'
words 4 4 ': the leaves do not begin where the nodes end'
words 4 5 ': the file does not end where the leaves end'
words 5 1 ': state 1 has a bit set that must be 0, or over 1,000 fixed workers'
words 5 2 ': no state is an input'
words 6 0 ': rule 0 has a state or layer that does not exist, a pair out of order, or two equal pairs'
words 7 200 ': rule 200 has the before pair and the after pair of an earlier rule'
words 14 200 ': rule 200 does not stand after the one before it'
words 8 15 ': layer 15 has no rule, or a weight over 1,000,000'
words 9 7 ': rule 7 does not lower the weights of its layer'
words 10 3 ': rule 3 breaks the handover'
words 11 127 ': leaf 127 has a weight outside -10,000 to 10,000'
words 12 4 ': node 4 has a bad field, is deeper than 40, or is left over'
words 12 5 ': the tree needs more nodes than there are'
words 13 2047 ': the ground of node 2047 does not hold'
words 99 1 ''

# ---- the second program, which is built for --claim alone

program_does docket "echo $good"
holds 'without --claim there is no program decides' test ! -e "$programs/decides"
rt_does <<<"$builds"
small --claim missing.sheet good.docket
holds 'a missing sheet is said' ended 2 'good.docket: trouble: sheet missing.sheet: no such file
1 file: 0 accepted, 0 refused, 1 trouble' 'docket: missing.sheet: no such file'
small --claim good.sheet missing.docket
holds 'a missing docket is said' ended 2 'missing.docket: trouble: no such file
1 file: 0 accepted, 0 refused, 1 trouble' 'docket: missing.docket: no such file'
small --claim good.sheet good.docket good.docket
holds 'rt is not called where sheet or docket is missing, or for wrong usage' not_built
claimed="good.docket: accepted: 1 if $claim, else 0
1 file: 1 accepted, 0 refused, 0 trouble"
small --claim good.sheet good.docket
holds 'the first use with --claim builds, and says so' ended 0 "$claimed" 'the program decides is built'
holds 'and builds decides alone' checked decides
small --claim good.sheet good.docket
holds 'the second use with --claim does not build' printed 0 "$claimed"
holds 'rt is not called for it' checked decides
rm -r "$programs"
rt_does <<<"$builds"
small --claim good.sheet good.docket
holds 'both programs that were removed are made again' ended 0 "$claimed" 'some minutes'
holds 'docket first' checked docket decides
rt_does <<<"$builds"
find "$work/repo" -exec touch -t 200001010000 {} +
touch -t 200001020000 "$programs/docket" "$programs/decides"
touch -t 200001030000 "$work/repo/crates.txt"
small --claim good.sheet good.docket
holds 'both programs that are older than a source are built' checked docket decides
rt_does <<<"$builds"
rm "$work/repo/crates/decides/out/decides" "$programs/decides"
small --claim good.sheet good.docket
holds 'a program decides that was removed is built again' ended 0 "$claimed" 'some minutes'
holds 'and it alone' checked decides

for answer in 'echo hello' 'echo accepted 0 1' 'echo accepted 0 1 1 1' 'echo accepted 0 +1 1' 'echo accepted 0 1 1; exit 3' \
  'echo refused 13' 'echo refused 13 0 0' 'echo refused 15 1' 'echo refused 1 0' 'echo refused 14 0' 'exit 0' 'echo trouble >&2'; do
  program_does decides "$answer"
  small --claim good.sheet good.docket
  holds "a program decides that does '$answer'" strange decides
done

# ---- claims in words, of 2 states

words_of_claim() {
  program_does decides "echo accepted $1"
  small --claim good.sheet good.docket
  holds "the claim $1" accepted good.docket "$2"
}
words_of_claim '3 -2 -7' '3 x s0 - 2 x s1 >= -7'
words_of_claim '-1 0 0' '- 1 x s0 >= 0'
words_of_claim '0 10 10' '10 x s1 >= 10'
words_of_claim '0 0 5' '0 >= 5'
words_of_claim '0 0 0' '0 >= 0'
words_of_claim '-32768 32767 -2147483648' '- 32768 x s0 + 32767 x s1 >= -2147483648'
words_of_claim '32767 -32768 2147483647' '32767 x s0 - 32768 x s1 >= 2147483647'

# ---- builds that fail

rt_does <<<'echo not proved; exit 1'
touch -t 200001010000 "$program"
small good.docket
holds 'a build that fails' ended 2 '' 'not proved'
small good.docket
holds 'the old program is not used' ended 2 '' 'not proved'
rm "$made"
rt_does <<<':'
small good.docket
holds 'a build that leaves no program' ended 2 '' 'the build failed'
rt_does <<EOF
[ \${PWD##*/} = docket ] || { echo decides is not proved; exit 1; }
$builds
EOF
rm "$programs/decides"
small --claim good.sheet good.docket
holds 'a build of decides that fails' ended 2 '' 'decides is not proved'
holds 'after that of docket' checked docket decides
rm "$program" "$made"

mkdir "$work/without"
for name in sh dirname readlink mktemp find head tail rm mkdir touch cat; do ln -s "$(command -v "$name")" "$work/without/$name"; done
try env PATH="$work/without" "$small_tool" good.docket
holds 'a build without rt' ended 2 '' 'rt of the Rattle kit is not in PATH'
ln -s "$work/rt/rt" "$work/without/rt"
try env PATH="$work/without" "$small_tool" good.docket
holds 'a build without flock' ended 2 '' 'flock of util-linux is not in PATH'

cp "$root/tools/docket" "$work/bin/copy"
try "$work/bin/copy" good.docket
holds 'a copy outside a repository' ended 2 '' 'is not the repository'

# ---- two uses at once, and signals
# Where it is to build $1 and the file 'waits' is there, the stand-in for rt writes a line to 'begun.fifo' and then waits for
# one from 'go'. A child of its own holds 'alive' open: the test's read of that ends when the last process of the build has
# ended.

mkfifo "$work/begun.fifo" "$work/go" "$work/alive" "$work/says"
waiting_rt() {
  rt_does <<EOF
if [ \${PWD##*/} = "$1" ] && [ -e "$work/waits" ]; then
  rm "$work/waits"
  sleep 1000 >"$work/alive" 2>&1 &
  echo \$! >"$work/sleeper"
  echo >"$work/begun.fifo"
  read -r _ <"$work/go"
  kill \$!
fi
$builds
EOF
  rm -rf "$work/repo/target" "$work/repo"/crates/*/out
  : >"$work/waits"
}
# Starts the tool beside this script, with no signal ignored; its lines go to $1.out, what it says to $2, and its arguments
# are the others.
begin() {
  env --default-signal=HUP,INT,TERM PATH="$work/rt:$PATH" "$small_tool" "${@:3}" >"$work/$1.out" 2>"$2" </dev/null &
}
# Whether the build begins, and whether the use behind 6 says that it waits; or fails after half a minute.
begun() { timeout 30 head -n 1 "$work/begun.fifo" >/dev/null; }
waits() { local said && read -r -t 30 said <&6 && [[ $said == *'another build is under way'* ]]; }
# Starts a use that builds, and then one that waits for it. $1 is the subject of the tests, the others are the arguments of
# the second use.
begin_both() {
  waiting_rt docket
  begin first "$work/first.err" good.docket
  first=$!
  exec 7<"$work/alive"
  holds "$1: the first use builds" begun
  begin second "$work/says" "${@:2}"
  second=$!
  exec 6<"$work/says"
  holds "$1: the second use waits" waits
}
# Whether the last process of the build ends. Where it does not, ends it, so that the tests go on.
build_ends() {
  timeout 30 cat <&7 && return
  kill "$(<"$work/sleeper")"
  # shellcheck disable=SC2016
  timeout 5 sh -c 'echo >"$0"' "$work/go" || :
  return 1
}
# Waits for a use of the tool, or ends it after a minute, and keeps what it left, as try does.
finish() {
  status=0
  timeout 60 tail -s 0.1 --pid="$2" -f /dev/null || kill -s KILL "$2"
  wait "$2" || status=$?
  cp "$work/$1.out" "$out"
  if [[ -f $work/$1.err ]]; then cp "$work/$1.err" "$err"; else : >"$err"; fi
}

begin_both 'two uses' good.docket
echo >"$work/go"
finish first "$first"
holds 'the first use ends well' ended 0 "$line" 'the program docket is built'
finish second "$second"
holds 'the second use ends well' printed 0 "$line"
holds 'rt was called once for both' built 1
exec 6<&- 7<&-

begin_both 'one of two uses with --claim' --claim good.sheet good.docket
echo >"$work/go"
finish first "$first"
holds 'the use without it ends well' ended 0 "$line" 'the program docket is built'
finish second "$second"
holds 'the use with --claim ends well' printed 0 "$claimed"
holds 'and built decides alone' checked docket decides
exec 6<&- 7<&-

for signal in INT TERM HUP; do
  begin_both "$signal" good.docket
  kill -s "$signal" "$first"
  finish first "$first"
  holds "$signal: the first use says that it was interrupted" ended 2 '' 'docket: interrupted'
  holds "$signal: the prover has ended" build_ends
  exec 7<&-
  finish second "$second"
  exec 6<&-
  holds "$signal: the second use builds the program" printed 0 "$line"
  holds "$signal: rt was called twice" built 2
  holds "$signal: the program stands" test -x "$program"
done

begin_both 'an interrupt of the second' good.docket
kill -s INT "$second"
finish second "$second"
timeout 30 cat <&6 >"$err" || :
exec 6<&-
holds 'a use that waits is interrupted' ended 2 '' 'docket: interrupted'
echo >"$work/go"
finish first "$first"
exec 7<&-
holds 'the one that builds goes on' ended 0 "$line" 'the program docket is built'
holds 'rt was called once' built 1

waiting_rt decides
begin first "$work/first.err" --claim good.sheet good.docket
first=$!
exec 7<"$work/alive"
holds 'a use with --claim builds decides' begun
kill -s TERM "$first"
finish first "$first"
holds 'it says that it was interrupted' ended 2 '' 'docket: interrupted'
holds 'its prover has ended' build_ends
exec 7<&-
holds 'rt was called for docket, and then for decides' checked docket decides
holds 'the program decides does not stand' test ! -e "$programs/decides"

holds 'no temporary folder is left' tidy
sum
