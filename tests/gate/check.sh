#!/usr/bin/env bash
# Tests the gate, .ci/run, in a small repository whose parts are stand-ins: what it prints at the margin, and its exit status.
set -euo pipefail
cd "$(dirname "$0")/../.."
root=$(pwd -P)
work=$(cd "$(mktemp -d)" && pwd -P)
# shellcheck disable=SC2046
trap 'kill $(jobs -pr) 2>/dev/null || :; rm -rf "$work"' EXIT
. tests/holds.sh
out=$work/out
shown=("$out")

mkdir -p "$work/repo/.ci" "$work/bin"
cp "$root/.ci/run" "$work/repo/.ci/run"

# A stand-in for a command: it notes its words, and does what the file of its name says, or else what $2 says.
stand_in() {
  mkdir -p "$(dirname "$1")"
  printf '#!/usr/bin/env bash\necho "%s $*" >>"%s/calls"\nif [[ -e %s/does.%s ]]; then . %s/does.%s; else\n%s\nfi\n' \
    "$3" "$work" "$work" "$3" "$work" "$3" "$2" >"$1"
  chmod +x "$1"
}
# As many as the part with the greatest least number needs.
number=$(sed -nE 's/^add ([0-9]+) .*/\1/p' "$root/.ci/run" | sort -n | tail -n 1)
many="echo $number passed, 0 failed"
unit='echo "test result: ok. 400 passed; 0 failed; 0 ignored"; echo "test result: ok. 2 passed; 0 failed; 0 ignored"'
stand_in "$work/bin/rt" "$many" rt
stand_in "$work/bin/cargo" "if [[ \$1 == test ]]; then $unit; else $many; fi" cargo
stand_in "$work/repo/tools/library" ':' library
stand_in "$work/repo/tools/programs" ':' programs
for part in tests/boundary examples tests/tools tests/gate; do
  stand_in "$work/repo/$part/check.sh" "$many" "${part//\//-}"
done

# Runs the gate; the arguments are pairs: the name of a stand-in, and what it does this time.
gate() {
  rm -f "$work"/does.* "$work/calls"
  while (($# > 0)); do
    printf '%s\n' "$2" >"$work/does.$1"
    shift 2
  done
  status=0
  PATH="$work/bin:$PATH" bash "$work/repo/.ci/run" >"$out" 2>&1 </dev/null || status=$?
}

# Whether the gate failed: its status is not 0, and 'gate: failed' is its last line and the only one at the margin.
fails() { [[ $status -ne 0 && $(grep -v '^  ' "$out") == 'gate: failed' && $(tail -n 1 "$out") == 'gate: failed' ]]; }
# Whether the gate passed with the sum $1, which is its last line and the only one at the margin.
passes() { [[ $status -eq 0 && $(grep -v '^  ' "$out") == "$1 passed, 0 failed" && $(tail -n 1 "$out") == "$1 passed, 0 failed" ]]; }
called() { grep -qxF -- "$1" "$work/calls"; }

gate
parts=$(grep -cE '^add ' "$root/.ci/run")
packages=$(grep -cE '^add [0-9]+ units ' "$root/.ci/run")
holds 'all parts pass, and all unit tests are summed' passes $((number * (parts - packages) + 402 * packages))
# Where this fails, the gate that is ended below may not come to its middle, and its test would wait for ever.
if ((failed > 0)); then sum; fi
for package in second tests bench; do
  holds "all tests of $package are run" called "cargo test --offline --release --quiet --manifest-path $package/Cargo.toml"
done
holds 'the crates are proved' called 'rt ci'
holds 'and rt is called for nothing else' test "$(grep -c '^rt ' "$work/calls")" -eq 1
holds 'the programs are made' called 'programs '
holds 'the library is made' called 'library '

for part in tests-boundary examples tests-tools tests-gate rt; do
  gate "$part" "$many; exit 1"
  holds "$part says that it passed, and then fails" fails
done
gate tests-tools "echo $number passed, 1 failed"
holds 'a part in which a test failed' fails
gate tests-tools ':'
holds 'a part that says nothing' fails
gate examples 'echo 3 passed, 0 failed'
holds 'a part in which tests are gone' fails
gate library 'exit 1'
holds 'a library that is not made' fails
gate programs 'exit 1'
holds 'programs that are not made' fails
# What rt ci says of the edits before its last line.
edits() { printf 'echo "rt: ok; handles allowed: none; must-fail edits: %s; every proof was done in this run"; %s' "$1" "$many"; }
for bad in '249 refused, 1 bad' '240 refused, 3 of them only by a limit, 10 bad'; do
  gate rt "$(edits "$bad")"
  holds "must-fail edits: $bad" fails
done
gate rt "$(edits '250 refused, 3 of them only by a limit')"
holds 'no must-fail edit is bad' passes $((number * (parts - packages) + 402 * packages))
gate rt "pwd >'$work/where'; $many"
holds 'rt ci is called at the top of the checkout' test "$(<"$work/where")" = "$work/repo"
gate rt 'echo "rt: FAILED: docket"; echo "301 passed, 1 failed"; exit 1'
holds 'a crate that is not proved' fails
# shellcheck disable=SC2016
tests_do() { printf 'if [[ $1 == test ]]; then %s; else %s; fi' "$1" "$many"; }
gate cargo "$(tests_do "$unit; echo 'test result: FAILED. 400 passed; 1 failed; 0 ignored'")"
holds 'a unit test that fails' fails
gate cargo "$(tests_do "$unit; exit 101")"
holds 'cargo test that fails without a result line' fails
gate cargo "$(tests_do 'echo test result: ok. 1 passed\; 0 failed\; 0 ignored')"
holds 'unit tests that are gone' fails
# shellcheck disable=SC2016
gate cargo 'if [[ $1 == fmt ]]; then exit 1; fi; '"$many"
holds 'a file that is not in the layout' fails

# A gate that is ended in its middle: a part says that it passed, and waits.
mkfifo "$work/begun" "$work/go"
rm -f "$work"/does.*
cat >"$work/does.tests-boundary" <<EOF
$many
exec 9>"$work/begun"
echo \$\$ >&9
read -r _ <"$work/go" || :
EOF
PATH="$work/bin:$PATH" bash "$work/repo/.ci/run" >"$out" 2>&1 </dev/null &
running=$!
exec 8<"$work/begun"
read -r -t 60 part <&8
kill -s TERM "$running"
status=0
wait "$running" || status=$?
holds 'a gate that is ended in its middle fails' fails
# Its end of the pipe is closed once it is gone.
holds 'and ends the part that runs' timeout 60 cat <&8
kill "$part" 2>/dev/null || :

sum
