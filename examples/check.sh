#!/usr/bin/env bash
# Compiles page_reader.c, page_votes.c, random_vote.c and table_editor.c with the static library and compares their runs, and those of totals.sh and of the program tally, with examples/expect/.
# Each file there is one run: the command line, what it prints, and its exit status. $new names a file that is not there yet.
set -euo pipefail
cd "$(dirname "$0")/.."
library=target/staticlib/libdocket.a
work=$(mktemp -d)
trap 'rm -rf "$work"' EXIT

# Ends this script where the file $1, which the command $2 makes, is not there.
need() {
  if [[ ! -f $1 ]]; then
    echo "examples: no $1; $2 makes it" >&2
    exit 2
  fi
}

need "$library" tools/library
need target/bin/tally tools/programs
for program in page_reader page_votes random_vote table_editor; do
  cc -std=c99 -Wall -Wextra -Wpedantic -Werror -Iinclude "examples/$program.c" "$library" -o "$work/$program"
done

# Runs the command line that a file of expect/ begins with, and prints such a file for it.
transcript() {
  local command status=0
  read -r command <"$1"
  printf '%s\n' "$command"
  new=$work/new.docket PATH="$work:$PATH" bash -c "$command" 2>&1 || status=$?
  rm -f "$work/new.docket"
  printf 'exit status %s\n' "$status"
}

passed=0 failed=0
for expected in examples/expect/*.txt; do
  if transcript "$expected" | diff -u --label "$expected" --label "this run" "$expected" -; then
    passed=$((passed + 1))
  else
    failed=$((failed + 1))
  fi
done

echo "$passed passed, $failed failed"
[[ $failed -eq 0 && $passed -gt 0 ]]
