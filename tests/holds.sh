# Sourced by the tests of tools/docket and of the gate: counts what holds.
# shellcheck shell=bash
passed=0 failed=0 status=0
# The files that are shown where a test fails.
shown=()

# Counts a test: $1 is its name, the rest a command that says whether it holds.
holds() {
  local name=$1 file
  shift
  if "$@"; then
    passed=$((passed + 1))
  else
    failed=$((failed + 1))
    echo "FAILED: $name (exit status $status)"
    for file in "${shown[@]}"; do sed "s/^/  ${file##*\/}: /" "$file"; done
  fi
}

# The last line of the tests, and their exit status.
sum() {
  echo "$passed passed, $failed failed"
  [[ $failed -eq 0 ]]
}
