#!/usr/bin/env bash
# Tests the C boundary on every docket of a folder: tests/corpus, or the one named. Each docket has its .expect file beside it.
# writing.c, page.c, boundary.c and sheet.c run under AddressSanitizer, stack.c measures the stack, and the library may need memcpy and memset at most.
# sheet.c also takes the dockets of the examples, which have claim sheets beside them, and the cases of tests/corpus/claim.txt.
set -euo pipefail
corpus=$(realpath -- "${1-$(dirname "$0")/../corpus}")
cd "$(dirname "$0")/../.."
library=target/staticlib/libdocket.a
work=$(mktemp -d)
trap 'rm -rf "$work"' EXIT
passed=0

if [[ ! -f $library ]]; then
  echo "boundary: no $library; tools/library makes it" >&2
  exit 2
fi
strict=(-std=c99 -Wall -Wextra -Wpedantic -Werror -Iinclude)

# Runs a program whose last line is 'N passed, 0 failed', and adds N.
add() {
  local last
  "$@" | tee "$work/log" | sed 's/^/  /'
  last=$(tail -n 1 "$work/log")
  [[ $last =~ ^([0-9]+)\ passed,\ 0\ failed$ ]]
  passed=$((passed + BASH_REMATCH[1]))
}

needed=$(nm -u "$library" | awk '$1 == "U" && $2 != "memcpy" && $2 != "memset" { print $2 }' | sort -u | tr '\n' ' ')
if [[ -n $needed ]]; then
  echo "boundary: the library needs '$needed', and docket.h says at most memcpy and memset"
  exit 1
fi
passed=$((passed + 1))

version=$(printf '#include "docket.h"\nDOCKET_VERSION\n' | cc -E -Iinclude - | tail -n 1)
if [[ $version != "\"$(<VERSION)\"" ]]; then
  echo "boundary: DOCKET_VERSION is $version, and VERSION $(<VERSION)"
  exit 1
fi
passed=$((passed + 1))

gcc "${strict[@]}" -O2 tests/boundary/stack.c "$library" -o "$work/stack"
add "$work/stack" "$corpus"/*.docket
for program in writing page boundary sheet; do
  more=()
  if [[ $program == sheet ]]; then more=(examples/*.docket tests/corpus/claim.txt); fi
  gcc "${strict[@]}" -fsanitize=address,undefined -fno-sanitize-recover=all -g -O1 \
    "tests/boundary/$program.c" "$library" -o "$work/$program"
  add "$work/$program" "$corpus"/*.docket "${more[@]}"
done
echo "$passed passed, 0 failed"
