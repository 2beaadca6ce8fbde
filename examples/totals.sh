#!/bin/sh
# Runs the program tally for N workers and the docket FILE, and says in words what it prints.
# Exit status: 0 the totals were read, 1 the docket or N was refused, 2 bad usage, a file that cannot be read or a program that is not there.
set -eu
program=$(dirname -- "$0")/../target/bin/tally

die() {
  echo "$*" >&2
  exit 2
}

put() { printf '%s\n' "$*" 2>/dev/null || die 'totals.sh: standard output: cannot be written'; }

# Prints a number and a word: the first for one, the second for any other number.
number() { if [ "$1" = 1 ]; then echo "$1 $2"; else echo "$1 $3"; fi; }

[ $# -eq 2 ] || die 'usage: totals.sh N FILE'
case $1 in '' | *[!0-9]* | 0?* | ????*) die "totals.sh: $1: not a number of 0 to 255" ;; esac
[ "$1" -le 255 ] || die "totals.sh: $1: not a number of 0 to 255"
if [ ! -r "$2" ] || [ -d "$2" ]; then die "totals.sh: $2: cannot be read"; fi
[ -x "$program" ] || die "totals.sh: no target/bin/tally; tools/programs makes it"

# The program reads N as one byte, which printf is given in octal.
octal=$(printf '%o' "$1")
read -r starts zeros ones steps counts <<LINE
$({ printf '%b' "\\0$octal" && cat <"$2"; } | "$program")
LINE

case $starts in
  [0-9]*)
    starts=$(number "$starts" start starts) zeros=$(number "$zeros" rests rest) ones=$(number "$ones" rests rest)
    steps=$(number "$steps" meeting meetings)
    put "$starts with $1 workers: $zeros on 0, $ones on 1; the longest vote takes $steps, first from $counts"
    ;;
  refused)
    case $zeros in
      34) words='not 2 to 12 workers, or more than eight input states' ;;
      *) words='the check refuses the docket; tools/docket says why' ;;
    esac
    put "refused $zeros $ones: $words"
    exit 1
    ;;
  *) die 'totals.sh: tally prints no totals' ;;
esac
