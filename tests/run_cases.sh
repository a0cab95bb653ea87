#!/bin/sh
# Runs the program `cases` on the small stop-* pairs, on fresh cases, on a file with every sum of squares that
# uncertainties come to and on one with every rate, and compares what it prints with the reference.
#
#   tests/run_cases.sh [SEED...]        seeds 2 and 3 where none is named
#
# Build the program first: bash tools/run.sh cases </dev/null. Ends with the number of files and of differences, and
# with status 1 if there are any.
set -eu
cd "$(dirname "$0")/.."
program=crates/cases/out/cases
[ -x "$program" ] || { echo "no $program: run bash tools/run.sh cases </dev/null first" >&2; exit 2; }
[ $# -gt 0 ] || set -- 2 3

room=$(mktemp -d)
trap 'rm -rf "$room"' EXIT
for seed; do
    python3 tests/make_cases.py --seed "$seed" --out "$room/$seed"
done
for group in every-sum every-rate; do
    python3 tests/make_cases.py --group "$group" --out "$room/$group"
done
files=0 differences=0
for input in "$room/$1"/stop-*.bin "$room"/*/cases.bin; do
    files=$((files + 1))
    # A pipe hands over less than is asked for, which a file does not.
    # shellcheck disable=SC2002
    cat "$input" | "$program" >"$room/printed" || echo "${input#"$room/"}: status $?"
    cmp "$room/printed" "${input%.bin}.txt" >"$room/first" 2>&1 && continue
    differences=$((differences + 1))
    sed "s|$room/||g" "$room/first"
done
echo "cases: $files files, $differences differences"
[ "$differences" -eq 0 ]
