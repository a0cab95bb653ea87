#!/usr/bin/env bash
# Holds the look-up of one library to that of another: five kinds, every rate.
# Usage: bash tests/c/look_ups.sh FILE FILE (archives, by paths from the top of the repository or whole ones; needs GNU od)
set -eu
cd "$(dirname "$0")/../.."
. tests/c/build.sh
[ $# -eq 2 ] || stop "usage: $0 FILE FILE"
for file in "$@"; do [ -f "$file" ] || stop "no library at $file"; done
prepare --library "$1"

# Writes a library's answers: answers NAME FILE makes $target/NAME.bin.
answers() {
    build "$1" tests/c/look_ups.c "$2"
    "$target/$1" >"$target/$1.bin"
}
answers look_ups-1 "$1"
answers look_ups-2 "$2"
first=$target/look_ups-1.bin second=$target/look_ups-2.bin

# The answers as decimal numbers, one on a line; od's own words choose some of them.
numbers() { od -An -v -w4 -tu4 --endian=little "$@" | tr -d ' '; }
not_zero() { numbers "$1" | grep -cvx 0; }

echo "look_ups: $(($(wc -c <"$first") / 4)) answers compared, $(not_zero "$first") and $(not_zero "$second") of them not 0"
if cmp -s "$first" "$second"; then
    echo "look_ups: the same"
    exit 0
fi
kinds=(1 2 0 3 255) # in the order of look_ups.c
read -r byte _ < <(cmp -l "$first" "$second")
place=$(((byte - 1) / 4))
at() { numbers -j $((4 * place)) -N 4 "$1"; }
echo "look_ups: kind ${kinds[place / 65536]}, rate $((place % 65536)): $(at "$first") and $(at "$second")"
exit 1
