#!/bin/sh
# Runs the program `repair` on a handful of inputs and compares what it writes to standard output and to standard error.
#
#   tests/run_repair.sh
#
# Build the program first: bash tools/run.sh repair 12345678 </dev/null. Ends with the number of runs and of differences, and
# with status 1 if there are any.
set -eu
cd "$(dirname "$0")/.."
program=crates/repair/out/repair
[ -x "$program" ] || { echo "no $program: run bash tools/run.sh repair 12345678 </dev/null first" >&2; exit 2; }

room=$(mktemp -d)
trap 'rm -rf "$room"' EXIT
runs=0 differences=0

wrong() {
    differences=$((differences + 1))
    echo "$*"
}

# same NAME WRITTEN EXPECTED: compares two files.
same() { cmp "$2" "$3" >"$room/first" 2>&1 || wrong "$1: $(sed "s|$room/||g" "$room/first")"; }

# expect NAME INPUT OUTPUT SAID [WORDS...]: runs the program on the file INPUT, with WORDS as its arguments; it has to write the file
# OUTPUT to standard output, and the line SAID to standard error. A pipe hands over less than is asked for, which a file does not.
expect() {
    name=$1 input=$2 output=$3
    printf '%s\n' "$4" >"$room/line"
    shift 4
    runs=$((runs + 1))
    # shellcheck disable=SC2002
    cat "$input" | "$program" "$@" >"$room/written" 2>"$room/said" || wrong "$name: status $?"
    same "$name, output" "$room/written" "$output"
    same "$name, account" "$room/said" "$room/line"
}

# Two years of 1000 kg of food waste, under the first name of the old list, and a year with another mass at each place.
head='\0\1\4\113\12\62\62\1\34\0\0\0\0\0\0'
kg='\350\3\0\0' none='\0\0\0\0'
rest="$none$none$none$none$none"
# shellcheck disable=SC2059
printf "\1$head$kg$none$none$rest\2$head$kg$none$none$rest" >"$room/old"
# shellcheck disable=SC2059
printf "\1$head$none$none$kg$rest\2$head$none$none$kg$rest" >"$room/new"
printf "\3\0\2\1\144\0\144\63\2\25\0\11\26\43\0\0" >"$room/head"
{ cat "$room/head"; printf '\1\0\0\0\2\1\0\0\3\0\1\0\4\0\0\1\5\0\0\0\6\1\0\0\7\0\1\0\10\0\0\1'; } >"$room/eight"
{ cat "$room/head"; printf '\10\0\0\1\7\0\1\0\6\1\0\0\5\0\0\0\4\0\0\1\3\0\1\0\2\1\0\0\1\0\0\0'; } >"$room/turned"
printf 'record 1: places 1 3\nrecord 2: places 1 3\n' >"$room/places"
printf 'record 1: places 1 2 3 4 5 6 7 8\n' >"$room/all"
: >"$room/nothing"

expect 'shuffled' "$room/old" "$room/new" 'repair: 2 records, 4 bits set, refusal 0' 31245678
expect 'its report' "$room/old" "$room/places" 'repair: 2 records, 4 bits set, refusal 0' 31245678 report
expect 'the inverse' "$room/new" "$room/old" 'repair: 2 records, 4 bits set, refusal 0' 23145678
expect 'in order' "$room/old" "$room/old" 'repair: 2 records, 0 bits set, refusal 0' 12345678
expect 'its report' "$room/old" "$room/nothing" 'repair: 2 records, 0 bits set, refusal 0' 12345678 report
expect 'turned round' "$room/eight" "$room/turned" 'repair: 1 records, 8 bits set, refusal 0' 87654321
expect 'its report' "$room/eight" "$room/all" 'repair: 1 records, 8 bits set, refusal 0' 87654321 report
expect 'empty' "$room/nothing" "$room/nothing" 'repair: 0 records, 0 bits set, refusal 0' 31245678
expect 'its report' "$room/nothing" "$room/nothing" 'repair: 0 records, 0 bits set, refusal 0' 31245678 report

# Refusals: no order, and no whole records; the order comes first.
for word in 11245678 31245670 31245679 3124567 312456781 31245678912 31245678312456783124567831245678 abcdefgh 'a2345678' '' ' 1245678' '3 245678' "31245678
"; do
    expect "order '$word'" "$room/old" "$room/nothing" \
        'repair: 2 records, 0 bits set, refusal 20: the order does not name each of the types 1 to 8 once' "$word"
done
expect 'report of no order' "$room/old" "$room/nothing" \
    'repair: 2 records, 0 bits set, refusal 20: the order does not name each of the types 1 to 8 once' 3124567 report
head -c 47 "$room/old" >"$room/47"
head -c 48 "$room/old" >"$room/48"
head -c 49 "$room/old" >"$room/49"
head -c 48 "$room/new" >"$room/first-new"
expect '47 bytes' "$room/47" "$room/nothing" 'repair: 0 records, 0 bits set, refusal 21: the file is not a whole number of records' 31245678
expect '48 bytes' "$room/48" "$room/first-new" 'repair: 1 records, 2 bits set, refusal 0' 31245678
expect '49 bytes' "$room/49" "$room/nothing" 'repair: 1 records, 0 bits set, refusal 21: the file is not a whole number of records' 31245678
expect 'report of 49 bytes' "$room/49" "$room/nothing" \
    'repair: 1 records, 0 bits set, refusal 21: the file is not a whole number of records' 31245678 report
expect 'both faults' "$room/49" "$room/nothing" \
    'repair: 1 records, 0 bits set, refusal 20: the order does not name each of the types 1 to 8 once' 31245677

# The longest file, 2 records 60 times, and those 100 times; and files that are longer.
copies() {
    left=$2
    while [ "$left" -gt 0 ]; do
        cat "$room/$1"
        left=$((left - 1))
    done
}
for file in old new; do
    copies "$file" 60 >"$room/$file-120"
    copies "$file-120" 100 >"$room/$file-12000"
done
awk 'BEGIN { for (q = 1; q <= 12000; q++) print "record " q ": places 1 3" }' >"$room/places-12000"
cat "$room/old-12000" "$room/48" >"$room/old-12001"
{ cat "$room/old-12000"; printf '\1'; } >"$room/a-byte-more"
cat "$room/old-12000" "$room/old-12000" >"$room/old-24000"
expect '12000 records' "$room/old-12000" "$room/new-12000" 'repair: 12000 records, 24000 bits set, refusal 0' 31245678
expect 'their report' "$room/old-12000" "$room/places-12000" 'repair: 12000 records, 24000 bits set, refusal 0' 31245678 report
for file in a-byte-more old-12001 old-24000; do
    expect "$file" "$room/$file" "$room/nothing" 'repair: the file has more than 12000 records' 31245678
done

# What cannot be asked for: standard input is not read.
usage='usage: repair ORDER < OLD > NEW, or repair ORDER report < OLD; ORDER names the type at each place, as 31245678'
printf '%s\n' "$usage" >"$room/usage"
unread() {
    name=$1
    shift
    runs=$((runs + 1))
    { "$program" "$@" 2>"$room/said" || echo "status $?"; cat; } <"$room/old" >"$room/written"
    same "$name, what is left of the input" "$room/written" "$room/old"
    same "$name, usage" "$room/said" "$room/usage"
}
unread 'no argument'
unread 'three arguments' 31245678 report report
unread 'another second argument' 31245678 Report
unread 'a longer second argument' 31245678 reports
unread 'a shorter second argument' 31245678 repor
unread 'an empty second argument' 31245678 ''

# fails NAME INPUT OUTPUT SAID [WORDS...]: as expect, without the pipe, and what is written is not looked at.
fails() {
    name=$1 input=$2 output=$3
    printf '%s\n' "$4" >"$room/line"
    shift 4
    runs=$((runs + 1))
    "$program" "$@" <"$input" >"$output" 2>"$room/said" || wrong "$name: status $?"
    same "$name" "$room/said" "$room/line"
}
fails 'a read that fails' . "$room/written" 'repair: standard input: Is a directory' 31245678
same 'a read that fails, output' "$room/written" "$room/nothing"
fails 'a write that fails' "$room/old" /dev/full 'repair: standard output: No space left on device' 31245678
fails 'a report that fails' "$room/old" /dev/full 'repair: standard output: No space left on device' 31245678 report

echo "repair: $runs runs, $differences differences"
[ "$differences" -eq 0 ]
