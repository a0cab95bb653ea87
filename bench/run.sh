#!/usr/bin/env bash
# Measures landfill_run beside four peers in C, landfill_repair, landfill_tunisia, landfill_columns, landfill_run_months,
# landfill_masses and landfill_entry beside one and landfill_factor beside two, and prints the tables of docs/PERFORMANCE.md:
# instructions for each record, ratios, instructions for each record put right, for each year of a stretch, for each record by
# columns, for each month with yearly totals, for one call by samples, by uncertainties and for one look-up, how far the figures are
# apart, and the library's size.
# Usage: bash bench/run.sh [--library FILE | --standin]
set -eu
cd "$(dirname "$0")/.."
. tests/c/build.sh
prepare "$@"

peers='library reference exp-each exp-once equation'
counts='0012 0120 1200'

# Prints how many instructions a program executes.
by_perf() { perf stat -x, -e instructions:u "$@" 2>&1 >/dev/null | awk -F, '/instructions/ { print $1 }'; }
by_valgrind() {
    valgrind --tool=callgrind --callgrind-out-file=/dev/null "$@" 2>&1 >/dev/null | awk '/Collected/ { print $4 }'
}

if perf stat -e instructions:u true 2>&1 | grep -q '[0-9].*instructions'; then counter=by_perf
elif command -v valgrind >/dev/null; then counter=by_valgrind
else stop "neither perf nor valgrind counts instructions here"
fi

build bench -Ibench bench/*.c tests/c/inputs.c tests/c/reference.c tests/c/entries.c tests/c/reference_years.c \
    tests/c/reference_columns.c tests/c/reference_totals.c "$library"
"$target/bench" compare >"$target/compare" || stop "something is refused, or two answers differ: see tests/c/run.sh"

# Lines of PEER RECORDS INSTRUCTIONS, the program's cost with no records taken off.
measure() {
    for peer in $peers; do
        none=$($counter "$target/bench" "$peer" 0000)
        for count in $counts; do
            [ "$peer $count" != "equation 1200" ] || continue
            echo "measuring $peer, $count records" >&2
            echo "$peer $((10#$count)) $(($($counter "$target/bench" "$peer" "$count") - none))"
        done
    done
}
measure >"$target/counts"

echo "Instructions for each record ($counter):"
echo
awk -v peers="$peers" '
    { each[$1, $2] = $3 / $2; if (!($2 in seen)) { seen[$2] = 1; rows[++r] = $2 } }
    # One table: a line for each number of records, a column for each peer from the first one named.
    function table(first, ratio,    i, p, line, key) {
        line = "| Records |"
        for (p = first; p <= n; p++) line = line " " name[p] " |"
        print line
        gsub(/[^|]+/, "---", line)
        print line
        for (i = 1; i <= r; i++) {
            line = "| " rows[i] " |"
            for (p = first; p <= n; p++) {
                key = name[p] SUBSEP rows[i]
                if (!(key in each)) line = line " - |"
                else if (ratio) line = line sprintf(" %.2f |", each["library", rows[i]] / each[key])
                else line = line sprintf(" %.0f |", each[key])
            }
            print line
        }
    }
    END {
        n = split(peers, name, " ")
        table(1, 0)
        print "\nInstructions of the library over those of each peer:\n"
        table(2, 1)
    }' "$target/counts"

# The program's instructions for so many records or samples, or for a factor or a rate, those for none taken off.
over_none() { echo "$(($($counter "$target/bench" "$1" "$2") - $($counter "$target/bench" "$1" 0000)))"; }
each() { echo "$(($(over_none "$1" "$2") / 10#$2))"; }

# Other entries of the library on the same 1200 records, two on these as years, a run where sludge has a dry matter, and a run and
# steps with yearly totals.
by_entry() { echo "| $1 | $(each "$2" 1200) |"; }
printf '\nInstructions for each of 1200 records by other entries:\n\n| Entry | Instructions |\n|---|---|\n'
for entry in take listing; do by_entry "\`landfill_$entry\`" $entry; done
for entry in run take; do by_entry "\`landfill_$entry\` by year" $entry-by-year; done
by_entry '`landfill_run` with measured sludge' run-with-sludge
by_entry '`landfill_run_months`' run-months
by_entry '`landfill_take_month`' take-month

# What a call does once, such as testing the order, is in it.
printf '\nInstructions for each record put right:\n\n| Records | library | plain C |\n|---|---|---|\n'
for count in $counts; do echo "| $((10#$count)) | $(each repair $count) | $(each repaired $count) |"; done

# The stretch is all years of the file; the call tests and adds its entries.
printf '\nInstructions for each year of a stretch:\n\n| Years | library | doubles |\n|---|---|---|\n'
for count in $counts; do echo "| $((10#$count)) | $(each tunisia $count) | $(each reductions $count) |"; done

# The call tests all records and columns before it fills them.
printf '\nInstructions for each record by columns:\n\n| Records | library | doubles |\n|---|---|---|\n'
for count in $counts; do echo "| $((10#$count)) | $(each columns $count) | $(each columns-by-exp $count) |"; done

# The doubles run the file first, and then add its output records.
printf '\nInstructions for each month with yearly totals:\n\n| Months | library | doubles |\n|---|---|---|\n'
for count in $counts; do echo "| $((10#$count)) | $(each run-months $count) | $(each yearly-by-exp $count) |"; done

printf '\nInstructions for one call by samples:\n\n| Samples | library | plain C |\n|---|---|---|\n'
for count in 0003 0400; do echo "| $((10#$count)) | $(over_none masses $count) | $(over_none sorted $count) |"; done

by_uncertainties() {
    echo "| $1 | $((10#$2)) | $(over_none factor "$2") | $(over_none root "$2") | $(over_none count "$2") |"
}
printf '\nInstructions for one call by uncertainties:\n\n'
printf '| Uncertainties | Factor | library | doubles | whole numbers |\n|---|---|---|---|---|\n'
by_uncertainties '10, 10, 5, 0, 0, 5' 0086
by_uncertainties 'six of 100' 0028

printf '\nInstructions for one look-up:\n\n| Entry | Rate | library | doubles |\n|---|---|---|---|\n'
for kind in year month; do
    for rate in 0020 0400; do
        echo "| by $kind | $((10#$rate)) | $(over_none entry-by-$kind $rate) | $(over_none exp-by-$kind $rate) |"
    done
done

cat <<'END'

Figures beside the library, in grams CO2e:

| Peer | Records | The same bytes | Most apart | Bound there | Records outside the bound |
|---|---|---|---|---|---|
END
cat "$target/compare"

# Bytes that a section takes in a program, by the sections of all members of an archive or an object.
sections() { size -A "$1" | awk '$1 ~ /^\.(text|rodata|data|bss|eh_frame)/ && $2 > 0 { print $2, $1 }'; }
total() { sections "$1" | awk '{ total += $1 } END { print total + 0 }'; }

# What is linked of the library for one entry.
linked_for() {
    ld -r --gc-sections -e "$1" -u "$1" -o "$target/linked.o" "$library"
    total "$target/linked.o"
}

printf '\nSize of the library, in bytes:\n\n| Part | Bytes |\n|---|---|\n'
sections "$library" | sort -rn | awk '{ print "| `" $2 "` | " $1 " |" }'
echo "| all | $(total "$library") |"
for entry in run take entry tunisia columns; do
    echo "| linked for \`landfill_$entry\` alone | $(linked_for "landfill_$entry") |"
done
