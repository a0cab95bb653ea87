#!/usr/bin/env bash
# Tests the tests: of the wrong copies that slips.txt lists, those of the reference have to be seen by the differential test, and
# those of the header by header.c.
# Usage: bash tests/c/slips.sh [FILE], where FILE has some lines of slips.txt
set -eu
slips=$(realpath "${1:-$(dirname "$0")/slips.txt}")
cd "$(dirname "$0")/../.."
. tests/c/build.sh
prepare --standin

objects=''
for file in $differential; do
    gcc $flags -c -o "$target/$file.o" "tests/c/$file.c"
    objects="$objects $target/$file.o"
done

# Builds the test with the stand-in, one of whose files has an edit by sed; its other files are linked as they are.
build_slip() {
    sed "$2" "$target/standin/$1" >"$target/slip.c"
    ! cmp -s "$target/standin/$1" "$target/slip.c" || stop "nothing to edit in $1: $2"
    gcc -std=c11 -O2 -Iinclude -I"$target/standin" -c -o "$target/slip.o" "$target/slip.c"
    others=''
    for other in reference entries reference_years reference_columns reference_totals standin; do
        [ "$other.c" = "$1" ] || others="$others $target/standin/$other.o"
    done
    build slip $objects "$target/slip.o" $others
}

# Builds header.c with a copy of landfill.h that has an edit by sed.
build_header() {
    mkdir -p "$target/wrong"
    sed "$1" include/landfill.h >"$target/wrong/landfill.h"
    ! cmp -s include/landfill.h "$target/wrong/landfill.h" || stop "nothing to edit in landfill.h: $1"
    build slip -iquote "$target/wrong" tests/c/header.c
}

caught=0 missed=0
while IFS='|' read -r slip file edit; do
    case $slip in '#'* | '') continue ;; esac
    slip=${slip% } file=${file# } edit=${edit# }
    file=${file% }
    if [ "$file" = landfill.h ]; then
        build_header "$edit"
        verdict='^header: .* is wrong$'
    else
        build_slip "$file" "$edit"
        verdict=', 1 difference$'
    fi
    # A slip in the years, in the columns or in the totals is looked for by the part that asks for them.
    case $file in
    reference_years.c) part="$seed tunisia" ;;
    reference_columns.c) part="$seed columns" ;;
    reference_totals.c) part="$seed totals" ;;
    *) part='' ;;
    esac
    status=0
    "$target/slip" $part >"$target/slip.txt" </dev/null || status=$?
    if [ "$status" -eq 1 ] && tail -n 1 "$target/slip.txt" | grep -q "$verdict"; then
        caught=$((caught + 1))
    else
        missed=$((missed + 1))
        echo "NOT CAUGHT: $slip (status $status)"
    fi
done <"$slips"
echo "slips: $caught caught, $missed missed"
[ "$missed" -eq 0 ]
