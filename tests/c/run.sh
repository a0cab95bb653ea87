#!/usr/bin/env bash
# Builds the C programs and runs them: the example, the library against the reference, the door under all modes.
# Usage: bash tests/c/run.sh [--library FILE | --standin] [--seed NUMBER]
#   --library FILE   links this archive in the place of target/staticlib/liblandfill.a
#   --standin        links the reference in the library's place, to try the test itself
set -eu
cd "$(dirname "$0")/../.."
. tests/c/build.sh
prepare "$@"

# The header compiles without a warning, and its helpers give the bytes written out by hand.
for standard in c99 c11; do
    build "header-$standard" -std=$standard -Wpedantic tests/c/header.c
    "$target/header-$standard"
done
echo "header: as expected in C99 and C11"
if command -v g++ >/dev/null; then
    for standard in c++11 c++17; do
        g++ -std=$standard -Wall -Wextra -Wpedantic -Werror -Iinclude -o "$target/header-$standard" tests/c/header.cpp
        "$target/header-$standard"
    done
    echo "header: as expected in C++11 and C++17"
else
    echo "header: no g++ here, C++ not tried"
fi

build example tests/c/example.c "$library"
"$target/example" >"$target/example.txt"
diff tests/c/example.txt "$target/example.txt"
echo "example: as expected"

sources=$(printf 'tests/c/%s.c ' $differential)
build differential $sources "$library"
"$target/differential" "$seed"

# The reference works with floats, so that the modes change its answers.
[ "$library" != "$target/standin/libstandin.a" ] || exit 0
build modes tests/c/modes.c tests/c/inputs.c tests/c/reference.c "$library"
"$target/modes" "$seed"
