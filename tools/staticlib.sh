#!/usr/bin/env bash
# usage: bash tools/staticlib.sh [--after-ci]
#
# Proves the entries for C and makes the library that C programs link, target/staticlib/liblandfill.a: some minutes where nothing
# below them is proved yet, then only what has changed.
#   --after-ci   takes the libraries that `rt ci` has just proved and left in out/, and proves the entries alone. Only for a
#                checkout that had no out/ before that run: else older libraries lie there
set -euo pipefail
cd "$(dirname "$0")/.."
made=crates/landfill_c/out/liblandfill_c.a

stop() { printf 'staticlib.sh: %s\n' "$*" >&2; exit 2; }

# `rt lib` takes no library that `rt ci` made, and would prove all below once more; the kit's own command takes it.
over_ci() {
    kit=$(dirname "$(rt doc)")
    words=(--crate-name landfill_c src/lib.rt --crate-type staticlib --links landfill_c=
        --extern "std=$kit/rlibs/std.rlib" -L "dependency=$kit/rlibs"
        --antt-project "$kit/rattle/logic/antt-project.json" --logic-built "$kit/logic_built" --toolchain "$kit/toolchain"
        --jobs "$(nproc)")
    for crate in $(sed -n 's/^landfill_c staticlib: *//p' crates.txt); do
        words+=(--extern "$crate=$PWD/crates/$crate/out/rlib/$crate.rlib")
    done
    for folder in "$PWD"/crates/*/out/rlib; do words+=(-L "dependency=$folder"); done
    mkdir -p crates/landfill_c/out
    (cd crates/landfill_c && "$kit/bin/rattle" build "${words[@]}" -o out/liblandfill_c.a)
}

case $#:${1-} in
0:) (cd crates/landfill_c && rt lib) ;;
1:--after-ci) over_ci ;;
*) stop "usage: bash tools/staticlib.sh [--after-ci]" ;;
esac
mkdir -p target/staticlib
cp "$made" target/staticlib/liblandfill.a
