# Sourced by the scripts that build C. Finds gcc and the library to link; installs Debian's packages where the compiler or its
# static C library is missing.
# The scripts have `set -eu`, stand at the repository's root, and pass their words on to `read_words`.

target=target/c
library='' seed=1
flags='-std=c11 -O2 -Wall -Wextra -Werror -Iinclude -Itests/c'
# The files of the differential test.
differential='differential years sludge orders work reported choices uncertainties tunisia accepted entered stretches columns
 worked refused sheets spoiled more yearly_totals slots offered months offers sides inputs ledgers reference entries
 reference_years reference_columns reference_totals'

stop() { printf '%s\n' "$*" >&2; exit 2; }

read_words() {
    while [ $# -gt 0 ]; do
        case $1 in
        --library) [ $# -ge 2 ] || stop "--library takes a file"; library=$2; shift 2 ;;
        --standin) library=standin; shift ;;
        --seed) [ $# -ge 2 ] || stop "--seed takes a number"; seed=$2; shift 2 ;;
        *) stop "usage: $0 [--library FILE | --standin] [--seed NUMBER]" ;;
        esac
    done
}

has_compiler() { command -v gcc >/dev/null && [ -f "$(gcc -print-file-name=libc.a)" ]; }

find_compiler() {
    [ "$(uname -m)" = x86_64 ] || stop "the library and its tests are for x86-64, and this machine is $(uname -m)"
    has_compiler && return 0
    { apt-get update && apt-get install -y --no-install-recommends gcc libc6-dev; } >&2
    has_compiler || stop "gcc and libc6-dev are installed, but gcc cannot link statically"
}

# Links a program: build NAME SOURCE... makes $target/NAME.
build() {
    name=$1
    shift
    gcc $flags -static -o "$target/$name" "$@" -lm
}

# Makes an archive of the reference under the library's names: $target/standin/libstandin.a.
standin() {
    rm -rf "$target/standin"
    mkdir -p "$target/standin"
    for file in reference.h reference.c entries.c reference_years.c reference_columns.c reference_totals.c standin.c; do
        sed 's/reference_/standin_/g' "tests/c/$file" >"$target/standin/$file"
    done
    for file in reference entries reference_years reference_columns reference_totals standin; do
        gcc -std=c11 -O2 -Iinclude -ffunction-sections -c -o "$target/standin/$file.o" "$target/standin/$file.c"
    done
    ar rc "$target/standin/libstandin.a" "$target"/standin/*.o
}

# Proves and builds the library, unless another file or the stand-in is to be linked in its place.
find_library() {
    case $library in
    '')
        bash tools/staticlib.sh >&2 || stop "tools/staticlib.sh has not built the library"
        library=target/staticlib/liblandfill.a
        ;;
    standin) standin; library=$target/standin/libstandin.a ;;
    esac
    [ -f "$library" ] || stop "no library at $library"
}

prepare() {
    read_words "$@"
    mkdir -p "$target"
    find_compiler
    find_library
}
