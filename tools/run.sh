#!/usr/bin/env bash
# usage: bash tools/run.sh NAME [WORDS...]
#
# Runs the program NAME of this repository on standard input, with WORDS as its arguments. Where its sources, or any that it
# stands on, have changed since they were proved, they are proved and the program is built first: some minutes from nothing.
#
# A program has no exit status of its own. The status tells how it went:
#   0  the program ended well
#   1  the listing, or the repair, ended with a refusal: the listing's last line, or the repair's account, says which
#   2  there is no program of that name
#   3  the program is not proved, or it fails on its stored sample: the log is shown, and nothing is run
#   4  the program wrote something else than an account to standard error, or did not come to its end
set -u -o pipefail

say() { printf 'run.sh: %s\n' "$*" >&2; }
usage() {
    sed -n '2,/^[^#]/s/^# \{0,1\}//p' "$0"
    printf '\nPrograms:%s\n' "$programs"
}

root=$(CDPATH='' cd -- "$(dirname -- "$0")/.." && pwd) || exit 2
name=${1-} programs='' known=''
for main in "$root"/crates/*/src/main.rt; do
    crate=${main%/src/main.rt} crate=${crate##*/}
    programs="$programs $crate"
    [ "$crate" != "$name" ] || known=yes
done
case $name in -h | --help) usage; exit 0 ;; esac
if [ -z "$known" ]; then
    [ $# -eq 0 ] || say "no program '$name'"
    usage >&2
    exit 2
fi
shift
command -v rt >/dev/null || { say "no rt on the PATH: it comes with the Rattle kit"; exit 3; }
folder=$root/crates/$name
program=$folder/out/$name
room=$(mktemp -d) || exit 3
trap 'rm -rf "$room"' EXIT

# Where nothing has changed since the program was proved and built, `rt run` only runs it on its stored sample: the files stdin and
# args beside src/, and what it must write, stdout.
sample() {
    cd "$folder" || return
    local words=() wanted=0 status=0
    [ ! -f args ] || mapfile -t words <args
    [ ! -f status ] || wanted=$(cat status)
    [ ! -f stdin ] || exec <stdin
    rt run ${words[0]+-- "${words[@]}"} >"$room/sample" 2>"$room/log" || status=$?
    [ "$status" -eq "$wanted" ] || return
    [ ! -f stdout ] || exec <stdout
    cmp - "$room/sample" >>"$room/log" 2>&1
}
exec 8< <(sample </dev/null; echo $?)
{ [ -x "$program" ] && read -r -t 5 checked <&8; } || {
    say "$name is proved first: some minutes where nothing is proved yet"
    read -r checked <&8
}
exec 8<&-
if [ "${checked:-}" != 0 ]; then
    cat "$room/log" >&2
    say "$name was not run: see above"
    exit 3
fi

# Standard error passes through a copy; standard output goes its own way, by 3.
run() {
    "$program" "$@" 2>&1 >&3 3>&- | tee "$room/said" >&2
    return "${PIPESTATUS[0]}"
}
case $name in
listing) run "$@" 3>&1 | tee "$room/text" ;;
*) run "$@" 3>&1 ;;
esac || exit 4
# A repair says one line on standard error, its account; no other program says a word there.
if [ "$name" = repair ]; then
    case $(wc -l <"$room/said"):$(cat "$room/said") in
    1:'repair: '[0-9]*', refusal 0') exit 0 ;;
    1:'repair: '[0-9]*', refusal '[1-9]*) exit 1 ;;
    *) exit 4 ;;
    esac
fi
[ ! -s "$room/said" ] || exit 4
[ "$name" = listing ] || exit 0
case $(tail -n 1 "$room/text") in 'refused '*) exit 1 ;; esac
