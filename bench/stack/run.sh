#!/usr/bin/env bash
# Runs forms at their limits with a stack of 2 MiB and with one of 64 MiB: `try`, `run`, a second `run` of no lines and `show`. None may end by a
# signal, and each must answer, and end, as under 64 MiB.
# Usage: bench/stack/run.sh [PROGRAM [CASE..]], with the path of the built program `xforms`, else that which `run` builds; all cases where none is named.
. "$(dirname "$0")/../common.sh"
program=$(realpath "${1:-$top/crates/xforms/out/xforms}")
[ $# -gt 0 ] && shift
ulimit -c 0
mkdir "$work/cases"
python3 "$here/make.py" "$work/cases"
[ $# -gt 0 ] || set -- $(ls "$work/cases")

# with_stack KIB CASE: the answers and ends of all runs of a case, in a folder of their own
with_stack() {
    local kib=$1 folder=$work/$1/$2
    mkdir -p "$work/$kib"
    cp -r "$work/cases/$2" "$folder"
    cd "$folder"
    for words in "check events" "try events" "run events" "run /dev/null" "show /dev/null"; do
        set -- $words
        local status=0
        (ulimit -s "$kib"; exec timeout 300 "$program" "$1" < "$2" > said 2> /dev/null) || status=$?
        echo "$1 $status $(sha256sum < said)"
    done
}

for case in "$@"; do
    with_stack 2048 "$case" > "$work/small"
    with_stack 65536 "$case" > "$work/large"
    ends=$(awk '{ printf " %s %s", $1, $2 }' "$work/small")
    if awk '$2 >= 124 { found = 1 } END { exit !found }' "$work/small" || ! cmp -s "$work/small" "$work/large"; then
        echo "MISSED: $case:$ends; with 64 MiB$(awk '{ printf " %s %s", $1, $2 }' "$work/large")"
        failed=1
    else
        echo "met: $case:$ends"
    fi
    rm -rf "$work/2048" "$work/65536"
done
finish
