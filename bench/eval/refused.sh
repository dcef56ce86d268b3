#!/usr/bin/env bash
# Parses and evaluates an expression of 4,096 bytes, nested 64 deep, over a forest at its limits (limits.py), with each allocation of that
# refused in turn: each time the answer must be `memory` or the right value, which libxml2 gives where it can be compiled with. Behind its
# answer a run is cut off; each 61st is made first, and goes on until all is dropped and the program ends.
# Usage: bench/eval/refused.sh [STEP]: with a number only each STEPth allocation is refused.
. "$(dirname "$0")/../common.sh"
program=refused.rt.txt modules=tree
make_bench refused_bench xf_base xf_name xf_def_syntax xf_def_forest xf_json xf_def_xpath xf_path xf_tree xf_eval
gcc -O2 -Wall -fno-builtin -shared -fPIC -o "$work/turns.so" "$here/turns.c"
python3 "$here/limits.py" json > "$work/limits"
ulimit -c 0
"$ours" < "$work/limits" > "$work/said"
right=$(tail -n 1 "$work/said")
if command -v xml2-config > "$work/found"; then
    # The flags are words.
    # shellcheck disable=SC2046
    gcc -O2 -Wall $(xml2-config --cflags) -o "$work/plain" "$here/plain.c" $(xml2-config --libs)
    python3 "$here/limits.py" xml | "$work/plain" values ALL > "$work/other"
    [ "$right" = "$(cat "$work/other")" ] || { echo "libxml2 gives $(cat "$work/other"), and ours $right"; exit 1; }
fi
bad=0
# turn STEP NAME: refuses each STEPth allocation.
turn() {
    TURNS_STEP=$1 LD_PRELOAD="$work/turns.so" "$ours" < "$work/limits" > "$work/said" 2> "$work/told"
    local memory same all refused
    memory=$(grep -cx memory "$work/said" || true)
    # Of those with the right value one is the program itself; the first line is that of its beginning.
    same=$(($(grep -cxF -- "$right" "$work/said" || true) - 1))
    all=$(($(wc -l < "$work/said") - 2))
    refused=$(sed -nE 's/^.* allocations, ([0-9]+) refused.*$/\1/p' "$work/told")
    echo "$2: $(cat "$work/told"): $memory with memory, $same with the right value, $right"
    if [ "$memory" -eq 0 ] || [ $((memory + same)) -ne "$all" ] || [ "$all" -ne "$refused" ] || ! grep -q ' 0 copies ended by a fault$' "$work/told"; then
        bad=1
    fi
}
turn 61 "to the end of the program"
export TURNS_SHORT=1
turn "${1:-1}" "to the answer"
exit "$bad"
