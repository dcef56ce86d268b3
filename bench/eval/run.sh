#!/usr/bin/env bash
# Measures xf_eval with xf_path beside libxml2: 271 expressions over four trees, from parsed form and from their texts, and how the time of
# each kind grows with the tree. Both programs must print the same values. Where libxml2 cannot be compiled with, nothing is measured.
. "$(dirname "$0")/../common.sh"
command -v xml2-config > "$work/found" || { echo "skipped: no xml2-config (libxml2-dev)"; exit 0; }
# The flags are words.
# shellcheck disable=SC2046
gcc -O2 -Wall $(xml2-config --cflags) -o "$work/plain" "$here/plain.c" $(xml2-config --libs)
program=speed.rt.txt modules=tree
make_bench eval_bench xf_base xf_name xf_def_syntax xf_def_forest xf_json xf_def_xpath xf_path xf_tree xf_eval
cp "$ours" "$work/ours"
# input NAME EXPRESSIONS WORD..: the trees that these words name and the expressions, for both programs.
input() {
    local name=$1 expressions=$2
    shift 2
    { python3 "$here/trees.py" json "$@"; cat "$expressions"; } > "$work/ours.$name" 2> "$work/sizes"
    { python3 "$here/trees.py" xml "$@"; cat "$expressions"; } > "$work/plain.$name" 2> "$work/sizes"
}
printf '1\tsum\ttotal\tsum(../item/sum)\n' > "$work/sum"
input mix "$here/expressions.txt"
input items "$work/sum" items 1000
for size in 250 1000 4000; do input "$size" "$here/growth.txt" rows "$size"; done
python3 "$here/measure.py" "$work"
