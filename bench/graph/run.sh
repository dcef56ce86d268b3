#!/usr/bin/env bash
# Measures xf_graph over 10^5 vertices and 10^6 edges beside a plain program. An order may take at most three times as long as there, and what
# a change of one vertex with ten readers reaches at most 1.5 times as long among 10^5 vertices as among 10^3.
. "$(dirname "$0")/../common.sh"
make_bench graph_bench xf_graph
# In turns, since a program that shares its processor is several times slower: the least of each figure counts.
for _ in 1 2 3 4 5; do
    "$ours" >> "$work/one"
    "$plain" >> "$work/other"
done
# the least number at the end of the lines that begin so
least() { awk -v begin="$2" 'index($0, begin) == 1 && (least == "" || $NF < least) { least = $NF } END { print least }' "$1"; }
for file in one other; do
    echo "$file: build $(least "$work/$file" "build"), order $(least "$work/$file" "order"), pertinent among 10^3, 10^4, 10^5:" \
        "$(least "$work/$file" "pertinent of 11 among 1000,") $(least "$work/$file" "pertinent of 11 among 10000,") $(least "$work/$file" "pertinent of 11 among 100000,") microseconds"
done
verdict "order beside the plain one, in hundredths" $(($(least "$work/one" order) * 100 / $(least "$work/other" order))) 300
verdict "pertinent among 10^5 beside among 10^3, in hundredths" \
    $(($(least "$work/one" "pertinent of 11 among 100000,") * 100 / $(least "$work/one" "pertinent of 11 among 1000,"))) 150
finish
