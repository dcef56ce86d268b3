#!/usr/bin/env bash
# Measures durable appends a second of xf_journal over two real files, beside a plain program that makes the same calls: a write of 28
# bytes, a sync, a write of 1 byte, a sync. A thousand appends a run, the two in turns; the least time of each counts, and xf_journal may
# take at most 1.11 times as long.
# Usage: bench/journal/run.sh [ROUNDS [FOLDER]]. The files lie in FOLDER while it runs, else in a new one below TMPDIR; a memory file
# system shows nothing.
. "$(dirname "$0")/../common.sh"
make_bench journal_bench xf_io xf_store xf_disk xf_journal
rm -f "$work/crates/journal_bench/"{a,b}
mkdir "$work/files"
files=${2:-$work/files}
cd "$files"
for round in $(seq "${1:-5}"); do
    rm -f a b
    "$ours" >> "$work/one"
    rm -f a b
    "$plain" >> "$work/other"
    echo "round $round: xf_journal $(tail -n 1 "$work/one") us, plain $(tail -n 1 "$work/other") us, load $(cut -d' ' -f1 /proc/loadavg)"
done
rm -f a b
verdict "a thousand appends beside the plain ones, in hundredths" $(($(sort -n "$work/one" | head -n 1) * 100 / $(sort -n "$work/other" | head -n 1))) 111
finish
