#!/usr/bin/env bash
# Times what binds cost: a form of N rows with `../qty * ../price` a row and a sum over all, from its bytes to settled data, and a set after which
# each calculate is due, at 100, 1,000 and 8,000 rows, beside a plain Rust program with vectors of numbers. Then chains, fans, many binds and
# nested ones, each at a quarter and at the whole of their size. What is linear by its meaning may grow by 1.3 times that. One input stands in each
# form, so that next to nothing is shown. Growth is measured by instructions, as valgrind counts them, since times grow by what the processor's
# caches hold too; where it is missing, by times.
# Usage: bench/binds/run.sh [PROGRAM], with the path of the built program `xforms`, else that which `run` builds.
. "$(dirname "$0")/../common.sh"
program=$(realpath "${1:-$top/crates/xforms/out/xforms}")
rustc -O -o "$work/plain" "$here/plain.rs" 2> "$work/none"
cd "$work"

# timed SHAPE COUNT LINES: how long the form takes to load and settle, and how long a set takes then, in microseconds: loaded, line
timed() {
    local idle whole
    python3 "$here/make.py" . "$@"
    idle=$(least_of_five replies "$program" try </dev/null)
    whole=$(least_of_five replies bash -c '"$0" try <events' "$program")
    tail -n 1 replies | grep -qx "ok $3" || { echo "MISSED: the lines of $1 $2: $(tail -n 1 replies)"; failed=1; }
    loaded=$((idle * 100))
    line=$(((whole > idle ? whole - idle : 1) * 100 / $3))
    loading=$loaded lining=$line
    if command -v valgrind > none; then
        idle=$(instructions "$program" try </dev/null)
        whole=$(instructions "$program" try < events)
        loading=$idle lining=$(((whole - idle) / $3))
    fi
}

for count in 100 1000 8000; do
    timed rows "$count" $((200000 / count))
    plain_line=$(least_of_five told bash -c '"$0" "$1" <events 2>&1 >/dev/null' ./plain "$count")
    echo "$count rows: settled after $loaded us, a line $line us, plain Rust $((plain_line * 100 / (200000 / count))) us a line with its start"
    if [ "$count" -gt 100 ]; then
        grown "$count rows, a line" "$line_before" "$lining" $((count / before))
        grown "$count rows, settled" "$loaded_before" "$loading" $((count / before))
    fi
    before=$count line_before=$lining loaded_before=$loading
done
for shape in "chain 10000" "fan 10000" "binds 4096" "nested 10000"; do
    set -- $shape
    timed "$1" $(($2 / 4)) 40
    line_before=$lining loaded_before=$loading
    timed "$1" "$2" 10
    echo "$1 of $2: settled after $loaded us, a line $line us"
    grown "$1 of $2, a line" "$line_before" "$lining" 4
    grown "$1 of $2, settled" "$loaded_before" "$loading" 4
done
finish
