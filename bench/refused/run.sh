#!/usr/bin/env bash
# Runs a test with each of its allocations refused in turn: the first in one run, the second in the next, until a run has
# no more of them. A run may pass, or end for want of memory; one that dies by a failed assertion fails the script.
# Usage: bench/refused/run.sh [CRATE TEST], where `rt test` has built the tests of the crate.
set -euo pipefail
here=$(cd "$(dirname "$0")" && pwd)
top=$(cd "$here/../.." && pwd)
crate=${1:-xf_test_forest}
test=${2:-memory::a_change_without_memory_leaves_the_forest}
program="$top/crates/$crate/out/${crate}_tests"
work=$(mktemp -d)
trap 'rm -rf "$work"' EXIT
gcc -O2 -Wall -fno-builtin -shared -fPIC -o "$work/refuse.so" "$here/refuse.c"
ulimit -c 0
passed=0 ended=0
for ((number = 1; ; number++)); do
    status=0
    REFUSE=$number LD_PRELOAD="$work/refuse.so" "$program" "$test" > "$work/said" 2> "$work/told" || status=$?
    if ! grep -q '^refused$' "$work/told"; then
        break
    fi
    if [ "$status" -eq 0 ]; then
        passed=$((passed + 1))
    elif [ "$status" -lt 128 ] && grep -qE '^error: (AllocError|AllocFailed .*|Memory)$' "$work/told"; then
        ended=$((ended + 1))
    else
        echo "allocation $number refused: status $status"
        cat "$work/said" "$work/told"
        exit 1
    fi
done
if [ "$status" -ne 0 ]; then
    echo "with no allocation refused: status $status"
    cat "$work/said" "$work/told"
    exit 1
fi
if [ "$passed" -eq 0 ]; then
    echo "no run passed with an allocation refused: the test meets none in a change"
    exit 1
fi
echo "$((number - 1)) allocations refused in turn: $passed runs passed, $ended ended for want of memory"
