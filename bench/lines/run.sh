#!/usr/bin/env bash
# Times the program over 10,000 to 200,000 set lines, beside a Python loop over the same lines. The time of a run without lines is taken
# off. A line of the most may take at most 1.5 times as long as one of the fewest, and at most half of Python's time.
# Usage: bench/lines/run.sh [PROGRAM], with the path of the built program `xforms`, else that which `run` builds.
. "$(dirname "$0")/../common.sh"
program=$(realpath "${1:-$top/crates/xforms/out/xforms}")
cd "$work"
for count in 10000 50000 200000; do
    python3 "$here/make.py" . "$count"
    idle=$(least_of_five replies "$program" try </dev/null)
    idle_python=$(least_of_five replies python3 "$here/loop.py" </dev/null)
    ours=$(least_of_five replies bash -c '"$0" try <events' "$program")
    tail -n 1 replies | grep -qx "ok $count 0"
    theirs=$(least_of_five replies bash -c 'python3 "$0" <events' "$here/loop.py")
    # nanoseconds a line
    last=$(((ours - idle) * 100000 / count))
    python=$(((theirs - idle_python) * 100000 / count))
    : "${first:=$last}"
    echo "$count lines: $last ns a line, Python $python ns a line"
done
verdict "a line of 200,000 beside one of 10,000, in hundredths" $((last * 100 / first)) 150
verdict "a line beside Python's, in hundredths" $((last * 100 / python)) 50
finish
