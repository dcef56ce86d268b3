#!/usr/bin/env bash
# Times the program over 1,000 set lines on forms of 10, 100 and 1,000 rows, each with a calculate and an input, and one sum over all, beside
# lxml that evaluates each of these expressions afresh at each line (Debian's python3-lxml; skipped where it is not there). Both flush each
# reply. The time of a run without lines is taken off. A line may take at most a tenth of lxml's time. Then a state of 65,000 nodes, texts
# among them, is shown, in at most 0.2 seconds.
# Usage: bench/sets/run.sh [PROGRAM], with the path of the built program `xforms`, else that which `run` builds.
. "$(dirname "$0")/../common.sh"
program=$(realpath "${1:-$top/crates/xforms/out/xforms}")
python=/usr/bin/python3
if ! "$python" -c 'import lxml' 2> "$work/none"; then
    echo "skipped: lxml is not there"
    exit 0
fi
cd "$work"
for rows in 10 100 1000; do
    "$python" "$here/make.py" . "$rows"
    idle=$(least_of_five replies "$program" try </dev/null)
    ours=$(least_of_five replies bash -c '"$0" try <events' "$program")
    grep -qE '^ok 1000 [0-9]+$' replies || { echo "MISSED: the lines of $rows rows"; failed=1; }
    mv events all && : > events
    idle_python=$(least_of_five told "$python" "$here/afresh.py" .)
    mv all events
    theirs=$(least_of_five told "$python" "$here/afresh.py" .)
    # The totals are the same.
    (cat events; echo '["show"]') | "$program" try > shown
    grep -q "^/order/total .*\"$(tail -n 1 told)\"$" shown || { echo "MISSED: the total of $rows rows"; failed=1; }
    # Tenths of a millisecond for 1,000 lines are tenths of a microsecond for one.
    line=$((ours > idle ? ours - idle : 1))
    other=$((theirs - idle_python))
    verdict "$rows rows: $((line / 10)) us a line, lxml $((other / 10)) us, in hundredths" $((line * 100 / other)) 10
done
"$python" "$here/make.py" . 10900 data
idle=$(least_of_five replies "$program" try </dev/null)
echo '["show"]' > events
ours=$(least_of_five replies bash -c '"$0" try <events' "$program")
verdict "a state of 65,000 nodes, in tenths of a ms" $((ours - idle)) 2000
finish
