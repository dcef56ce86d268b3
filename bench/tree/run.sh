#!/usr/bin/env bash
# Measures the forest of xf_tree, the draft of xf_undo and the paths of xf_tree_paths beside a plain arena of linked nodes with the same calls. Both
# must print the same; ours may take at most twice as long, and no longer on what is below a node. Works of a size are measured over about 64,000
# nodes, without the planting, and may grow by 1.3 times what is linear from 4,000 nodes to 16,000 and from there to 64,000. Growth is measured by
# instructions, as valgrind counts them, since times grow by what the processor's caches hold too; where it is missing, by times.
. "$(dirname "$0")/../common.sh"
modules=growth
make_bench tree_bench xf_base xf_name xf_def_forest xf_tree xf_undo xf_tree_paths

# before WORD SIZE TIMES: the words of a run that plants what this one plants. What is done over and over on one tree is done once there too: the
# first time may cost the tidying up of memory after the planting.
before() {
    case $1 in
        fill*) echo "leaves $2 $3" ;;
        clear*) echo "texts $2 $3" ;;
        sets) echo "sets $2 0" ;;
        *) echo "$1 $2 1" ;;
    esac
}

# alone FILE PROGRAM WORD SIZE TIMES: as least_of_five, without the planting
alone() {
    local to=$1 program=$2 planted whole
    shift 2
    # These words are split.
    # shellcheck disable=SC2046
    planted=$(least_of_five "$work/planted" "$program" $(before "$@"))
    whole=$(least_of_five "$to" "$program" "$@")
    echo $((whole > planted ? whole - planted : 1))
}

# work_beside WORD SIZE TIMES: as beside, without the planting
work_beside() {
    local one other
    one=$(alone "$work/one" "$ours" "$@")
    other=$(alone "$work/other" "$plain" "$@")
    cmp "$work/one" "$work/other"
    verdict "$*: ours $one, plain $other tenths of a ms, ratio in hundredths" $((one * 100 / other)) 200
}

# taken WORD SIZE TIMES: the instructions of our program, or its time, without the planting
taken() {
    if command -v valgrind > "$work/none"; then
        # shellcheck disable=SC2046
        echo $(($(instructions "$ours" "$1" "$2" 2) - $(instructions "$ours" $(before "$1" "$2" 2))))
    else
        alone "$work/one" "$ours" "$@"
    fi
}

for name in print walk double undo rows empty; do
    beside 200 "$name"
done
beside 100 descend
for one in "paths 10" "fill 8" "fill-back 8" "clear 8" "clear-back 8" "sets 10" "next 400" "previous 400" "named 400"; do
    read -r name often <<< "$one"
    work_beside "$name" 64000 "$often"
    had=$(taken "$name" 4000 "$often")
    for size in 16000 64000; do
        now=$(taken "$name" "$size" "$often")
        grown "$name, $size nodes, $now where a quarter took $had" "$had" "$now" 4
        had=$now
    done
done
finish
