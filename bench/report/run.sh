#!/usr/bin/env bash
# Measures the lines of the state of an instance with many elements of one name beside each other: those of 64,000 may take at most 0.2
# seconds, and no more than five times what those of 16,000 take, which may take no more than five times what those of 4,000 take.
. "$(dirname "$0")/../common.sh"
make_bench report_bench xf_base xf_name xf_def_syntax xf_def_forest xf_tree xf_report
declare -A took
for count in 4000 16000 64000; do
    made=$(least_of_five "$work/none" "$ours" "$count")
    all=$(least_of_five "$work/lines" "$ours" "$count" lines)
    # The instance, the root's element, the siblings, one more and its attribute.
    [ "$(wc -l < "$work/lines")" -eq $((count + 4)) ] || { echo "MISSED: lines of $count"; failed=1; }
    took[$count]=$((all > made ? all - made : 1))
    echo "$count: ${took[$count]} tenths of a ms"
done
verdict "64000 in tenths of a ms" "${took[64000]}" 2000
verdict "64000 beside 16000, in hundredths" $((took[64000] * 100 / took[16000])) 500
verdict "16000 beside 4000, in hundredths" $((took[16000] * 100 / took[4000])) 500
finish
