#!/usr/bin/env bash
# Loads forms of 128, 256, 512 and 1024 KiB: the last has 10,000 binds, controls and labels, data of 20,000 nodes and 4,096 ids. It has to load in
# under 0.25 seconds and in less memory than 8 times its size; twice the size may take 2.6 times as long; and it may take half as long as Python's
# json with a walk that resolves the ids. The time and the memory of a run that only reads the bytes are taken off.
# With the word `refused`, it loads a form of every element instead, with each allocation refused in turn: the loader has to say `Memory`.
. "$(dirname "$0")/../common.sh"
python=/usr/bin/python3
make_bench load_bench xf_base xf_num xf_table xf_name xf_types xf_def_syntax xf_path xf_json xf_form_vocabulary xf_form_refusals xf_form

# Each allocation of the loading is refused in one run, until a run has no more of them. One that is refused before or behind it ends the run.
refuse() {
    local number status refused=0
    gcc -O2 -Wall -fno-builtin -shared -fPIC -o "$work/refuse.so" "$top/bench/refused/refuse.c"
    "$ours" "$here/every.json" load > "$work/wanted"
    for ((number = 1; ; number++)); do
        status=0
        REFUSE=$number LD_PRELOAD="$work/refuse.so" "$ours" "$here/every.json" load > "$work/said" 2> "$work/told" || status=$?
        grep -q '^refused$' "$work/told" || break
        if [ "$status" -eq 0 ] && [ "$(wc -l < "$work/said")" -eq 2 ]; then
            refused=$((refused + 1))
            [ "$(tail -n 1 "$work/said")" = Memory ] || { echo "MISSED: allocation $number refused: $(tail -n 1 "$work/said")"; failed=1; }
        elif [ "$status" -eq 0 ] || [ "$status" -ge 128 ]; then
            echo "MISSED: allocation $number refused: status $status"
            failed=1
        fi
    done
    cmp "$work/said" "$work/wanted" || failed=1
    [ "$refused" -gt 0 ] || { echo "MISSED: no allocation of the loading was refused"; failed=1; }
    echo "$refused allocations of the loading refused in turn"
}

if [ "${1:-}" = refused ]; then
    refuse
    finish
fi

# resident COMMAND..: the greatest resident set in KiB, by GNU time.
resident() {
    /usr/bin/time -f %M -o "$work/resident" "$@" > "$work/none"
    cat "$work/resident"
}

declare -A took
for parts in 1 2 4 8; do
    "$python" "$here/make.py" "$parts" > "$work/form"
    idle=$(least_of_five "$work/none" "$ours" "$work/form")
    all=$(least_of_five "$work/one" "$ours" "$work/form" load)
    took[$parts]=$((all > idle ? all - idle : 1))
    echo "$((parts * 128)) KiB: ${took[$parts]} tenths of a ms"
done
verdict "1024 KiB in tenths of a ms" "${took[8]}" 2500
for parts in 2 4 8; do
    verdict "$((parts * 128)) KiB beside $((parts * 64)), in hundredths of twice as long" $((took[$parts] * 50 / took[$((parts / 2))])) 130
done
verdict "memory beside 1024 KiB, in hundredths" $((($(resident "$ours" "$work/form" load) - $(resident "$ours" "$work/form")) * 100 / 1024)) 800
idle=$(least_of_five "$work/none" "$python" "$here/resolve.py" "$work/form")
all=$(least_of_five "$work/other" "$python" "$here/resolve.py" "$work/form" walk)
cmp "$work/one" "$work/other" || failed=1
verdict "1024 KiB beside Python, ${took[8]} and $((all - idle)) tenths of a ms, in hundredths" $((took[8] * 100 / (all - idle))) 50
finish
