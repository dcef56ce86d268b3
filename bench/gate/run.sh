#!/usr/bin/env bash
# Runs the parts of the merge gate one after the other from nothing, on a copy: for each crate its proof, its tests and its must-fail edits.
# Prints the processor seconds of each, their sums, and the longest chain: no gate ends before it, however many processors there are; then
# whether each crate, and all by their lines of code, proof, tests and edits, stay within their goals.
# Usage: bench/gate/run.sh [CRATE..], all crates where none is named. Crates below those that are named are taken as `rt lib` left them.
. "$(dirname "$0")/../common.sh"
copy=$work/copy
mkdir "$copy"
tar -C "$top" --exclude=./.git --exclude=incremental -cf - . | tar -C "$copy" -xf -
git init -q "$copy"
every=$(sed 's/#.*//; /:/!d; s/:.*//' "$top/crates.txt")
[ $# -gt 0 ] || set -- $every
TIMEFORMAT='%U %S'

# seconds CRATE WHAT COMMAND..: runs a command and gives its processor seconds, or says that it failed.
seconds() {
    local crate=$1 what=$2 status=0 taken
    shift 2
    taken=$({ time "$@" > "$work/said" 2>&1 </dev/null; } 2>&1) || status=$?
    if [ "$status" -ne 0 ]; then
        echo "$crate: its $what failed:" >&2
        grep -v ': proved$' "$work/said" | tail -n 5 >&2
        touch "$work/failed"
    fi
    awk '{ printf "%.0f\n", $1 + $2 }' <<<"$taken"
}

echo "crate proof tests edits, in processor seconds"
for crate in $(closure "$@"); do
    folder=$copy/crates/$crate
    case " $* " in
        *" $crate "*) ;;
        *)
            (cd "$folder" && rt lib > "$work/said" 2>&1) || { tail -n 5 "$work/said" >&2; exit 1; }
            continue ;;
    esac
    rm -rf "$folder/out"
    cd "$folder"
    # A program's build runs it too; without words and lines it may end as it likes.
    if [ -f src/main.rt ]; then made=(bash -c 'rt run; [ -x "out/$0" ]' "$crate"); else made=(rt lib --jobs 1); fi
    proof=$(seconds "$crate" proof "${made[@]}")
    tests=0 edits=0
    if grep -rqF '#[test]' src; then
        rm -rf out/incremental
        tests=$(seconds "$crate" tests rt test --jobs 1)
    fi
    cd "$copy"
    if ls "$folder"/must-fail/*.edit > "$work/said" 2>&1; then
        edits=$(seconds "$crate" edits rt must-fail "$crate")
    fi
    echo "$crate $proof $tests $edits" | tee -a "$work/seconds"
done

# A crate waits for the proofs of those below it, and its edits wait for its proof and its tests.
awk '
    FNR == NR { proof[$1] = $2; rest[$1] = $3; edits[$1] = $4; sum += $2 + $3 + $4; next }
    function ready(crate,  i, n, below, at, best) {
        if (crate in known) return known[crate]
        n = split(stands[crate], below, " ")
        before[crate] = ""
        for (i = 1; i <= n; i++)
            if (below[i] in stands && (at = ready(below[i]) + proof[below[i]]) > best) { best = at; before[crate] = below[i] }
        return known[crate] = best + 0
    }
    { sub(/#.*/, "") }
    /:/ { split($0, parts, ":"); stands[parts[1]] = parts[2] }
    END {
        for (crate in proof) {
            longer = proof[crate] > rest[crate] ? proof[crate] : rest[crate]
            if ((all = ready(crate) + longer + edits[crate]) > most) { most = all; last = crate }
        }
        chain = last
        for (crate = before[last]; crate != ""; crate = before[crate]) chain = crate " " chain
        printf "all: %d seconds; the longest chain: %d seconds: %s\n", sum, most, chain
    }' "$work/seconds" "$top/crates.txt"
while read -r crate proof tests edits; do
    verdict "$crate: processor seconds" $((proof + tests + edits)) 720
done < "$work/seconds"
lines=$(cd "$top/crates" && find "$@" -name out -prune -o -type f \( -name '*.rt' -o -name '*.antt' -o -name '*.edit' \) -exec cat {} + | wc -l)
verdict "processor seconds for 1,000 of $lines lines" $(($(awk '{ sum += $2 + $3 + $4 } END { print sum * 1000 }' "$work/seconds") / lines)) 300
[ ! -e "$work/failed" ] || failed=1
finish
