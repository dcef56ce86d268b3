#!/usr/bin/env bash
# Makes the tables of CRATES.md from crates.txt, which has the floors and what each crate stands on. What a crate is for and what is proved of
# it stand in its row of CRATES.md, written by hand: a crate that has none gets an empty row, and the script ends with 1.
# A crate's level is 0 where it stands on no crate of the repository, else one more than the highest of those.
# Usage: docs/crates.sh, or docs/crates.sh check, which writes nothing and ends with 1 where the tables are not as they would be.
set -euo pipefail
cd "$(dirname "$0")"
status=0
page=$(awk '
    function level(crate,  i, n, below, at, most) {
        if (crate in levels) return levels[crate]
        n = split(stands[crate], below, " ")
        for (i = 1; i <= n; i++)
            if (below[i] in stands && (at = level(below[i]) + 1) > most) most = at
        return levels[crate] = most + 0
    }
    # the row of a crate: its level, its name, and what stands behind these in the page
    function row(crate) {
        if (!(crate in words)) { print "docs/CRATES.md has no words for " crate > "/dev/stderr"; missing = 1; words[crate] = "|  |  |" }
        printf "| %d | `%s` %s\n", level(crate), crate, words[crate]
    }
    function tables(  i, j, at, most, n, crates) {
        for (i = 1; i <= count; i++) if (level(order[i]) > most) most = level(order[i])
        printf "%d crates on %d levels.\n", count, most + 1
        for (i = 1; i <= floors; i++) {
            printf "\n### %s\n\n%s.\n\n", name[i], said[i]
            print "| Level | Crate | What it is for | What is proved, and by which clause |"
            print "|---|---|---|---|"
            n = split(stock[i], crates, " ")
            for (j = 1; j <= n; j++) row(crates[j])
        }
        print ""
    }
    pass == 1 && /^\| [0-9]+ \| `/ {
        split($0, cells, "`"); crate = cells[2]
        words[crate] = substr($0, index($0, "` |") + 2); next
    }
    pass == 1 { next }
    pass == 2 && /^# [a-z]+: / { at = index($0, ":"); name[++floors] = substr($0, 3, at - 3); said[floors] = toupper(substr($0, at + 2, 1)) substr($0, at + 3); next }
    pass == 2 && /^[a-z]/ {
        at = index($0, ":"); crate = substr($0, 1, at - 1); stands[crate] = substr($0, at + 1); sub(/#.*/, "", stands[crate])
        order[++count] = crate; stock[floors] = stock[floors] " " crate; next
    }
    pass == 2 { next }
    /^<!-- made by docs\/crates.sh -->$/ { print; print ""; tables(); skips = 1; next }
    /^<!-- up to here -->$/ { skips = 0 }
    !skips { print }
    END { exit missing }' pass=1 CRATES.md pass=2 ../crates.txt pass=3 CRATES.md) || status=1
if [ "${1:-}" = check ]; then
    [ "$page" = "$(cat CRATES.md)" ] || { echo "docs/CRATES.md is not as docs/crates.sh makes it" >&2; exit 1; }
else
    printf '%s\n' "$page" > CRATES.md
fi
exit $status
