# What the benchmarks share: sourced by each bench/NAME/run.sh. It makes a new folder, `work`, which is removed at the end.
set -euo pipefail
here=$(cd "$(dirname "${BASH_SOURCE[1]}")" && pwd)
top=$(cd "$(dirname "${BASH_SOURCE[0]}")/.." && pwd)
work=$(mktemp -d)
trap 'rm -rf "$work"' EXIT
failed=0

# The crates of crates.txt that these stand on, and these, each behind those below it.
closure() {
    awk -F: -v wanted="$*" '
        function visit(name,  i, n, below) {
            if (seen[name]++ || !(name in stands)) return
            n = split(stands[name], below, " ")
            for (i = 1; i <= n; i++) visit(below[i])
            print name
        }
        { sub(/#.*/, "") }
        NF > 1 { stands[$1] = $2 }
        END { n = split(wanted, names, " "); for (i = 1; i <= n; i++) visit(names[i]) }' "$top/crates.txt"
}

# copy_bench NAME CRATE..: puts the program of main.rt.txt, or of the file `program` with the modules `modules`, beside copies of these crates
# and of those below them.
# Where BENCH_LIBS is set, it is a command that puts libraries of these crates that were proved before in their place in a folder.
copy_bench() {
    local name=$1 crate module
    shift
    git init -q "$work"
    mkdir -p "$work/crates/$name/src" "$work/crates/$name/specs"
    for crate in $(closure "$@"); do
        tar -C "$top/crates" --exclude=out --exclude=must-fail -cf - "$crate" | tar -C "$work/crates" -xf -
        grep "^$crate:" "$top/crates.txt" >> "$work/crates.txt"
    done
    echo "$name: $*" >> "$work/crates.txt"
    cp "$here/${program:-main.rt.txt}" "$work/crates/$name/src/main.rt"
    for module in ${modules:-}; do cp "$here/$module.mod.txt" "$work/crates/$name/src/$module.rt"; done
    : > "$work/crates/$name/specs/Lib.antt"
    if [ -n "${BENCH_LIBS:-}" ]; then "$BENCH_LIBS" "$work" > "$work/libraries"; fi
}

# make_bench NAME CRATE..: proves and builds this program, and the plain program of plain.rs, where there is one. They are then "$ours"
# and "$plain".
make_bench() {
    local name=$1
    copy_bench "$@"
    (cd "$work/crates/$name" && rt run < /dev/null > "$work/built" 2>&1) || true
    ours=$work/crates/$name/out/$name
    [ -x "$ours" ] || { tail -n 20 "$work/built" >&2; exit 1; }
    if [ -f "$here/plain.rs" ]; then rustc -O -o "$work/plain" "$here/plain.rs"; fi
    plain=$work/plain
}

# least_of_five FILE COMMAND..: the least time of five runs in tenths of a millisecond. What was written stands in FILE.
least_of_five() {
    local to=$1 least=999999999 from took
    shift
    for _ in 1 2 3 4 5; do
        from=$(date +%s%N)
        "$@" > "$to"
        took=$((($(date +%s%N) - from) / 100000))
        if [ "$took" -lt "$least" ]; then least=$took; fi
    done
    echo "$least"
}

# beside MOST WORDS..: times both programs with these words. They must write the same, and ours may take at most MOST hundredths
# of the plain program's time.
beside() {
    local most=$1 one other
    shift
    one=$(least_of_five "$work/one" "$ours" "$@")
    other=$(least_of_five "$work/other" "$plain" "$@")
    cmp "$work/one" "$work/other"
    verdict "${*:-all}: ours $one, plain $other tenths of a ms, ratio in hundredths" $((one * 100 / other)) "$most"
}

# instructions COMMAND..: how many it takes, as valgrind counts them
instructions() {
    valgrind --tool=callgrind --callgrind-out-file=/dev/null "$@" 2> "$work/counted" > "$work/told"
    sed -n 's/.*Collected : //p' "$work/counted"
}

# grown WHAT BEFORE AFTER TIMES: AFTER may be 1.3 times as much as TIMES times BEFORE.
grown() { verdict "$1, in hundredths of $4 times as much" $(($3 * 100 / ($2 > 0 ? $2 : 1) / $4)) 130; }

# verdict WHAT NUMBER MOST: says a number and whether it is within its goal.
verdict() {
    if [ "$2" -le "$3" ]; then
        echo "met: $1: $2, at most $3"
    else
        echo "MISSED: $1: $2, at most $3"
        failed=1
    fi
}

# ends with 0 exactly where each goal was met
finish() { exit "$failed"; }
