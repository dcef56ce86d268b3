#!/usr/bin/env bash
# Looks from outside, by strace, at the calls that the disk over files, the store over a folder, the source over a file and the sink over a
# file make of the system: that they are those of calls.txt, in order; that what is answered and carried is what answers.txt says; and that
# where any one of these calls fails, the call that made it answers so, and those before it answer as they did. `main.rt.txt` is the program.
# Usage: bench/devices/run.sh. Where there is no strace it says that it is skipped, and ends with 0.
if ! strace -o /dev/null true 2> /dev/null; then
    echo "skipped: no strace here"
    exit 0
fi
. "$(dirname "$0")/../common.sh"
make_bench devices_bench xf_io xf_store xf_disk
kinds=openat,pwrite64,pread64,fdatasync,fsync,rename,mkdir,read,write,statx,fstat,newfstatat,flock,unlink
export on_files="\"(a|b|given|store[^\"]*|[.])\"|[(][0-9]+<$work/files"

# traced ARGUMENT..: one run in a new folder, with these arguments for strace. The answers go to the file `said`, the calls to `calls`.
traced() {
    rm -rf "$work/files"
    mkdir "$work/files"
    printf given > "$work/files/given"
    (cd "$work/files" && strace -y -o "$work/calls" -e trace="$kinds" "$@" "$ours" > "$work/said")
}

# missed WHAT: this is not as it should be
missed() {
    echo "MISSED: $1"
    failed=1
}

traced
cp "$work/calls" "$work/sound"
cp "$work/said" "$work/answers"
# each call on the files: its name, the file, and the error where it failed
grep -E "$on_files" "$work/sound" | sed -E "
    s|$work/files|.|g
    s|^([a-z0-9]+)\((AT_FDCWD<[^>]*>, )?\"([^\"]*)\".* = (-1 )?([A-Z]*).*|\1 \3 \5|
    s|^([a-z0-9]+)\([0-9]+<(\./)?([^>]*)>.*|\1 \3|
    s| +$||" > "$work/named"
diff "$here/calls.txt" "$work/named" || { missed "the calls are those of calls.txt"; finish; }
echo "met: the calls are those of calls.txt"
diff "$here/answers.txt" "$work/answers" || { missed "the answers are those of answers.txt"; finish; }
[ "$(cat "$work/files/taken")" = uvw ] || missed "the sink's file has the bytes that it took"
echo "met: the answers and the bytes are those of answers.txt"
# each of these calls: its name, its place among all of that name, and the number of the answer that it belongs to
awk '
    { kind = $0; sub(/[(].*/, "", kind); place[kind]++ }
    /^write[(]1</ { answers++ }
    $0 ~ ENVIRON["on_files"] { print kind, place[kind], answers + 1 }' "$work/sound" > "$work/places"
tried=0
while read -r kind place answer; do
    # where the system has no locks the disk goes on without one
    if [ "$kind" = flock ]; then continue; fi
    traced -e inject="$kind:error=EIO:when=$place"
    tried=$((tried + 1))
    sed -n "${answer}p" "$work/said" | grep -q failed || missed "$kind, number $place, fails, and answer $answer does not say so"
    cmp -s <(head -n $((answer - 1)) "$work/answers") <(head -n $((answer - 1)) "$work/said") ||
        missed "$kind, number $place, fails, and an answer before $answer is another"
done < "$work/places"
echo "$tried calls made to fail, one a run"
finish
