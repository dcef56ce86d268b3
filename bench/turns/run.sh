#!/usr/bin/env bash
# Gives the program each line only once the reply to the line before was read, by two pipes: a program that holds its replies back to the
# end of the run, or until a buffer is full, gives none and is found out. At the end nothing may be left to read.
# Usage: bench/turns/run.sh [PROGRAM], with the path of the built program `xforms`, else that which `run` builds.
. "$(dirname "$0")/../common.sh"
program=$(realpath "${1:-$top/crates/xforms/out/xforms}")
wait_most=10 # seconds for one line of a reply
cd "$work"
cp "$top/examples/first/form.json" .
mkfifo events replies
"$program" try < events > replies &
runs=$!
exec 8> events 9< replies

# the end of a run in which a line did not come
stuck() {
    echo "MISSED: $1"
    kill "$runs" 2> /dev/null || true
    exit 1
}

# wants LINE..: these lines come now, although the events go on
wants() {
    local line want
    for want in "$@"; do
        IFS= read -r -t "$wait_most" -u 9 line || stuck "the line '$want' did not come before the next event"
        [ "$line" = "$want" ] || stuck "'$line' came in the place of '$want'"
    done
}

shown=('instance 1.1' '/person ew-v')
turns=100
for turn in $(seq $turns); do
    echo "[\"set\",\"name\",[],\"$turn\"]" >&8
    wants "ok $turn 0"
    echo '["show"]' >&8
    wants "${shown[@]}" "/person/name ew-v \"$turn\"" "control name [] ew-v \"$turn\"" end
done
# a line that comes in two pieces, and one without an end
printf '["sh' >&8
printf 'ow"]\n' >&8
wants "${shown[@]}" "/person/name ew-v \"$turns\"" "control name [] ew-v \"$turns\"" end
echo '["none"]' >&8
IFS= read -r -t "$wait_most" -u 9 line || stuck "the refusal of a line did not come before the next event"
case $line in
    'no '*) ;;
    *) stuck "'$line' came in the place of a refusal" ;;
esac
printf '["set","name",[],"last"]' >&8
exec 8>&-
wants "ok $((turns + 1)) 0"
if IFS= read -r -t "$wait_most" -u 9 line; then stuck "'$line' came after the last reply"; fi
status=0
wait "$runs" || status=$?
verdict "$turns turns of two lines, each reply read before the next line: the status is" "$status" 0
finish
