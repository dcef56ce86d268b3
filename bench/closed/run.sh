#!/usr/bin/env bash
# Runs the program with standard streams closed: no file is read or written in their place.
# Usage: bench/closed/run.sh [PROGRAM], with the path of the built program `xforms`, else that which `run` builds.
. "$(dirname "$0")/../common.sh"
program=$(realpath "${1:-$top/crates/xforms/out/xforms}")
cd "$work"
cp "$top/crates/xforms/data/form.json" .
form=$(cksum form.json)

# ended WHAT STATUS WANTED
ended() {
    verdict "$1: the status is $2, and its distance from $3" $(($2 > $3 ? $2 - $3 : $3 - $2)) 0
    [ "$(cksum form.json)" = "$form" ] || verdict "$1: form.json is changed" 1 0
}

status=0
"$program" try > said <&- || status=$?
ended "input closed" "$status" 4
grep -qx 'fault read' said || verdict "input closed: another line than fault read" 1 0
status=0
"$program" try >&- < "$top/crates/xforms/stdin" || status=$?
ended "output closed" "$status" 5
status=0
"$program" try <&- >&- 2>&- || status=$?
ended "all closed" "$status" 4
status=0
"$program" try 2>&- < "$top/crates/xforms/stdin" > said || status=$?
ended "errors closed" "$status" 0
cmp said "$top/crates/xforms/stdout"
finish
