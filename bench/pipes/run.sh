#!/usr/bin/env bash
# Runs the example that drives the program over two pipes from Python, and compares what it prints with the file that says so.
# Usage: bench/pipes/run.sh [PROGRAM], with the path of the built program `xforms`, else that which `run` builds.
. "$(dirname "$0")/../common.sh"
program=$(realpath "${1:-$top/crates/xforms/out/xforms}")
timeout 60 "$top/examples/pipes/drive.py" "$program" | diff "$top/examples/pipes/printed" - && echo "as it must be"
