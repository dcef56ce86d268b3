#!/usr/bin/env bash
# Evaluates the expressions of a file of cases, by cases.rt.txt over copies of the crates, before any proof (`rt try`), and prints which
# came out otherwise, and how many. Usage: bench/eval/cases.sh FILE; cases.py says what stands in FILE.
. "$(dirname "$0")/../common.sh"
program=cases.rt.txt
copy_bench eval_bench xf_eval xf_json xf_path xf_tree xf_def_forest xf_name xf_num anyhow
mkdir "$work/cases"
python3 "$here/cases.py" "$1" > "$work/cases/all"
(cd "$work/crates/eval_bench" && rt try --steps 1 --cases "$work/cases") > "$work/said" 2>&1 || true
grep -vE '^(rt|note):' "$work/said" | tail -n 40
grep -q ' as wanted, 0 not$' "$work/said"
