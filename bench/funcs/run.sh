#!/usr/bin/env bash
# Measures translate and normalize-space of xf_funcs on a text of 1 MiB, beside plain loops over characters.
# Both must print the same; xf_funcs may take at most twice as long.
. "$(dirname "$0")/../common.sh"
make_bench funcs_bench xf_funcs xf_name xf_table
for name in translate normalize-space; do
    beside 200 "$name"
done
finish
