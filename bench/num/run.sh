#!/usr/bin/env bash
# Measures a million additions and multiplications of xf_num, with reading and printing, beside the same over plain i128.
# Both must print the same; xf_num may take at most 1.5 times as long.
. "$(dirname "$0")/../common.sh"
make_bench num_bench xf_num
beside 150
finish
