#!/usr/bin/env bash
# Tries the must-fail edits that stand outside the gate: those under bench/edits/CRATE, on a copy of the repository. The prover must refuse each.
# Usage: bench/edits/run.sh [CRATE..], all crates that have a folder here where none is named. What `rt check` kept of the libraries serves.
# Where fewer are refused than there are, as where a library below is not proved or memory is short, it prints what the prover said.
# In refused.txt it writes today for each edit that was refused.
set -euo pipefail
here=$(cd "$(dirname "$0")" && pwd)
top=$(cd "$here/../.." && pwd)
copy=$(mktemp -d)
trap 'rm -rf "$copy"' EXIT
tar -C "$top" --exclude=./.git --exclude=incremental -cf - . | tar -C "$copy" -xf -
(cd "$copy" && git init -q)
if [ $# -eq 0 ]; then
  set -- $(cd "$here" && ls -d */ | tr -d /)
fi
# noted CRATE EDIT..: writes today for these edits.
noted() {
  local crate=$1
  shift
  {
    grep '^#' "$here/refused.txt"
    {
      awk -v crate="$crate" -v names=" $* " '!/^#/ && !($1 == crate && index(names, " " $2 " "))' "$here/refused.txt"
      printf "$crate %s $(date +%F) refused\n" "$@"
    } | LC_ALL=C sort -k1,2
  } > "$copy/refused.txt"
  cp "$copy/refused.txt" "$here/refused.txt"
}

failed=0
for crate in "$@"; do
  rm -f "$copy/crates/$crate/must-fail/"*.edit
  mkdir -p "$copy/crates/$crate/must-fail"
  cp "$here/$crate/"*.edit "$copy/crates/$crate/must-fail/"
  edits=$(find "$here/$crate" -name '*.edit' | wc -l)
  status=0
  said=$(cd "$copy" && rt must-fail "$crate" 2>&1) || status=$?
  refused=$(grep -c ': refused' <<<"$said" || true)
  echo "$crate: $refused of $edits refused"
  mapfile -t names < <(sed -n 's|^.*must-fail [a-z_]*/\([a-z0-9_-]*\)\.edit: refused.*|\1|p' <<<"$said")
  [ ${#names[@]} -eq 0 ] || noted "$crate" "${names[@]}"
  grep -E ': refused.*(says little|says less)' <<<"$said" || true
  if [ "$refused" -ne "$edits" ] || [ "$status" -ne 0 ]; then
    failed=1
    # (libraries that are built on the way have a line for each function)
    echo "$crate: the try ended with status $status, and said beside the refusals:"
    grep -vE ': refused|^fn .*: proved|^statements ' <<<"$said" | tail -n 40 || true
  fi
done
exit "$failed"
