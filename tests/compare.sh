#!/usr/bin/env bash
# Compares the bench program with the independent model, line by line, over random scripts.
#
#   compare.sh BENCH SEEDS EVENTS    scripts of EVENTS events each, for the seeds 1 to SEEDS
#
# `compare: N events agree` and how often each note occurred; all fourteen that a script can meet must. Else the seed
# and the first line that differs (expected: the model's; found: the bench program's), and exit status 1.
set -euo pipefail
if [ $# -ne 3 ]; then
  echo 'use: compare.sh BENCH SEEDS EVENTS' >&2
  exit 2
fi
bench=$(realpath -m "$1") seeds=$2 events=$3
cd "$(dirname "$0")"
work=$(mktemp -d)
trap 'rm -rf "$work"' EXIT

fail() {
  echo "compare: $1"
  exit 1
}

[ -x "$bench" ] || fail "no bench program at $bench"
export BRIDGE_MODEL=$work/bridge_model
gcc -std=c11 -O2 -o "$BRIDGE_MODEL" model/bridge_model.c

total=0
for ((seed = 1; seed <= seeds; seed++)); do
  python3 model/make_scripts.py "$seed" "$events" >"$work/script"
  "$BRIDGE_MODEL" "$work/script" >"$work/model"
  "$BRIDGE_MODEL" -c "$work/script" >>"$work/counts"
  "$bench" <"$work/script" >"$work/bench" || fail "seed $seed: the bench program ended with status $?"
  ./difference.sh "$work/model" "$work/bench" >"$work/difference" || fail "seed $seed, $(cat "$work/difference")"
  lines=$(wc -l <"$work/model")
  [ "$lines" -eq "$events" ] || fail "seed $seed: expected $events events, found $lines"
  total=$((total + lines))
done

echo "compare: $total events agree"
# Notes 1 and 2 need a broken store or record, which no script can make.
awk '
  { count[$1] += $2 }
  END {
    for (note = 0; note <= 15; note++) {
      if (note == 1 || note == 2) continue
      print "note " note ": " count[note] + 0
      if (!count[note]) missing = missing " " note
    }
    if (missing) { print "compare: never seen: note" missing; exit 1 }
  }' "$work/counts"
