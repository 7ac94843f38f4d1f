#!/usr/bin/env bash
# Runs every script of examples/ and compares what the bench program prints with examples/expected, byte for byte.
#
#   examples.sh [BENCH]    BENCH: crates/bench/out/bench where none is given
#
# `examples: N agree`, or the first difference and exit status 1.
set -euo pipefail
here=$(cd "$(dirname "$0")/.." && pwd)
bench=$(realpath -m "${1:-$here/crates/bench/out/bench}")
cd "$here"
work=$(mktemp -d)
trap 'rm -rf "$work"' EXIT

fail() {
  echo "examples: $1"
  exit 1
}

# TEXT MESSAGE: the text is refused with exactly this message, and nothing is written.
refused() {
  local status=0
  printf '%b' "$1" | tools/script.py - >"$work/written" 2>"$work/message" || status=$?
  if [ "$status" -ne 1 ] || [ -s "$work/written" ] || [ "$(cat "$work/message")" != "$2" ]; then
    fail "a bad text: expected status 1 and '$2', found status $status and '$(cat "$work/message")'"
  fi
}

[ -x "$bench" ] || fail "no bench program at $bench"
agree=0
for text in examples/*.txt; do
  name=$(basename "$text" .txt)
  tools/script.py "$text" >"$work/script" || fail "$name: no script"
  "$bench" <"$work/script" >"$work/out" || fail "$name: the bench program ended with status $?"
  tests/difference.sh "examples/expected/$name.out" "$work/out" >"$work/difference" || fail "$name: $(cat "$work/difference")"
  agree=$((agree + 1))
done
for out in examples/expected/*.out; do
  [ -e "examples/$(basename "$out" .out).txt" ] || fail "$out has no text"
done

refused 'power good\nword 20\n' 'standard input:2: expected four hex digits, found `20`'
refused 'tick 2\nrelease\n' 'standard input:1: expected `0` or `1`, found `2`'
refused '# too late\n\nclock 65536\n' 'standard input:3: expected one decimal number from 0 to 65535, found `65536`'
refused 'power makers\n' 'standard input:1: expected `good`, `bad`, `good makers` or `bad makers`, found `makers`'
refused 'power good makers\npower good\nframe makers SOFTRESET_CRC\n' 'standard input:3: expected the layout in a `power` line alone, found `makers`'
echo "examples: $agree agree"
