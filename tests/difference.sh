#!/usr/bin/env bash
# difference.sh WANTED FOUND: silent where the two files agree byte for byte; else the first line that differs, and exit status 1.
set -euo pipefail

if cmp --silent "$1" "$2"; then
  exit 0
fi
paste -d '|' "$1" "$2" | awk -F '|' '
  !seen && $1 "" != $2 "" { seen = 1; print "line " NR ": expected `" $1 "`, found `" $2 "`" }
  END { if (!seen) print "the ends of the files differ" }'
exit 1
