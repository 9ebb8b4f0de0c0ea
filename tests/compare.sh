#!/usr/bin/env bash
# compare.sh PROGRAM SECOND DIR..: runs PROGRAM and SECOND, two listing programs, on every DIR/NAME.txt. What PROGRAM prints must be what SECOND
# prints and what DIR/NAME.out holds, byte for byte. The last line is 'N passed, M failed'.
set -u
program=$1
second=$2
shift 2
got=$(mktemp)
want=$(mktemp)
trap 'rm -f "$got" "$want"' EXIT
passed=0
failed=0
for dir in "$@"; do
  for input in "$dir"/*.txt; do
    if "$program" <"$input" >"$got" && "$second" <"$input" >"$want" && cmp -s "$got" "$want" && cmp -s "$got" "${input%.txt}.out"; then
      passed=$((passed + 1))
    else
      failed=$((failed + 1))
      echo "differs: $input"
      diff "$want" "$got" | head -n 4
      diff "${input%.txt}.out" "$got" | head -n 4
    fi
  done
done
echo "$passed passed, $failed failed"
[ "$failed" -eq 0 ]
