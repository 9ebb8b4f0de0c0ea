#!/usr/bin/env bash
# try.sh: runs the listing program with no proof, compiled with checks and on an interpreter as far as that goes, on document 01's example and on
# tests/try/NAME.txt, and compares what it writes with NAME.out. The last line is 'N passed, M failed'. No part of .ci/run: what is proved
# does not rest on it.
set -u
cd "$(dirname "$0")/.." || exit 1
work=$(mktemp -d)
trap 'rm -rf "$work"' EXIT
mkdir "$work/cases"
inputs=(examples/example.txt tests/try/*.txt)
for input in "${inputs[@]}"; do
  name=$(basename "$input" .txt)
  cp "$input" "$work/cases/$name"
  cp "${input%.txt}.out" "$work/cases/$name.stdout"
done
(cd crates/listing && rt try --cases "$work/cases") 2>&1 | tee "$work/log"
passed=$(grep -c '^case=[^ ]* run=ended status=0 .*output=expected' "$work/log")
failed=$((${#inputs[@]} - passed))
echo "$passed passed, $failed failed"
[ "$failed" -eq 0 ]
