#!/usr/bin/env bash
# desk.sh [FOLDER]: times the desk on journals in a folder of the disk, or in a temporary one, and prints one table: a text lodged and synced,
# small and of 32 units by 48 periods; a journal of 1,000 such schedules read again, and one of 10,000 small texts; best of 7.
set -eu
export LC_ALL=C
cd "$(dirname "$0")/.."
desk/build.sh
docket=$PWD/target/bin/docket
work=$(mktemp -d ${1:+-p "$1"})
trap 'rm -rf "$work"' EXIT
python3 bench/calls_inputs.py "$work"

# best COMMAND..: the least milliseconds of 7 runs, and the last output in $work/out
best() {
  local least=999999999 began took
  for _ in 1 2 3 4 5 6 7; do
    began=$(date +%s%N)
    "$@" >"$work/out"
    took=$((($(date +%s%N) - began) / 1000))
    least=$((took < least ? took : least))
  done
  printf '%d.%03d' $((least / 1000)) $((least % 1000))
}

# journal NAME COUNT INPUT: a journal of an input's problem and its text so many times; the milliseconds that a text took
journal() {
  local began took
  "$docket" lodge "$work/$1" "$work/$3.problem.txt" >/dev/null
  for _ in $(seq "$2"); do cat "$work/$3.text.txt"; done >"$work/texts"
  began=$(date +%s%N)
  "$docket" lodge "$work/$1" "$work/texts" >/dev/null
  took=$((($(date +%s%N) - began) / 1000 / $2))
  printf '%d.%03d' $((took / 1000)) $((took % 1000))
}

grep -m 1 'model name' /proc/cpuinfo
echo "processors: $(nproc), load: $(cut -d ' ' -f 1-3 /proc/loadavg), disk: $(df --output=fstype "$work" | tail -n 1)"
large=$(journal large 1000 32-by-48)
small=$(journal small 10000 small)
echo '| what | ms |'
echo '|---|---|'
echo "| a text of 55 bytes lodged and synced, of 10,000 in one run | $small |"
echo "| a schedule of 32 by 48, $(stat -c %s "$work/32-by-48.text.txt") bytes, lodged and synced, of 1,000 in one run | $large |"
echo "| \`report\`: 1,000 such schedules judged again, $(stat -c %s "$work/large") bytes | $(best "$docket" report "$work/large") |"
echo "| \`report\`: 10,000 texts of 55 bytes judged again, $(stat -c %s "$work/small") bytes | $(best "$docket" report "$work/small") |"
echo "| \`log\` of the same | $(best "$docket" log "$work/small") |"
echo "| \`verify\` of the same | $(best "$docket" verify "$work/small") |"
echo "| \`check\` of the ten-unit example | $(best "$docket" check examples/kazarlis-10.txt) |"
