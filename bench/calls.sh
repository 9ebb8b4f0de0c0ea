#!/usr/bin/env bash
# calls.sh: times the calls of an open docket from C, and from Python where bench/calls.py is there, on the texts of
# bench/calls_inputs.py, and prints one table. A time is the best of many runs, in microseconds of processor time. From C: a text
# where it is held, each time in a docket that holds its problem alone, and where it is passed or refused. From Python the latter:
# the call, and the package's `lodge` or `report`.
set -eu
cd "$(dirname "$0")/.."
work=$(mktemp -d)
trap 'rm -rf "$work"' EXIT
python3 bench/calls_inputs.py "$work/inputs"
hosts/c/build.sh ../../bench/calls "$work/calls"
grep -m 1 'model name' /proc/cpuinfo
echo "processors: $(nproc), load: $(cut -d ' ' -f 1-3 /proc/loadavg), $("${CC:-cc}" --version | head -n 1), $(python3 --version)"
"$work/calls" "$work/inputs" >"$work/c"
: >"$work/python"
if [ -f bench/calls.py ]; then
  hosts/python/build.sh
  python3 bench/calls.py >"$work/python"
fi
echo '| text or call | bytes | C, held | C, passed or refused | Python, the call | Python, lodge or report |'
echo '|---|---|---|---|---|---|'
awk -F ' *[|] *' '
  FILENAME ~ /python$/ { python[$2] = $4 " | " $5; next }
  { print $0, ($2 in python ? python[$2] : "|"), "|" }' "$work/python" "$work/c"
