# Read by .ci/run and .ci/quick: steps, and their tests counted.
passed=0
failed=0
failures=''
began=$(date +%s)
work=$(mktemp -d) || exit 1
# what still runs beside is a group of its own, and ends with the gate
trap 'for job in $(jobs -p); do kill -- "-$job" 2>/dev/null; done; rm -rf "$work"' EXIT
trap 'exit 1' INT TERM HUP

# say NAME: a line on what runs, with the seconds since the start
say() { printf '== %s (%s s)\n' "$1" "$(($(date +%s) - began))"; }

# count PASSED FAILED NAME: adds a step's tests; a step that ran none has failed
count() {
  passed=$((passed + 10#$1))
  failed=$((failed + 10#$2))
  if [ "$((10#$1 + 10#$2))" -eq 0 ]; then
    failed=$((failed + 1))
    echo "no test ran: $3"
  fi
  if [ "$((10#$1))" -eq 0 ] || [ "$((10#$2))" -ne 0 ]; then failures="$failures; $3"; fi
}

# check NAME COMMAND..: a command that succeeds is one test
check() {
  local name=$1
  shift
  say "$name"
  if "$@"; then count 1 0 "$name"; else count 0 1 "$name"; fi
}

# count_last LOG STATUS NAME: the last line of a step's log is 'N passed, M failed'; a status other than 0 is a failure
count_last() {
  if [[ $(tail -n 1 "$1") =~ ^([0-9]+)\ passed,\ ([0-9]+)\ failed$ ]]; then
    count "${BASH_REMATCH[1]}" "${BASH_REMATCH[2]}" "$3"
    if [ "$2" -ne 0 ] && [ "${BASH_REMATCH[2]}" -eq 0 ]; then count 0 1 "$3"; fi
  else
    count 0 1 "$3"
    echo "no last line: $3"
  fi
}

# counted NAME COMMAND..: a command whose last line is 'N passed, M failed'
counted() {
  local name=$1 status
  shift
  say "$name"
  "$@" | tee "$work/counted"
  status=${PIPESTATUS[0]}
  count_last "$work/counted" "$status" "$name"
}

# beside NAME COMMAND..: the same, on the time that what follows leaves idle, until 'taken NAME' shows what it printed
beside() {
  local name=$1
  shift
  set -m
  (
    passed=0 failed=0 failures=''
    renice -n 10 -p "$BASHPID" >/dev/null
    "$@"
  ) >"$work/$name" 2>&1 </dev/null &
  echo $! >"$work/$name.job"
  set +m
}

taken() {
  wait "$(cat "$work/$1.job")"
  local status=$?
  say "$1, which ran beside it"
  cat "$work/$1"
  count_last "$work/$1" "$status" "$1"
}

# total: the last line of a function of steps, after the names of those that failed
total() {
  [ -z "$failures" ] || echo "failed:${failures#;}"
  echo "$passed passed, $failed failed"
  [ "$failed" -eq 0 ]
}

# rust DIR: the tests of a cargo package
rust() {
  say "$1: cargo test"
  local line status good=0 bad=0
  cargo test --offline --release --manifest-path "$1/Cargo.toml" >"$work/rust" 2>&1
  status=$?
  grep -E '^(test result|error|warning|test .* FAILED)' "$work/rust"
  while read -r line; do
    if [[ $line =~ \ ([0-9]+)\ passed\;\ ([0-9]+)\ failed ]]; then
      good=$((good + BASH_REMATCH[1]))
      bad=$((bad + BASH_REMATCH[2]))
    fi
  done < <(grep '^test result' "$work/rust")
  if [ "$status" -ne 0 ]; then
    [ "$bad" -ne 0 ] || bad=1
    tail -n 30 "$work/rust"
  fi
  count "$good" "$bad" "$1"
}

# the proved listing against the second implementation, byte for byte, on what is committed and in the folders named
compare() {
  cargo build --offline --release --quiet --manifest-path second/Cargo.toml &&
    tests/compare.sh target/bin/listing second/target/release/second tests/corpus tests/specimens tests/try examples examples/refusals "$@"
}
