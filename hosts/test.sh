#!/usr/bin/env bash
# Tests the docket from Rust, C and Python over the proved archive, which is built first where it is missing or older than the
# crates. The last line is 'N passed, 0 failed'; any failure makes the exit status non-zero. SEED=7 repeats the inputs of seed 7.
set -u
export LC_ALL=C
cd "$(dirname "$0")/.." || exit 1
archive=target/staticlib/libdocket_host.a
export SEED=${SEED:-$(date +%s)}
passed=0
failed=0
began=$(date +%s)
work=$(mktemp -d)
trap 'rm -rf "$work"' EXIT

# say NAME: a line on what runs, with the seconds since the start
say() { printf '== hosts: %s (%s s)\n' "$1" "$(($(date +%s) - began))"; }

# count PASSED FAILED NAME: adds a step's tests; a step that ran none has failed
count() {
  passed=$((passed + $1))
  failed=$((failed + $2))
  if [ "$(($1 + $2))" -eq 0 ]; then
    failed=$((failed + 1))
    echo "no test ran: $3"
  fi
}

# counted NAME COMMAND..: a command whose last line is 'N passed, M failed'
counted() {
  local name=$1 status
  shift
  say "$name"
  "$@" | tee "$work/log"
  status=${PIPESTATUS[0]}
  if [[ $(tail -n 1 "$work/log") =~ ^([0-9]+)\ passed,\ ([0-9]+)\ failed$ ]]; then
    count "${BASH_REMATCH[1]}" "${BASH_REMATCH[2]}" "$name"
    if [ "$status" -ne 0 ] && [ "${BASH_REMATCH[2]}" -eq 0 ]; then count 0 1; fi
  else
    count 0 1
    echo "no last line: $name"
  fi
}

# check NAME COMMAND..: a command that succeeds
check() {
  local name=$1
  shift
  if "$@"; then
    count 1 0
  else
    count 0 1
    echo "failed: $name"
  fi
}

# finish: the last line
finish() {
  say 'done'
  echo "$passed passed, $failed failed"
  [ "$failed" -eq 0 ]
  exit
}

build_archive() {
  say 'tools/archive'
  tools/archive --if-old && [ -f "$archive" ]
}

# The archive defines the calls of the header for others and nothing else, keeps no data that can be written, and calls the C
# library's memory functions alone.
symbols() {
  say 'the archive'
  nm "$archive" | awk 'NF > 1 { print $(NF - 1), $NF }' | sort >"$work/symbols"
  grep '^[A-TV-Z] ' "$work/symbols" >"$work/defined"
  sed -n 's/^size_t \(docket_[a-z_]*\)(.*/T \1/p' hosts/c/docket.h | sort >"$work/declared"
  check 'the header declares calls' [ -s "$work/declared" ]
  check 'the archive defines the calls of the header' diff "$work/declared" "$work/defined"
  check 'the archive keeps no data' lacks '^[BbCDdGgSs] '
  check 'the archive calls memcpy and memset alone' lacks '^U ' -vxE 'U (memcpy|memset)'
}

# lacks PATTERN [WORD..]: no symbol matches, or none of those that grep WORD.. finds
lacks() {
  local pattern=$1
  shift
  ! grep "${@:-.}" "$work/symbols" | grep "$pattern"
}

rust() {
  say "cargo test, seed $SEED"
  local line status good=0 bad=0
  cargo test --offline --release --no-fail-fast --manifest-path hosts/rust/Cargo.toml -- --nocapture >"$work/cargo" 2>&1
  status=$?
  grep -vE '^(|running .*|     Running .*|   Doc-tests .*|   Compiling .*)$' "$work/cargo"
  while read -r line; do
    if [[ $line =~ \ ([0-9]+)\ passed\;\ ([0-9]+)\ failed ]]; then
      good=$((good + BASH_REMATCH[1]))
      bad=$((bad + BASH_REMATCH[2]))
    fi
  done < <(grep '^test result' "$work/cargo")
  if [ "$status" -ne 0 ] && [ "$bad" -eq 0 ]; then bad=1; fi
  count "$good" "$bad" 'cargo test'
}

# same TEXT COMMAND..: what the command prints is the file's text
same() {
  local text=$1
  shift
  "$@" | cmp -s - "$text"
}

# shows TEXT: README.md has the text
shows() {
  [[ $(<README.md) == *"$1"* ]]
}

# The header alone, as C and, where there is a compiler for it, as C++.
header() {
  say 'C: docket.h'
  local flags=(-pedantic -Wall -Wextra -Werror -fsyntax-only)
  check 'docket.h as C11' "${CC:-cc}" -std=c11 "${flags[@]}" -x c hosts/c/docket.h
  if command -v c++ >/dev/null; then
    check 'docket.h as C++' c++ -std=c++11 "${flags[@]}" -x c++ hosts/c/docket.h
  fi
}

# texts INPUT: cuts an input after each line that begins `end=`, into files of the folder texts in their order
texts() {
  rm -rf "$work/texts"
  mkdir "$work/texts"
  awk -v start="$work/texts/" '{ print >(start sprintf("%04d", n)) } /^end=/ { close(start sprintf("%04d", n++)) }' "$1"
}

# The program that lists a file, on every example and on too much input; the one that lodges files, on the same texts one by one.
programs() {
  say 'C: list_file, lodge_files, example'
  local name input
  for name in list_file lodge_files example; do
    check "building $name" hosts/c/build.sh "$name" "$work/$name"
  done
  for input in examples/*.txt examples/refusals/*.txt tests/corpus/11-*.txt; do
    check "list_file $input" same "${input%.txt}.out" "$work/list_file" "$input"
  done
  for input in examples/*.txt examples/refusals/*.txt; do
    texts "$input"
    check "lodge_files $input" same "${input%.txt}.out" "$work/lodge_files" "$work"/texts/* 2>/dev/null
  done
  head -c 1048577 /dev/zero >"$work/long"
  "$work/lodge_files" "$work/long" >"$work/lines" 2>"$work/held"
  check 'a file that is too long' [ "$(head -n 1 "$work/lines")" = 'answer=refused,11,0,0,0' ]
  check 'how many were held' [ "$(cat "$work/held")" = '0 held, 0 passed, 1 refused' ]
  "$work/lodge_files" "$work/texts" >/dev/null 2>"$work/held"
  check 'a file that cannot be read' [ "$? $(cat "$work/held")" = "1 $work/texts cannot be read: Is a directory." ]
  check 'the example' [ "$("$work/example")" = 'a schedule that costs 600' ]
  check 'the example in README.md' shows "$(sed '1d; s/^./    &/' hosts/c/example.c)"
}

# program NAME WORD..: builds a program of hosts/c and runs it
program() {
  rm -f "$work/$1"
  hosts/c/build.sh "$1" "$work/$1" && "$work/$1" "${@:2}"
}

# c_tests HOW INPUT..: the header's promises, on the inputs
c_tests() {
  local how=$1 name
  shift
  local examples=(examples/*.txt examples/refusals/*.txt) deep=(tests/corpus/*depth-6*.txt tests/corpus/tree-64-*.txt)
  for name in test_docket test_open test_threads; do
    counted "C$how: $name" program "$name" "${@%.txt}"
  done
  counted "C$how: test_states" program test_states "${examples[@]%.txt}"
  counted "C$how: test_trees" program test_trees "${deep[@]%.txt}"
  counted "C$how: test_kept" program test_kept tests/states
  for name in test_keeping test_room test_taken test_runs test_forced; do
    counted "C$how: $name" program "$name"
  done
}

# The tests once more where the compiler can watch what they do to memory, on the examples.
c_watched() {
  local cc=${CC:-cc} watch=(-g '-fsanitize=address,undefined' -fno-sanitize-recover=all)
  if ! { echo 'int main(void) { return 0; }' | "$cc" "${watch[@]}" -x c -o "$work/watched" - && "$work/watched"; } 2>/dev/null; then
    say "C: $cc has no -fsanitize=address,undefined"
    return
  fi
  printf '#!/bin/sh\nexec %s %s "$@"\n' "$cc" "${watch[*]}" >"$work/cc"
  chmod +x "$work/cc"
  CC=$work/cc c_tests ', watched' examples/*.txt examples/refusals/*.txt tests/specimens/*.txt
}

python() {
  if hosts/python/build.sh; then
    counted 'Python, and Python -O' python3 hosts/python/test_docket.py
  else
    count 0 1
  fi
}

if ! build_archive; then
  count 0 1
  finish
fi
symbols
rust
header
programs
c_tests '' examples/*.txt examples/refusals/*.txt tests/specimens/*.txt tests/corpus/*.txt
c_watched
python
finish
