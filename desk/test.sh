#!/usr/bin/env bash
# Tests the desk: its program, its journal and its words, and README.md's commands, run as they are written. The proved archive is made first
# where it is missing or old. The last line is 'N passed, 0 failed'. SEED=7 repeats the inputs of seed 7.
set -u
cd "$(dirname "$0")/.." || exit 1
. .ci/steps.sh
export SEED=${SEED:-$(date +%s)}

# commands HEADING: the commands of a section of README.md, a line each
commands() {
  awk -v heading="## $1" '$0 == heading { on = 1; next } /^## / { on = 0 } on && /^    target\/bin\/docket / { print substr($0, 5) }' README.md
}

# as_written HEADING COUNT: the commands of a section, so many, in a folder that has nothing of an earlier run
as_written() {
  local folder=$work/readme name line
  mkdir -p "$folder"
  for name in desk examples target; do ln -sfn "$PWD/$name" "$folder/$name"; done
  check "README.md: $2 commands under '$1'" [ "$(commands "$1" | wc -l)" -eq "$2" ]
  while read -r line; do
    check "$line" sh -c "cd '$folder' && { $line; } >>'$work/printed'"
  done < <(commands "$1")
}

check 'desk/build.sh' desk/build.sh
rust desk
as_written 'Judge a file' 1
as_written 'Keep a docket open' 6
say 'done'
total
