#!/bin/sh
# build.sh [FILE]: builds the program docket: FILE, or target/bin/docket of the repository. The proved archive that it links is made first
# where it is missing or older than the crates, which takes long the first time.
set -eu
cd "$(dirname "$0")/.."
file=${1:-target/bin/docket}
log=$(mktemp)
trap 'rm -f "$log"' EXIT
tools/archive --if-old >"$log" || { cat "$log"; exit 1; }
cargo build --offline --release --quiet --manifest-path desk/Cargo.toml
mkdir -p "$(dirname "$file")"
cp "${CARGO_TARGET_DIR:-desk/target}/release/docket" "$file.new"
mv -f "$file.new" "$file"
