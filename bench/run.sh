#!/usr/bin/env bash
# run.sh [RUNS] [NAME..]: times the proved docket against its peer on the same inputs, in one process, and prints the best of RUNS
# runs (20). With names, only the inputs whose name has one of them.
#
# The proved side is two static libraries: docket_host, the listing that hosts call, and bench/lodge_list, which lodges texts by
# `Docket::lodge`. Both are proved and built in a copy of the crates outside the repository (rt allows no Rattle file in it outside the listed
# crates, so the files of bench/lodge_list end in .in).
set -eu
cd "$(dirname "$0")/.."
root=$PWD
scratch=$(mktemp -d)
trap 'rm -rf "$scratch"' EXIT
proved=$root/target/bench

# the peer is right: its whole listing on the corpus and the examples
cargo build --offline --release --quiet --manifest-path bench/peer/Cargo.toml
peer=$root/bench/peer/target/release/peer
for input in tests/corpus/*.txt examples/*.txt examples/refusals/*.txt; do
  "$peer" <"$input" | cmp -s - "${input%.txt}.out" || { echo "the peer is wrong on $input"; exit 1; }
done
echo "the peer lists the corpus and the examples rightly"

# the proved libraries
mkdir -p "$proved" "$scratch/crates"
for crate in crates/*/; do
  mkdir "$scratch/$crate"
  for part in src specs proofs; do
    [ ! -d "$crate$part" ] || cp -r "$crate$part" "$scratch/$crate"
  done
done
cp crates.txt "$scratch"
(cd bench/lodge_list && find . -name '*.in') | while read -r file; do
  mkdir -p "$scratch/crates/bench_list/$(dirname "$file")"
  cp "bench/lodge_list/$file" "$scratch/crates/bench_list/${file%.in}"
done
echo 'bench_list staticlib: model decimal text refusal problem judge schedule tree answer pieces docket' >>"$scratch/crates.txt"
for name in docket_host bench_list; do
  (cd "$scratch/crates/$name" && rt lib) >"$proved/$name.log" 2>&1 || { tail "$proved/$name.log"; exit 1; }
  cp "$scratch/crates/$name/out/lib$name.a" "$proved"
done
echo "the proved libraries are built"

# both, in one process
export PROVED_LIB=$proved PROVED_NAMES="docket_host bench_list"
cargo build --offline --release --quiet --manifest-path bench/harness/Cargo.toml
grep -m 1 'model name' /proc/cpuinfo
echo "processors: $(nproc), load: $(cut -d ' ' -f 1-3 /proc/loadavg), $(rustc --version)"
bench/harness/target/release/harness "$@"
