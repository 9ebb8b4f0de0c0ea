#!/bin/sh
# build.sh [FILE]: makes a shared object of the archive: FILE, or docket/libdocket.so of this folder. It exports the
# calls of hosts/c/docket.h and nothing else. CC names the compiler, cc if unset.
set -eu
here=$(cd "$(dirname "$0")" && pwd)
header=$here/../c/docket.h
archive=$here/../../target/staticlib/libdocket_host.a
file=${1:-$here/docket/libdocket.so}
[ -f "$archive" ] || { echo "no $archive: run 'tools/archive' in the repository" >&2; exit 1; }
work=$(mktemp -d)
trap 'rm -rf "$work" "$file.new"' EXIT
calls=$(sed -n 's/^size_t \(docket_[a-z_]*\)(.*/\1;/p' "$header")
echo "{ global: $calls local: *; };" >"$work/exports"
"${CC:-cc}" -shared -o "$file.new" -Wl,-soname,libdocket.so -Wl,-z,defs "-Wl,--version-script=$work/exports" \
  -Wl,--whole-archive "$archive" -Wl,--no-whole-archive
mv -f "$file.new" "$file"
