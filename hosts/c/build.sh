#!/bin/sh
# build.sh NAME PROGRAM: compiles NAME.c of this folder with the archive into PROGRAM. CC names the compiler, cc if unset.
set -eu
[ $# -eq 2 ] || { echo "usage: $0 NAME PROGRAM" >&2; exit 2; }
here=$(cd "$(dirname "$0")" && pwd)
archive=$here/../../target/staticlib/libdocket_host.a
[ -f "$archive" ] || { echo "no $archive: run 'tools/archive' in the repository" >&2; exit 1; }
"${CC:-cc}" -std=c11 -O2 -Wall -Wextra -Werror -pedantic -pthread -o "$2" "$here/$1.c" "$archive"
