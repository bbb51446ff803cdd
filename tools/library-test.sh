#!/usr/bin/env bash
# Builds tools/library-test.c over the library for C, under sanitizers, and runs it: library-test.sh [PREFIX [FILE]]
# PREFIX is where tools/build-library put the library (if not said, out/zemirako). The frames with changed bytes are kept
# in FILE, if it is said.
set -euo pipefail

top=$(cd "$(dirname "$0")/.." && pwd)
prefix=${1:-$top/out/zemirako}
program=$(mktemp)
trap 'rm -f "$program"' EXIT
cc -std=c11 -Wall -Wextra -Werror -g -O1 -fsanitize=address,undefined -fno-sanitize-recover=all \
    -Wl,--wrap=malloc -Wl,--wrap=realloc -Wl,--wrap=free \
    -I"$prefix/include" -o "$program" "$top/tools/library-test.c" "$prefix/lib/libzemirako.a"
"$program" "${@:2}"
