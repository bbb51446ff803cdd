#!/usr/bin/env bash
# Builds tools/engine-test.c over the engine for C, and runs it: engine-test.sh [PREFIX [COUNT]]
# PREFIX is where tools/build-engine put the library (if not said, out/zemirako_engine). With few
# decodes it runs under the sanitizers of the C part, and under valgrind's memcheck and helgrind
# where valgrind is on the path; with COUNT (1,000,000, if not said) it runs alone. Each run prints
# the same.
set -euo pipefail

top=$(cd "$(dirname "$0")/.." && pwd)
prefix=${1:-$top/out/zemirako_engine}
count=${2:-1000000}
programs=$(mktemp -d)
trap 'rm -rf "$programs"' EXIT
flags=(-Wall -Wextra -Werror -I"$prefix/include")
code=("$top/tools/engine-test.c" "$prefix/lib/libzemirako_engine.a" -pthread
    -Wl,--wrap=malloc -Wl,--wrap=realloc -Wl,--wrap=free)
cc -std=c11 "${flags[@]}" -g -O1 -fsanitize=address,undefined -fno-sanitize-recover=all \
    -o "$programs/checked" "${code[@]}"
cc -std=c11 "${flags[@]}" -g -O2 -o "$programs/plain" "${code[@]}"
if command -v c++ >/dev/null; then
    c++ -std=c++17 "${flags[@]}" -fsyntax-only -x c++ "$prefix/include/zemirako_engine.h"
fi
if others=$(nm -g --defined-only "$prefix/lib/libzemirako_engine.a" | grep ' [A-Z] ' \
    | grep -v ' zemirako_'); then
    echo "symbols of other names:" >&2
    echo "$others" >&2
    exit 1
fi

"$programs/checked" 1000 >"$programs/checked.txt"
if command -v valgrind >/dev/null; then
    valgrind -q --error-exitcode=9 --leak-check=full --errors-for-leak-kinds=all \
        "$programs/plain" 200 >"$programs/memcheck.txt"
    valgrind -q --error-exitcode=9 --tool=helgrind \
        "$programs/plain" 200 >"$programs/helgrind.txt"
fi
"$programs/plain" "$count" >"$programs/plain.txt"
for run in "$programs"/*.txt; do cmp "$run" "$programs/plain.txt"; done
cat "$programs/plain.txt"
