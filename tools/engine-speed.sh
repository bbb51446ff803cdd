#!/usr/bin/env bash
# Times decodes by the engine for C and by libavcodec in one run: engine-speed.sh [PREFIX [ROUNDS [COUNT]]]
# PREFIX is where tools/build-engine put the library (if not said, out/zemirako_engine). Needs gcc and Debian's
# package libavcodec-dev. tools/speed/engine.c says what is timed.
set -euo pipefail

top=$(cd "$(dirname "$0")/.." && pwd)
prefix=${1:-$top/out/zemirako_engine}
program=$(mktemp)
trap 'rm -f "$program"' EXIT
read -ra parts <<<"$(pkg-config --cflags --libs libavcodec libavutil)"
gcc -std=c11 -Wall -Wextra -Werror -O2 -I"$prefix/include" -o "$program" "$top/tools/speed/engine.c" \
    "$prefix/lib/libzemirako_engine.a" "${parts[@]}"
"$program" "${@:2}"
