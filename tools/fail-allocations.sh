#!/usr/bin/env bash
# Makes each allocation of the built program fail in turn while it replays each script of demo/, then a script in which an
# encoder holds a clone of what was closed until a reset lets it go, and a transcode (mu-law decoded, encoded as FLAC and
# decoded again), and compares the status and what was written: 0 with the whole report, or with one in which a work item ended
# for want of memory and closed the codec; 6 with a beginning of a report and `out of memory`; 4 with `read fault: NAME`, where
# the system's own reading wanted memory. Prints a row for each script. Needs gcc and python3.
# tools/fail-allocations.sh [PROGRAM]
cd "$(dirname "$0")/.." || exit 2
program=$(realpath "${1:-$(tools/program)}") || exit 2
work=$(mktemp -d) || exit 2
trap 'rm -rf "$work"' EXIT
cat > "$work/fail.c" <<'C'
// The malloc whose number is in FAIL_ALLOC fails, counted from 1; so does a realloc.
#define _GNU_SOURCE
#include <dlfcn.h>
#include <stdlib.h>
static long count;
static int fails(void) {
  const char *n = getenv("FAIL_ALLOC");
  return n && ++count == atol(n);
}
void *malloc(size_t size) {
  static void *(*real)(size_t);
  if (!real) real = dlsym(RTLD_NEXT, "malloc");
  return fails() ? 0 : real(size);
}
void *realloc(void *old, size_t size) {
  static void *(*real)(void *, size_t);
  if (!real) real = dlsym(RTLD_NEXT, "realloc");
  return fails() ? 0 : real(old, size);
}
void *aligned_alloc(size_t align, size_t size) {
  static void *(*real)(size_t, size_t);
  if (!real) real = dlsym(RTLD_NEXT, "aligned_alloc");
  return fails() ? 0 : real(align, size);
}
int posix_memalign(void **to, size_t align, size_t size) {
  static int (*real)(void **, size_t, size_t);
  if (!real) real = dlsym(RTLD_NEXT, "posix_memalign");
  return fails() ? 12 : real(to, align, size);
}
C
gcc -shared -fPIC -O1 -o "$work/fail.so" "$work/fail.c" -ldl || exit 2
cat > "$work/given-back.json" <<'JSON'
{"codecs":[{"name":"e","kind":"audio-encoder"}],"callers":[{"name":"a","steps":[
{"do":"audio","as":"x","init":{"format":"s16","sampleRate":8000,"numberOfFrames":1,"numberOfChannels":1,
"timestamp":0,"data":"0100"}},
{"do":"configure","on":"e","config":{"codec":"pcm-s16","sampleRate":8000,"numberOfChannels":1}},
{"do":"encode","on":"e","data":"x"},
{"do":"close-data","of":"x"},
{"do":"reset","on":"e"},
{"do":"transfer","of":"x","as":"y"}]}],
"order":["a","a","a","a","a","a"]}
JSON
"$program" replay "$work/given-back.json" > "$work/given-back.report" || exit 2
grep -q "^3 e.2 end 0 1 gone$" "$work/given-back.report" || { echo "the clone was not given back by the reset"; exit 1; }

# The transcode: 50 chunks of 160 bytes of mu-law, as two blocks of FLAC, and back.
python3 - "$work" <<'PY' || exit 2
import json, struct, sys
chunk = bytes(range(160))
with open(sys.argv[1] + "/sound", "wb") as out:
    out.write(b"WCC1")
    for i in range(50):
        out.write(b"\0" + struct.pack(">q", 20000 * i) + bytes(9) + struct.pack(">I", len(chunk)) + chunk)
description = "664c6143800000221000100000000000000001f400f000000000" + "0" * 32
steps = [{"do": "configure", "on": on, "config": {"codec": codec, "sampleRate": 8000, "numberOfChannels": 1, **more}}
         for on, codec, more in (("u", "ulaw", {}), ("e", "flac", {}), ("f", "flac", {"description": description}))]
steps += [{"do": "chunk", "as": f"c{i}", "file": sys.argv[1] + "/sound", "index": i} for i in range(50)]
steps += [{"do": "decode", "on": "u", "chunk": f"c{i}"} for i in range(50)]
steps += [{"do": "flush", "on": "u", "as": "p"}, {"do": "await", "promise": "p"}]
first = len(steps) - 1
steps += [{"do": "take", "on": "u", "as": f"x{i}"} for i in range(50)]
steps += [{"do": "encode", "on": "e", "data": f"x{i}"} for i in range(50)]
steps += [{"do": "flush", "on": "e", "as": "q"}, {"do": "await", "promise": "q"}]
second = len(steps) - 1
steps += [{"do": "take", "on": "e", "as": f"k{i}"} for i in range(2)]
steps += [{"do": "decode", "on": "f", "chunk": f"k{i}"} for i in range(2)]
steps += [{"do": "flush", "on": "f", "as": "r"}, {"do": "await", "promise": "r"}]
third = len(steps) - 1
steps += [{"do": "take", "on": "f", "as": f"y{i}"} for i in range(2)]
steps += [{"do": "close-data", "of": f"x{i}"} for i in range(50)] + [{"do": "close-data", "of": f"y{i}"} for i in range(2)]
def work(on, count):
    return ([{"start": on}, {"done": on, "at": 0}] + [{"turn": on}] * 3) * count
order = ["a"] * first + work("u", 60) + ["a"] * (second - first) + work("e", 60)
order += ["a"] * (third - second) + work("f", 10) + ["a"] * (len(steps) - third)
script = {"codecs": [{"name": n, "kind": k} for n, k in (("u", "audio-decoder"), ("e", "audio-encoder"), ("f", "audio-decoder"))],
          "callers": [{"name": "a", "steps": steps}], "order": order}
json.dump(script, open(sys.argv[1] + "/transcode.json", "w"))
PY
"$program" replay "$work/transcode.json" > "$work/transcode.report" || exit 2
grep -q "^  output audio s16 8000 1 3904 " "$work/transcode.report" || { echo "the transcode did not come to its end"; exit 1; }

# the report without how its items ended
ends_aside() {
  sed -E 's/^([0-9]+ done [0-9.]+ [0-9]+) .*/\1/' <<< "$1"
}

# wants_memory WRITTEN WHOLE: a whole report in which an item ended for want of memory, and the codec was then closed; or nothing
# else came of it, since a reset had removed what the item was for
wants_memory() {
  [[ $1 == "wcrun report 1"*" no-memory"*$'\n'end ]] || return 1
  [[ $1 == *" no-memory"*"turn close OutOfMemory"*"  error OutOfMemory"* ]] || [ "$(ends_aside "$1")" = "$(ends_aside "$2")" ]
}

bad=0
# each SCRIPT REPORT: a row with how many allocations failed in turn, and how the runs ended
each() {
  local script whole failed=0 closed=0 stopped=0 unread=0 wrong=0 quiet=0 n status written beginning
  script=$(basename "$1")
  whole=$(cat "$2")
  cd "$(dirname "$1")" || exit 2
  [ "$("$program" replay "$script")" = "$whole" ] || { echo "$script: another report"; bad=1; return; }
  for n in $(seq 1 100000); do
    FAIL_ALLOC=$n LD_PRELOAD=$work/fail.so timeout 20 "$program" replay "$script" > "$work/out" 2> "$work/err"
    status=$?
    written=$(cat "$work/out")
    case $status in
      0) if [ "$written" = "$whole" ]; then
           # After ten in a row that were whole, there are no more allocations.
           quiet=$((quiet + 1)); [ "$quiet" -lt 10 ] || break
         else
           quiet=0 failed=$((failed + 1)) closed=$((closed + 1))
           wants_memory "$written" "$whole" || { echo "$n: status 0, another text"; wrong=$((wrong + 1)); }
         fi ;;
      6) quiet=0 failed=$((failed + 1)) stopped=$((stopped + 1))
         beginning=${written%out of memory}
         case "$whole" in
           "${beginning%$'\n'}"*) ;;
           *) echo "$n: status 6, no beginning of the report"; wrong=$((wrong + 1)) ;;
         esac
         [ "$beginning" != "$written" ] || { echo "$n: status 6 without its line"; wrong=$((wrong + 1)); } ;;
      4) quiet=0 failed=$((failed + 1)) unread=$((unread + 1))
         [[ $written == "read fault: "* ]] || { echo "$n: status 4, another text"; wrong=$((wrong + 1)); } ;;
      *) quiet=0; echo "$n: status $status"; wrong=$((wrong + 1)) ;;
    esac
  done
  echo "| $script | $failed | $closed | $stopped | $unread | $wrong |"
  [ "$wrong" -eq 0 ] || bad=1
}

echo "| script | allocations that failed in turn | 0, an item wanted memory | 6 | 4 | not as stated |"
echo "|---|---|---|---|---|---|"
for report in "$PWD"/demo/*.report; do each "${report%.report}.json" "$report"; done
each "$work/given-back.json" "$work/given-back.report"
each "$work/transcode.json" "$work/transcode.report"
exit "$bad"
