#!/usr/bin/env bash
# Reads scripts of many bytes and of many steps, and writes a long report, and prints what each costs, beside Python's `json`
# and `xxd -p` on the same machine: tools/measure-scripts.sh [PROGRAM]. Wants /usr/bin/time, valgrind and python3.
cd "$(dirname "$0")/.." || exit 2
program=$(realpath "${1:-crates/wcrun/out/wcrun}") || exit 2
work=$(mktemp -d) || exit 2
trap 'rm -rf "$work"' EXIT
cd "$work" || exit 2

# cost NAME COMMAND..: the time, the peak memory, and the instructions
cost() {
  local name=$1
  shift
  local spent count
  spent=$(/usr/bin/time -q -f '%e s, %M KB' "$@" 2>&1 > out)
  count=$(valgrind --tool=callgrind --callgrind-out-file=calls "$@" 2>&1 > /dev/null | awk '/Collected/ {print $4}')
  printf '%-44s %s, %s instructions\n' "$name" "$spent" "$count"
}

# json FILE: what Python's json takes
json() {
  /usr/bin/time -f '%e s, %M KB' python3 -c 'import json, sys; json.load(open(sys.argv[1], "rb"))' "$1" 2>&1
}

# inline MEBIBYTES: one chunk whose hex text fills about so many mebibytes, and no order, so that reading is all
for mebibytes in 2 4 8 16; do
  python3 - "$mebibytes" > inline.json <<'PY'
import sys
size = int(sys.argv[1]) * 1024 * 1024 - 4096
print('{"codecs":[],"callers":[{"name":"a","steps":[{"do":"chunk","as":"c","init":{"type":"key","timestamp":0,"data":"%s"}}]}]}' % ("0a" * (size // 2)))
PY
  cost "script of $(stat -c %s inline.json) bytes of inline data" "$program" replay inline.json
  printf '%-44s %s\n' "  python3 json" "$(json inline.json)"
done

# steps COUNT: so many chunk steps, each with a name of its own and one of as many chunk files, and no order
for steps in 12500 25000 50000 100000; do
  python3 - "$steps" > steps.json <<'PY'
import sys
count = int(sys.argv[1])
steps = ",".join('{"do":"chunk","as":"c%d","file":"f%d","index":0}' % (n, n) for n in range(count))
print('{"codecs":[],"callers":[{"name":"a","steps":[%s]}]}' % steps)
PY
  cost "script of $steps steps and as many names" "$program" replay steps.json
  printf '%-44s %s\n' "  python3 json" "$(json steps.json)"
done

# outputs MEBIBYTES: chunk files of 1 MiB of ulaw, decoded to 2 MiB of 16-bit samples each
for mebibytes in 16 32 64; do
  python3 - "$mebibytes" <<'PY'
import json, struct, sys
count = int(sys.argv[1]) // 2
data = bytes(range(256)) * 4096
with open("media", "wb") as out:
    out.write(b"WCC1")
    for n in range(count):
        out.write(b"\0" + struct.pack(">q", n) + b"\0" + bytes(8) + struct.pack(">I", len(data)) + data)
steps = [{"do": "configure", "on": "d", "config": {"codec": "ulaw", "sampleRate": 8000, "numberOfChannels": 1}}]
order = ["a", {"start": "d"}, {"done": "d", "at": 1}, {"turn": "d"}, {"turn": "d"}]
for n in range(count):
    steps += [{"do": "chunk", "as": "c%d" % n, "file": "media", "index": n}, {"do": "decode", "on": "d", "chunk": "c%d" % n}]
    order += ["a", "a", {"start": "d"}, {"done": "d", "at": n + 2}, {"turn": "d"}, {"turn": "d"}]
json.dump({"codecs": [{"name": "d", "kind": "audio-decoder"}], "callers": [{"name": "a", "steps": steps}], "order": order}, open("outputs.json", "w"))
PY
  cost "report of $mebibytes MiB of outputs" "$program" replay outputs.json
  head -c $((mebibytes * 1024 * 1024)) /dev/zero > zeros
  cost "  xxd -p of as many bytes" xxd -p zeros
done
