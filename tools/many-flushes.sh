#!/usr/bin/env bash
# Replays a script of 1,025 flushes of an unconfigured decoder, whose history has a segment of 1,024 entries and one of a
# single entry, and compares the whole report: tools/many-flushes.sh [PROGRAM]. Without PROGRAM it is the one that
# tools/program names. It prints nothing where the report is the same, and ends with 1 where it differs.
cd "$(dirname "$0")/.." || exit 2
program=$(realpath "${1:-$(tools/program)}") || exit 2
work=$(mktemp -d) || exit 2
trap 'rm -rf "$work"' EXIT
count=1025
awk -v count=$count 'BEGIN {
  print "{\"codecs\":[{\"name\":\"d\",\"kind\":\"audio-decoder\",\"saturation\":1}],\"callers\":[{\"name\":\"a\",\"steps\":["
  for (i = 0; i < count; i++) print (i ? "," : "") "{\"do\":\"flush\",\"on\":\"d\",\"as\":\"p" i "\"}"
  print "]}],\"order\":["
  for (i = 0; i < count; i++) print (i ? "," : "") "\"a\""
  print "]}"
}' > "$work/script.json"
awk -v count=$count 'BEGIN {
  print "wcrun report 1"
  print "caller a"
  for (i = 0; i < count; i++) print i " d." i " ok"
  print "codec d audio-decoder 1"
  for (i = 0; i < count; i++) { print i " a." i " flush = ok"; print "  reject " i " InvalidStateError" }
  print "pool"
  print "slots"
  print "held 0"
  print "end"
}' > "$work/wanted"
"$program" replay "$work/script.json" > "$work/report" || { echo "1,025 flushes: status $?" >&2; exit 1; }
cmp -s "$work/report" "$work/wanted" && exit 0
echo "1,025 flushes: another report than the one wanted:" >&2
diff "$work/report" "$work/wanted" | head -n 10 >&2
exit 1
