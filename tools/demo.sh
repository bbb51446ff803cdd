#!/usr/bin/env bash
# Replays each script of demo/ and compares its report: tools/demo.sh [--quiet] [PROGRAM]. Without PROGRAM it is the one that
# tools/program names. Ends with 1 where a report differs; with --quiet it prints nothing else.
cd "$(dirname "$0")/.." || exit 2
quiet=
if [ "$1" = --quiet ]; then quiet=1; shift; fi
program=$(realpath "${1:-$(tools/program)}") || exit 2
[ -x "$program" ] || { echo "$program is no program" >&2; exit 2; }
work=$(mktemp -d) || exit 2
trap 'rm -rf "$work"' EXIT
for script in demo/*.json; do
  name=$(basename "$script" .json)
  (cd demo && "$program" replay "$name.json" > "$work/$name") || { echo "demo/$name.json: status $?" >&2; touch "$work/bad"; }
  [ -e "demo/$name.report" ] || { echo "demo/$name.json has no report" >&2; touch "$work/bad"; }
done
for report in demo/*.report; do
  name=$(basename "$report" .report)
  if ! cmp -s "$work/$name" "$report"; then
    echo "demo/$name.json: its report is not demo/$name.report:" >&2
    diff "$work/$name" "$report" | head -n 10 >&2
    touch "$work/bad"
  elif [ -z "$quiet" ]; then
    echo "demo/$name.json: the report is demo/$name.report"
  fi
done
[ ! -e "$work/bad" ]
