#!/usr/bin/env bash
# Runs the built program where the system itself fails, and compares each status with the one that is stated:
# tools/edges.sh [PROGRAM]. Ends with 1 where one differs.
cd "$(dirname "$0")/.." || exit 2
program=$(realpath "${1:-$(tools/program)}") || exit 2
script=$(realpath demo/ordinary.json)
work=$(mktemp -d) || exit 2
trap 'rm -rf "$work"' EXIT
cd "$work" || exit 2
bad=0

# check NAME WANTED TEXT GOT: the status GOT, and the standard output in `out`, against what is wanted
check() {
  local name=$1 wanted=$2 text=$3 got=$4
  if [ "$got" != "$wanted" ] || [ "$(cat out)" != "$text" ]; then
    echo "$name: status $got, wanted $wanted; wrote: $(head -c 200 out)"
    bad=1
  else
    echo "$name: $got"
  fi
}

"$program" > out 2> hint
check "no words" 2 "usage: wcrun replay FILE | run FILE --workers N | load START N | check SCRIPT REPORT | probe FILE" $?

"$program" replay missing.json > out 2> hint
check "a missing file" 4 "read fault: missing.json" $?

"$program" replay . > out 2> hint
check "a directory" 4 "read fault: ." $?

# Root reads every file, so this one tells nothing to root.
cp "$script" secret.json && chmod 000 secret.json
if [ ! -r secret.json ]; then
  "$program" replay secret.json > out 2> hint
  check "an unreadable file" 4 "read fault: secret.json" $?
else
  echo "an unreadable file: left out, since this user reads every file"
fi

head -c 16777217 /dev/zero > long.json
"$program" replay long.json > out 2> hint
check "a file above the limit" 7 "limit: script 16777217" $?

head -c 16777216 /dev/zero > full.json
"$program" replay full.json > out 2> hint
check "a file of the limit that is no JSON" 3 "script: not json" $?

head -c 268435457 /dev/zero > long
"$program" probe long > out 2> hint
check "a media file above the limit" 7 "limit: file 268435457" $?

# Where the output cannot be written, nothing is wanted of what was written.
: > out
"$program" replay "$script" >&- 2> hint
check "a closed output" 5 "" $?

"$program" replay "$script" > /dev/full 2> hint
check "a full device" 5 "" $?

# The reader has ended before the program begins to write.
( trap '' PIPE; mkfifo pipe; { sleep 0.2; "$program" replay "$script" 2> hint; echo $? > status; } > pipe & head -c 0 < pipe; wait )
check "a pipe that ended" 5 "" "$(cat status)"

exit "$bad"
