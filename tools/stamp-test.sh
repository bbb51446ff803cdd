#!/usr/bin/env bash
# Tries tools/stamp in a clone of this repository: what is and what is not the program of the sources as they stand. Wants git
# and rt. Ends with 1 where an answer is another one.
cd "$(dirname "$0")/.." || exit 2
room=$(mktemp -d) || exit 2
trap 'rm -rf "$room"' EXIT
git clone -q . "$room/tree" && cd "$room/tree" || exit 2
program=crates/wcrun/out/wcrun
mkdir -p crates/wcrun/out out/unproved
printf '#!/bin/sh\necho hi\n' | tee $program > out/unproved/wcrun
chmod +x $program out/unproved/wcrun
bad=0
# wants yes|no PROGRAM WHAT
wants() {
  local answer=no
  tools/stamp check "$2" 2> /dev/null && answer=yes
  if [ $answer = "$1" ]; then echo "$3: $answer"; else echo "$3: $answer, and not $1"; bad=1; fi
}
stamped() { tools/stamp write $program "$(tools/stamp sum $program)"; tools/stamp write out/unproved/wcrun "$(tools/stamp sum out/unproved/wcrun)"; }
wants no $program "a program with no stamp"
stamped
wants yes $program "a program with its stamp"
touch crates/wcrun/src/main.rt crates/wc_base/specs/Lib.antt
wants yes $program "sources with a new date"
echo '// more' >> crates/wc_base/src/lib.rt
wants no $program "a changed source of a crate below"
wants no out/unproved/wcrun "the same, of the unproved program"
git checkout -q .
wants yes $program "the sources as they were"
echo '-- more' >> crates/wc_base/specs/Lib.antt
wants no $program "a changed definition"
wants yes out/unproved/wcrun "the same, of the unproved program"
git checkout -q .
echo '// more' >> crates/c_library/src/lib.rt
wants yes $program "a changed source of a crate that it does not stand on"
git checkout -q .
sum=$(tools/stamp sum $program)
echo '// more' >> crates/wcrun/src/main.rt
tools/stamp write $program "$sum" 2> /dev/null && { echo "a stamp was written of sources that changed meanwhile"; bad=1; }
git checkout -q .
echo 'echo more' >> $program
wants no $program "other bytes of the program"
exit $bad
