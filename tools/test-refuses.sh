#!/usr/bin/env bash
# Tries the wrong bodies in crates/NAME/test-refuses/: they are proved, and a test of crates/NAME must refuse each. It works on
# a copy of the last commit. A text `file:` is a path from crates/NAME.
# tools/test-refuses.sh [NAME..]     all crates that have such wrong bodies, where none is named
cd "$(dirname "$0")/.." || exit 2
if [ $# -eq 0 ]; then
  for folder in crates/*/test-refuses; do
    [ -d "$folder" ] || continue
    name=${folder#crates/}
    set -- "$@" "${name%/test-refuses}"
  done
fi
[ $# -gt 0 ] || { echo "no crate has wrong bodies for its tests" >&2; exit 2; }
work=$(mktemp -d) || exit 2
trap 'rm -rf "$work"' EXIT
git clone -q . "$work/copy" || exit 2
cd "$work/copy" || exit 2
status=0
for name in "$@"; do
  for edit in "crates/$name"/test-refuses/*.edit; do
    file=crates/$name/$(sed -n 's/^file: //p' "$edit")
    old=$(sed -n 's/^old: //p' "$edit")
    new=$(sed -n 's/^new: //p' "$edit")
    [ "$(grep -cxF -- "$old" "$file")" = 1 ] || { echo "$edit: the old text does not stand once"; status=1; continue; }
    OLD=$old NEW=$new awk '$0 == ENVIRON["OLD"] { print ENVIRON["NEW"]; next } { print }' "$file" >"$work/new" || exit 2
    cp "$work/new" "$file"
    if (cd "crates/$name" && rt try --test) >"$work/log" 2>&1; then
      echo "$edit: NOT REFUSED"
      status=1
    elif grep -q '^FAIL\|failed' "$work/log"; then
      echo "$edit: refused by a test"
    else
      echo "$edit: no test was run"
      tail -5 "$work/log"
      status=1
    fi
    git checkout -q -- "$file"
  done
done
exit $status
