#!/usr/bin/env bash
# Tries the planted bugs in crates/NAME/planted/, as the gate tries those in crates/NAME/must-fail/: the prover must
# refuse each. They stand outside the gate for its time's sake. It works on a copy of the last commit, in which it proves
# the crates below first.
# tools/planted.sh [NAME..]     all crates that have planted bugs, where none is named
cd "$(dirname "$0")/.." || exit 2
if [ $# -eq 0 ]; then
  for folder in crates/*/planted; do
    [ -d "$folder" ] || continue
    name=${folder#crates/}
    set -- "$@" "${name%/planted}"
  done
fi
[ $# -gt 0 ] || { echo "no crate has planted bugs" >&2; exit 2; }
work=$(mktemp -d) || exit 2
trap 'rm -rf "$work"' EXIT
git clone -q . "$work/copy" || exit 2
cd "$work/copy" || exit 2
for name in "$@"; do
  rm -rf "crates/$name/must-fail"
  mv "crates/$name/planted" "crates/$name/must-fail" || exit 2
done
rt must-fail "$@"
