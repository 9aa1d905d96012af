#!/usr/bin/env bash
# Tries the wrong bodies in crates/NAME/wrong-bodies, of the crates that are named or of all, on a copy of the repository:
# the prover has to refuse each, as it does those in crates/NAME/must-fail at the gate. Run it when a crate's clauses or code
# change. It takes a check of each crate, of those below it, and one for each wrong body.
set -eu
top=$(cd "$(dirname "$0")/.." && pwd)
work=$(mktemp -d)
trap 'rm -rf "$work"' EXIT
cp "$top/crates.txt" "$top/HANDLES" "$work/"
mkdir "$work/crates"
for crate in "$top"/crates/*/; do
  name=$(basename "$crate")
  mkdir "$work/crates/$name"
  find "$crate" -mindepth 1 -maxdepth 1 ! -name out ! -name must-fail ! -name wrong-bodies -exec cp -r {} "$work/crates/$name/" \;
  [ -d "$crate/wrong-bodies" ] && cp -r "$crate/wrong-bodies" "$work/crates/$name/must-fail"
done
if [ $# -eq 0 ]; then
  for crate in "$work"/crates/*/must-fail; do set -- "$@" "$(basename "$(dirname "$crate")")"; done
fi
cd "$work"
rt must-fail "$@"
