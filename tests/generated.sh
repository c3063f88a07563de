#!/usr/bin/env bash
# tests/generated.sh: what `tools/statement.py`, `tools/layers.py`, `tools/imports.py` and `tools/tables.py` write is what
# stands in the repository. The last one runs in a copy. It ends with status 0 if no file differs.
set -eu
cd "$(dirname "$0")/.."
python3 tools/statement.py --check
python3 tools/layers.py --check
python3 tools/imports.py --check
room=$(mktemp -d)
trap 'rm -rf "$room"' EXIT
mkdir "$room/crates"
cp -r tools crates.txt "$room"
crates="kcr_history kcr_audit kcr_rows kcr_tables kcr_verify"
for crate in $crates; do
  cp -r "crates/$crate" "$room/crates"
  rm -rf "$room/crates/$crate/out"
done
(
  cd "$room"
  python3 tools/tables.py
  for crate in $crates; do (cd "crates/$crate" && rt fmt > /dev/null); done
)
for crate in $crates; do
  diff -r -x out "crates/$crate" "$room/crates/$crate"
done
echo "tools/tables.py writes the files that stand in the repository"
