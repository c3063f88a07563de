#!/usr/bin/env bash
# Runs the worked examples of tests/unproved without a proof, as tests of a crate of their own, in a copy of the crates;
# then the search for seats alone with memory refused, which is a program (alone/main.txt), at each ninth request, or
# with --whole at each. They stand as .txt, since no check may find a .rt file outside a crate. The last line is
# `N passed, M failed`, and the status is 0 where all passed.
set -eu
stride=9
[ "${1:-}" != --whole ] || stride=1
cd "$(dirname "$0")/.."
work=$(mktemp -d)
trap 'rm -rf "$work"' EXIT
tar -c --exclude='crates/*/out' --exclude='crates/*/must-fail' crates | tar -x -C "$work"
mkdir -p "$work/crates/kcr_unproved/src" "$work/crates/seats_alone/src"
cp tests/unproved/alone/main.txt "$work/crates/seats_alone/src/main.rt"
for file in tests/unproved/*.txt; do
  cp "$file" "$work/crates/kcr_unproved/src/$(basename "$file" .txt).rt"
done
# the requests of a case, as bytes of the crate
python3 - "$work/crates/kcr_unproved/src/stream.rt" tests/cases/custody/bag-into-a-box << 'PYTHON'
import pathlib
import sys

requests = ", ".join(str(byte) for byte in pathlib.Path(sys.argv[2]).read_bytes())
text = f"//! The requests of a case.\n\npub(crate) const STREAM: &[u8] = &[{requests}];\n"
pathlib.Path(sys.argv[1]).write_text(text)
PYTHON
cp HANDLES "$work/HANDLES"
libraries="kcr_base kcr_seats kcr_people kcr_custody kcr_script kcr_room kcr_history kcr_audit kcr_machine kcr_tables kcr_store kcr_print kcr_wire kcr_desk kcr_verify kcr_log kcr_arguments kcr_fault itoa sqlite"
{ cat crates.txt; printf '\nkcr_unproved: %s\nseats_alone: kcr_seats\n' "$libraries"; } > "$work/crates.txt"
cd "$work/crates/kcr_unproved"
rt try --test --seconds 300 > "$work/told" 2>&1 || true
tail -n 45 "$work/told"
result=$(sed -n 's/^test result: [a-zA-Z]*\. \([0-9]* passed\); \([0-9]* failed\);.*/\1 \2/p' "$work/told" | tail -n 1)
read -r passed _ failed _ <<< "${result:-0 passed 1 failed}"

# the search for seats alone: its Nth request for memory is refused, for N from 1 until a run meets no refusal
cd "$work/crates/seats_alone"
number=1 status=7
while [ "$status" = 7 ]; do
  status=0
  rt try --fail-alloc "$number" > "$work/told" 2>&1 || status=$?
  [ "$status" != 7 ] || number=$((number + stride))
done
if [ "$status" = 0 ] && [ "$number" -gt 1 ]; then
  echo "the search for seats alone: some $((number - 1)) requests for memory"
  passed=$((passed + 1))
else
  tail -n 20 "$work/told"
  echo "not so: the search for seats alone, the refusal of request $number for memory: status $status"
  failed=$((failed + 1))
fi
echo "$passed passed, $failed failed"
[ "$passed" -gt 1 ] && [ "$failed" = 0 ]
