#!/usr/bin/env bash
# Times a request of the sheet and the stays of a sheet: prints nanoseconds a call for ceremonies of 40 and of 1,000 stays
# and for sheets of 1,000 and of 10,000 rows. The program (bench/room/main.txt) stands apart from crates.txt, since what it
# prints is another number each time. It is proved like any crate.
set -eu
cd "$(dirname "$0")/.."
work=$(mktemp -d)
trap 'rm -rf "$work"' EXIT
mkdir "$work/crates"
cp -r crates/kcr_base "$work/crates/kcr_base"
cp -r crates/kcr_room "$work/crates/kcr_room"
mkdir -p "$work/crates/bench_room/src"
cp bench/room/main.txt "$work/crates/bench_room/src/main.rt"
cp bench/room/stdin "$work/crates/bench_room/stdin"
printf 'kcr_base: jiff jiff_core itoa\nkcr_room: kcr_base\nbench_room: kcr_base kcr_room anyhow\n' > "$work/crates.txt"
cd "$work/crates/bench_room"
rt run
